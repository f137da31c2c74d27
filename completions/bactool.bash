# SPDX-License-Identifier: Apache-2.0 OR MIT
# Completion of bactool for bash. The program reads standard input alone, so no file names are offered.
_bactool() {
    local words='show explain check normalise pack read help --help --version'
    case ${COMP_WORDS[1]} in
        show | explain | check | normalise) [ "$COMP_CWORD" -eq 1 ] || words='--strict --help' ;;
        pack | read) [ "$COMP_CWORD" -eq 1 ] || words='--help' ;;
        help)
            [ "$COMP_CWORD" -ne 2 ] || words='show explain check normalise pack read'
            [ "$COMP_CWORD" -le 2 ] || words=''
            ;;
        *) [ "$COMP_CWORD" -eq 1 ] || words='' ;;
    esac
    mapfile -t COMPREPLY < <(compgen -W "$words" -- "${COMP_WORDS[COMP_CWORD]}")
}
complete -F _bactool bactool
