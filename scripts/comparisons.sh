# shellcheck shell=bash
# SPDX-License-Identifier: Apache-2.0 OR MIT
# What scripts/try-library and scripts/try-rust have in common: they source this at the top of the repository. It makes a
# folder with files of frames, which goes when the script ends, and has functions that run a program on them and compare
# what it writes with what is stored, or with what is written out here. Each fault is a line with the name of the script.

readonly script=${0##*/}
readonly frames=examples/every-kind.frames
room=$(mktemp -d) || exit 1
readonly room
trap 'rm -rf "$room"' EXIT
faults=0

fault() {
    echo "$script: $1"
    faults=$((faults + 1))
}

# Ends the script with its last line.
finish() {
    if [ "$faults" -gt 0 ]; then
        echo "$script: $faults faults"
        exit 1
    fi
    echo "$script: ok"
    exit 0
}

# Whether a command is there and runs; else what needs it is left out.
has() {
    "$1" --version > /dev/null 2>&1 && return
    echo "$script: $2 is left out, since there is no $1"
    return 1
}

# Ends the script if make lib has not been run.
need_library() {
    [ -e lib/libbactool.a ] && [ -e lib/libbactool.so ] && return
    echo "$script: make lib makes the library first" >&2
    exit 1
}

# Runs a command on a file, which must end with this status, and write what is in the other file.
ends() {
    local status=$1 from=$2 file=$3 found
    shift 3
    "$@" < "$from" > "$room/written" 2> "$room/errors"
    found=$?
    [ "$found" = "$status" ] || fault "$* ended with $found in the place of $status on $from"
    cmp -s "$room/written" "$file" || fault "$* does not write of $from what is in $file"
}

# The same of a file whose frames are all accepted.
compare() {
    ends 0 "$@"
}

# A command on every kind of frame, whose output takes nothing, ends with status 2.
ends_when_full() {
    "$@" < "$frames" > /dev/full 2> "$room/errors"
    [ $? = 2 ] || fault "$* > /dev/full is no fault"
}

# A refused record is status 1. What ends within a record, or cannot be read or written, is status 2.
printf '\0\003\001\200\022\0' > "$room/cut-head"
printf '\0\003\001\200\022\0\002\001' > "$room/cut-record"
printf '1 ok\n' > "$room/first"
ends_as_check() {
    ends 1 examples/three-kinds.frames "$room/three" "$@"
    ends 2 "$room/cut-head" "$room/first" "$@"
    ends 2 "$room/cut-record" "$room/first" "$@"
    ends_when_full "$@"
    # Python itself ends where its input is a folder.
    [ "$1" = python3 ] || ends 2 "$room" /dev/null "$@"
}
head -c 15 examples/three-kinds.frames > "$room/one"
cat "$room/one" "$room/one" > "$room/two"
head -c 5 "$room/cut-record" > "$room/whole"
ends_as_normalise() {
    ends 1 examples/three-kinds.frames "$room/two" "$@"
    ends 2 "$room/cut-record" "$room/whole" "$@"
}

# The same of what `check` says of every kind of frame, and of a canonical, a tolerated and a refused one.
printf '1 ok\n2 tolerated at 1\n3 refused Short at 0\n' > "$room/three"
compare_check() {
    compare "$frames" examples/every-kind.check.txt "$@"
    ends_as_check "$@"
}

# The values in the answers of a file: what `examples/c/values.c` prints of them. Those at the ends of their types are
# records of their own.
record() {
    local digits="$*"
    digits=${digits//[^0-9A-F]/}
    printf '%b' "$(printf '%04X%s' $((${#digits} / 2)) "$digits" | sed 's/../\\x&/g')"
}
answer() {
    record 010030010C 0C00000005 1955 3E "$@" 3F
}
{
    answer 00 10 11 2105 31FB 4441480000 55083FF0000000000000 62CAFE 75060048656C6C6F 7205E9 8306A540 9103 \
        A47E0B1701 B40F0C1E00 C402000004 1955 2E21012F 4E4F
    answer 447F800000 44FF800000 447FC00000 44FFC00000 4480000000 4400000001 447F7FFFFF 4442C80000 443DCCCCCD \
        444B189680 44322BCC77
    answer 55087FF8000000000001 5508FFF0000000000000 55080000000000000001 55087FEFFFFFFFFFFFFF \
        55083FB999999999999A 55083FD3333333333334 55084340000000000000
    answer 750700225C7F0AC3A9 7103 2508FFFFFFFFFFFFFFFF 35088000000000000000 60 8100 820780
    record 010030010C 0C00000005 1955 2907 3E3F
    record 0101 30010C
} > "$room/values.frames"
cat > "$room/values" << 'END'
1 object=0:5 property=85 value null false true 5 -5 12.5 1 o:CAFE "Hello" s5:E9 b:1010010101 3 D:7E0B1701 T:0F0C1E00 8:4 [1]55 [2]{ 1 } [4]{ }
2 object=0:5 property=85 value inf -inf nan nan -0 1.4013e-45 3.4028235e+38 100 0.1 1e+07 1e-08
3 object=0:5 property=85 value nan -inf 4.94065645841247e-324 1.7976931348623157e+308 0.1 0.30000000000000004 9007199254740992
4 object=0:5 property=85 value "\x22\x5C\x7F\x0Aé" s3: 18446744073709551615 -9223372036854775808 o: b: b:1
5 object=0:5 property=85 index=7 value
END
compare_values() {
    compare "$frames" examples/every-kind.values.txt "$@"
    ends 1 "$room/values.frames" "$room/values" "$@"
    grep -q 'record 6: refused Short at 5$' "$room/errors" || fault "$* does not name a refused record"
    ends 2 "$room/cut-head" /dev/null "$@"
    ends 2 "$room/cut-record" /dev/null "$@"
    ends 2 "$room" /dev/null "$@"
    ends_when_full "$@"
}

# The rows of frames in crates/bac_vectors/data, as files: what `check`, `show` and `normalise` must say of them.
compare_rows() {
    [ -e "$room/rows.frames" ] || return 0
    ends "$1" "$room/$2" "$room/$3" "${@:4}"
}
if has python3 "the rows of crates/bac_vectors"; then
    scripts/frames-of-rows "$room" || fault "scripts/frames-of-rows"
fi

# The frames that the examples make of fields: the octets of each, and its text.
cat > "$room/fields" << 'END'
01040005010C0C000000051955 prio=0 reply=1 conf id=1 sa=0 segs=0 resp=5 ReadProperty object=0:5 property=85
010030010C0C0000000519553E444290999A3F prio=0 reply=0 ack id=1 ReadProperty object=0:5 property=85 value={r:4290999A}
010030010C0C00000005194D3E75060048656C6C6F3F prio=0 reply=0 ack id=1 ReadProperty object=0:5 property=77 value={s:"Hello"}
01040005030F0C0040000119553E4442C800003F4909 prio=0 reply=1 conf id=3 sa=0 segs=0 resp=5 WriteProperty object=1:1 property=85 value={r:42C80000} priority=9
END

# The way back from the text: the lines, with their numbers or without, give the canonical records. The lines of the rows
# of frames are in $room/lines, if a program has written them.
sed 's/^[0-9]* //' examples/every-kind.txt > "$room/plain.txt"
printf '%s\n' 'prio=0 reply=0 unconf Who-Is' 'prio=4 reply=0 unconf Who-Is' > "$room/refused.txt"
printf '\0\004\001\0\020\010' > "$room/who-is"
compare_read() {
    compare examples/every-kind.txt examples/every-kind.canonical.frames "$@"
    compare "$room/plain.txt" examples/every-kind.canonical.frames "$@"
    ends 1 "$room/refused.txt" "$room/who-is" "$@"
    grep -q 'line 2: refused Text at 5$' "$room/errors" || fault "$* does not name what is refused"
    [ -e "$room/lines" ] || return 0
    compare "$room/lines" "$room/rows.canonical" "$@"
    compare "$room/read.lines" "$room/read.canonical" "$@"
}
