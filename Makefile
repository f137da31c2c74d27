# SPDX-License-Identifier: Apache-2.0 OR MIT
# The commands of this repository, one line each:
#   make look    builds the program without any proof, and shows a file of examples (a minute or two); with FILE=site.pcap
#                it shows that capture, frame file or text of hexadecimal digits
#   make         proves and builds the program, and leaves it in bin/bactool
#   make test    the checks of the documents, then the merge gate: every proof from nothing, every test, the program on
#                the files of examples and the commands that the documents show, the examples in C, Python and Rust on
#                the library of what was proved, and the helpers
#   make check   proves what changed since the last check, while editing
#   make bench   measures the program on a million records, the calls from C on the same, and values, services, APDUs
#                and frames of the library
#   make memory  runs tests of the library with each of the first twelve allocations refused in turn, and the program
#                with each of the first sixty (by hand: it takes an hour)
#   make wrong-bodies  tries the wrong bodies that the gate leaves out (by hand: it takes an hour and more)
#   make try-helpers  runs the tests of the helpers in Python, and that of make look (by hand: it takes some minutes)
#   make lib     proves and builds the library for C, and leaves it in lib/libbactool.a and lib/libbactool.so
#   make try-library  runs it from C, Python and Rust on the examples, tries hostile use of it, and then its headers and the
#                crate for Rust (some seconds, or a minute for the crate)
#   make wheel   packs the package for Python with the library of make lib as a wheel, into dist/, for pip install
#   make wireshark  builds the module for Wireshark over the library, into wireshark/out
#   make try-wireshark  runs it in tshark, on captures of canonical, tolerated and refused frames (some seconds)
#   make install, make uninstall  put the program, the library, its header, the man page, the helpers, the Python module
#                and completions below PREFIX, or take them away; PREFIX is /usr/local, and DESTDIR is put before it
#   make dist    packs what make and make lib left as a tar file, a Debian package and a wheel for Python, into dist/
#   make try-dist  unpacks both where nothing else is, and tries what is in them
#   make definitions  prints an index of the definitions that contracts speak of, with the first sentence of each
#   make clean   removes what the others made
#   make help    prints these lines

.PHONY: build helpers look test check definitions bench memory wrong-bodies try-helpers lib try-library wireshark try-wireshark wheel install uninstall dist try-dist clean help need-rt

build: need-rt
	@echo "bactool: proving and building it into bin/bactool (long the first time, seconds after that)"
	@scripts/build bactool --help
	@mkdir -p bin
	@cp crates/bactool/out/bactool bin/bactool
	@$(MAKE) --no-print-directory helpers

helpers:
	@mkdir -p $(BIN)
	@ln -srf $(addprefix scripts/,$(HELPERS) $(HELPER_DATA)) $(BIN)

# What make look shows: a capture, lines of hexadecimal digits, or a frame file.
FILE = examples/every-kind.frames

look: need-rt
	@scripts/look '$(FILE)'

# rt ci takes no links in the repository; what makes them makes them again.
test: need-rt
	@.ci/docs
	@find bin lib -type l -delete 2> /dev/null || true
	@rt ci
	@scripts/gate-library
	@scripts/try-program
	@scripts/try-texts
	@scripts/try-lines
	@scripts/try-look
	@test ! -e bin/bactool || $(MAKE) --no-print-directory helpers
	@if ! command -v python3 > /dev/null; then echo "helpers: left out, since there is no python3"; else \
		scripts/try-explain && scripts/try-capture && scripts/try-with-names && scripts/try-npdus-from-capture; fi

check: need-rt
	@rt all check

definitions:
	@scripts/definitions

bench: build
	@echo "bactool: proving and building the measurement into bin/bac_bench (some minutes the first time, seconds after that)"
	@scripts/build bac_bench
	@cp crates/bac_bench/out/bac_bench bin/bac_bench
	@$(MAKE) --no-print-directory lib || echo "bactool: there is no library for C, so its column is left out"
	@scripts/bench

memory: need-rt
	@scripts/refuse-memory

wrong-bodies: need-rt
	@scripts/wrong-bodies

try-helpers:
	@scripts/try-npdus-from-capture
	@scripts/try-with-names
	@scripts/try-look --build
	@scripts/try-capture

# Where make install puts what it installs; DESTDIR is put before it. DOCUMENTS and PYTHON are folders below it.
PREFIX ?= /usr/local
DOCUMENTS ?= share/doc/bactool
PYTHON ?= share/bactool/python

# The helpers are beside the program: make links them into bin/, and make install copies them. What they read is linked
# beside them too, and copied to share/bactool.
BIN ?= bin
HELPERS = bactool-capture npdus-from-capture with-names in-parts names-of-tshark
HELPER_DATA = $(notdir $(wildcard scripts/*.txt))

# What is installed, SOURCE:PLACE each, as scripts/install-files takes it. A folder ends with / and is taken whole.
INSTALLED = bin/bactool:bin/bactool \
	$(foreach helper,$(HELPERS),scripts/$(helper):bin/$(helper)) \
	$(foreach file,$(HELPER_DATA),scripts/$(file):share/bactool/$(file)) \
	$(foreach header,$(wildcard include/*.h),$(header):$(header)) \
	include/bactool.pc.in:lib/pkgconfig/bactool.pc \
	include/bactool-config.cmake:lib/cmake/bactool/bactool-config.cmake \
	include/bactool-config-version.cmake.in:lib/cmake/bactool/bactool-config-version.cmake \
	lib/libbactool.a:lib/libbactool.a \
	lib/libbactool.so.1:lib/libbactool.so.1 \
	lib/libbactool.so:lib/libbactool.so \
	$(MODULE) \
	$(PLUGIN) \
	docs/bactool.1:share/man/man1/bactool.1 \
	completions/bactool.bash:share/bash-completion/completions/bactool \
	completions/_bactool:share/zsh/site-functions/_bactool \
	$(foreach file,README.md CHANGELOG.md CONTRIBUTING.md LICENSE,$(file):$(DOCUMENTS)/$(file)) \
	docs/:$(DOCUMENTS)/docs/ \
	examples/:$(DOCUMENTS)/examples/ \
	$(if $(wildcard rust/Cargo.toml),rust/:$(DOCUMENTS)/rust/)

# The plugin for Wireshark, if it was built: where the system's Wireshark looks for plugins if PREFIX is /usr, and beside
# the documents, which show commands with it.
PLUGINS = lib/$(shell uname -m)-linux-gnu/wireshark/plugins
PLUGIN = $(if $(wildcard wireshark/out/bactool.so),$(foreach folder,$(PLUGINS) $(DOCUMENTS)/wireshark,\
	wireshark/bactool.lua:$(folder)/bactool.lua wireshark/out/bactool.so:$(folder)/bactool.so))

# The package for Python, with the helper that has its names.
MODULE = python/bactool/:$(PYTHON)/bactool/ scripts/with-names:$(PYTHON)/bactool/with_names.py \
	scripts/bacnet-names.txt:$(PYTHON)/bactool/bacnet-names.txt

lib: need-rt
	@echo "bactool: proving and building the library into lib/ (long the first time, seconds after that)"
	@scripts/build bac_c
	@scripts/link-library

try-library: lib
	@scripts/try-library
	@scripts/try-header
	@scripts/try-python
	@scripts/try-rust

wireshark:
	@scripts/link-wireshark

wheel:
	@python3 -B python/backend.py dist

try-wireshark:
	@scripts/try-wireshark

install:
	@test -e bin/bactool && test -e lib/libbactool.a || { echo "bactool: make and make lib come before make install" >&2; exit 1; }
	@PREFIX=$(PREFIX) scripts/install-files $(DESTDIR)$(PREFIX)/ $(INSTALLED)

uninstall:
	@scripts/install-files --remove $(DESTDIR)$(PREFIX)/ $(INSTALLED)

dist:
	@scripts/dist

try-dist:
	@scripts/try-dist

clean:
	@rm -rf bin lib dist wireshark/out crates/*/out

help:
	@sed -n '2,/^$$/s/^#   //p' Makefile

need-rt:
	@command -v rt > /dev/null || { echo "bactool: the toolchain's command rt is not on the PATH; README.md says which kit is wanted" >&2; exit 1; }
