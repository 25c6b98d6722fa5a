# The commands of README.md and docs/ARCHITECTURE.md.
SHELL := /bin/bash
.SHELLFLAGS := -o pipefail -c
.PHONY: run test lib install uninstall fuzz bench pages

# Proves and builds a program, crates/NAME/out/NAME, holds it to its stored input, and says so; rt's lines are shown where it fails.
proved = . tests/tools.sh; program $(1)

# Proves, builds and runs the listen program on a real sender's request, and shows its lines.
run:
	@$(call proved,listen)
	@echo "What DCMTK's echoscu sent, through listen: action, state after, bytes sent"
	@. tests/tools.sh; need_x86; x86_run crates/listen/out/listen < tests/listen/dcmtk_echo.in

# The gate: every proof, every must-fail edit, every program, every other test.
test:
	@bash .ci/run

# The archive that a host in C links, proved and built anew where a file of crates/ is newer than it.
archive := target/staticlib/libfeohanna.a
lib: $(archive)
	@echo "The archive, for x86-64 Linux: $(archive)"

$(archive): crates.txt $(shell find crates -mindepth 2 -name out -prune -o -print)
	@command -v rt >/dev/null || { echo "make lib: there is no rt: install the Rattle kit, and put its folder bin into PATH" >&2; exit 1; }
	@. tests/tools.sh; archive target/staticlib/log

# Header, archive, feohanna.pc and manual page: make install PREFIX=/usr/local DESTDIR=
PREFIX ?= /usr/local
install uninstall: export PREFIX := $(PREFIX)
install uninstall: export INCLUDEDIR = $(PREFIX)/include
install uninstall: export LIBDIR = $(PREFIX)/lib
install uninstall: export MANDIR = $(PREFIX)/share/man
install: lib
	@bash packaging/install
uninstall:
	@bash packaging/install --remove

# Fresh calls by the second program against replay: make fuzz SEED=7 COUNT=100000
fuzz:
	@$(call proved,replay)
	@SEED=$(SEED) COUNT=$(COUNT) bash tests/fuzz/run

# Ratios to memcpy, to the second program and to DCMTK, for docs/BENCH.md.
bench:
	@bash bench/run

# What is counted or drawn on the pages, written anew: the table of functions, the counts of definitions, the picture of the crates. Then whether every citation stands.
pages:
	@python3 tests/functions/functions.py --write
	@python3 tests/promises/believed.py --write
	@python3 tests/architecture/draw.py --write
	@python3 tests/promises/cited.py
