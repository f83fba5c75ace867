# make run: the link word printer on document 01's example, the example of the README in C, and an ice notice through its day.
# make tool: build/decklewren, the command line tool.
# make install: header, archive, pkg-config file and tool below PREFIX (/usr/local); DESTDIR stands before it where a package is staged.
# make uninstall: removes these four files, for the same PREFIX and DESTDIR.
# make check-install: installs both ways below build/, compiles the README's example against each tree and removes it again.
# make test: the gate, as .ci/run runs it; ends 'N passed, 0 failed'.
# make refusals: the first error of each must-fail edit, from the log of the last gate.
# make soak: not in the gate. CALLS calls of each kind, random, damaged and malformed, the archive against the second implementation.
# make bench: nanoseconds per block and ratios to a plain writer in C, and of slot bursts by parts to whole ones, measured in one run.
# make against OTHER=ARCHIVE: this archive's times and ratios to those of another, say an earlier one, measured in one run.
# make stack: bytes of stack that each call takes, against what the header says.
# make picture: draws docs/slot-burst.svg again, from the header's numbers.
# make clean: removes build/; the proofs in crates/*/out/ stay.
# make help: these lines. CC and CFLAGS are the caller's where they are given.
.PHONY: help run tool install uninstall check-install test refusals soak bench against build/other.a stack picture clean prefix
.DEFAULT_GOAL := help

ifeq ($(origin CC),default)
CC = gcc
endif
CFLAGS ?= -O2 -Wall -Wextra -Wpedantic
COMPILE = $(CC) -std=c11 $(CPPFLAGS) $(CFLAGS) -Iinclude
ARCHIVE = build/libdecklewren.a
HEADER = include/decklewren.h
VERSION = $(shell awk '/^.define DECKLEWREN_VERSION_/ {text = text dot $$3; dot = "."} END {print text}' $(HEADER))
PREFIX ?= /usr/local
INSTALLED = $(DESTDIR)$(PREFIX)
NEED_RT = command -v rt >/dev/null || { echo "rt, the Rattle toolchain, is not on PATH; see README, Setting up" >&2; exit 1; }

help:
	@sed -n 's/^# make /make /p' Makefile

run: build/example build/ice_notice
	@$(NEED_RT)
	@cd crates/link_word_printer && bash ../../host/prove.sh ../../build/printer.log rt run <stdin
	crates/link_word_printer/out/link_word_printer <crates/link_word_printer/stdin
	build/example
	build/ice_notice

build/example build/ice_notice: build/%: host/%.c $(HEADER) $(ARCHIVE) | build
	$(COMPILE) $< $(ARCHIVE) $(LDFLAGS) -o $@

tool: build/decklewren

build/decklewren: $(wildcard host/tool*.c) host/tool.h $(HEADER) $(ARCHIVE) | build
	$(COMPILE) $(filter %.c,$^) $(ARCHIVE) $(LDFLAGS) -o $@

install: prefix build/decklewren
	install -d "$(INSTALLED)/include" "$(INSTALLED)/lib/pkgconfig" "$(INSTALLED)/bin"
	install -m 644 $(HEADER) "$(INSTALLED)/include/decklewren.h"
	install -m 644 $(ARCHIVE) "$(INSTALLED)/lib/libdecklewren.a"
	sed -e 's|@PREFIX@|$(PREFIX)|' -e 's|@VERSION@|$(VERSION)|' host/decklewren.pc.in >"$(INSTALLED)/lib/pkgconfig/decklewren.pc"
	install -m 755 build/decklewren "$(INSTALLED)/bin/decklewren"

uninstall: prefix
	rm -f "$(INSTALLED)/include/decklewren.h" "$(INSTALLED)/lib/libdecklewren.a"
	rm -f "$(INSTALLED)/lib/pkgconfig/decklewren.pc" "$(INSTALLED)/bin/decklewren"

# PREFIX and DESTDIR as they were typed: make itself would expand a dollar sign in them, and does so where it exports them.
unexport PREFIX DESTDIR
prefix: export TYPED_PREFIX = $(value PREFIX)
prefix: export TYPED_DESTDIR = $(value DESTDIR)
prefix:
	@bash host/check_prefix.sh

check-install:
	rm -rf build/installed build/staged
	$(MAKE) install DESTDIR= PREFIX="$(CURDIR)/build/installed"
	$(MAKE) install DESTDIR="$(CURDIR)/build/staged" PREFIX=/opt/decklewren
	bash host/check_install.sh "" "$(CURDIR)/build/installed" $(VERSION)
	bash host/check_install.sh "$(CURDIR)/build/staged" /opt/decklewren $(VERSION)
	$(MAKE) uninstall DESTDIR= PREFIX="$(CURDIR)/build/installed"
	$(MAKE) uninstall DESTDIR="$(CURDIR)/build/staged" PREFIX=/opt/decklewren
	! find build/installed build/staged -type f | grep .
	bash host/check_prefixes.sh $(VERSION)

$(ARCHIVE): crates.txt $(wildcard crates/*/src/*.rt) | build
	@$(NEED_RT)
	@cd crates/decklewren_c && bash ../../host/prove.sh ../../build/staticlib.log rt lib
	cp crates/decklewren_c/out/libdecklewren_c.a $@

build:
	mkdir -p build

test:
	@$(NEED_RT)
	bash .ci/run

refusals:
	bash .ci/refusals

CALLS ?= 1000000
SEED ?= 1
soak: $(ARCHIVE)
	CARGO_TARGET_DIR=build/crosscheck DECKLEWREN_ARCHIVE_DIR="$(CURDIR)/build" \
	  cargo build --release --offline --locked --quiet --manifest-path crosscheck/Cargo.toml
	build/crosscheck/release/crosscheck soak crosscheck/tables $(CALLS) $(SEED)

bench: build/bench
	build/bench

BENCH = bench/bench.c bench/parts.c bench/plain.c bench/rounds.c
build/bench: $(BENCH) bench/bench.h bench/plain.h $(HEADER) $(ARCHIVE) | build
	$(COMPILE) -O3 $(BENCH) $(ARCHIVE) $(LDFLAGS) -o $@

against: build/against
	build/against

# The other archive, with two of its calls under other names and the rest hidden; made anew each time, for OTHER may be another.
build/other.a: $(OTHER) | build
	@test -n "$(OTHER)" || { echo "make against OTHER=ARCHIVE" >&2; exit 1; }
	$$($(CC) -print-prog-name=objcopy) --redefine-sym decklewren_write_block=other_write_block \
	  --redefine-sym decklewren_read_block=other_read_block -G other_write_block -G other_read_block $(OTHER) $@

build/against: bench/against.c bench/rounds.c bench/bench.h $(HEADER) $(ARCHIVE) build/other.a
	$(COMPILE) -O3 bench/against.c bench/rounds.c $(ARCHIVE) build/other.a $(LDFLAGS) -o $@

stack: build/stack
	build/stack

build/stack: bench/stack.c $(HEADER) $(ARCHIVE) | build
	$(COMPILE) bench/stack.c $(ARCHIVE) $(LDFLAGS) -o $@

picture: build/draw_burst
	build/draw_burst >docs/slot-burst.svg

build/draw_burst: host/draw_burst.c $(HEADER) | build
	$(COMPILE) $< $(LDFLAGS) -o $@

clean:
	rm -rf build
