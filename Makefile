# make host           target/host/trace, the program that shows, prints, searches, draws, cuts, joins and narrows trace files
# make list FILE=..   the numbers and the points of a trace file, by the proved listing program
# make test           proves every crate, tries every wrong answer, runs every program and every test
# make archive        target/staticlib/libtessarquin.a, for a program in C
# make soak N=..      compares the calls with the independent reader on N cases; make bench counts instructions
# make fmt            puts the Rattle files into their layout
#
# Each says first what is missing, and by which line it installs that (tools/need).
SHELL := /bin/bash
.SHELLFLAGS := -eu -o pipefail -c
MAKEFLAGS += --no-print-directory
.PHONY: list listing test archive host checked listed compare soak bench fmt need-kit need-c need-compare need-tests need-count

# The compiled code is for x86-64: elsewhere it is linked by a cross compiler and run by an emulator.
ifeq ($(shell uname -m),x86_64)
CC := gcc
CXX := g++
RUN :=
LISTING := crates/listing/out/listing
NEED_C := gcc:gcc
NEED_CXX := g++:g++
else
CC := x86_64-linux-gnu-gcc
CXX := x86_64-linux-gnu-g++
RUN := qemu-x86_64
LISTING := qemu-x86_64 -L /usr/x86_64-linux-gnu crates/listing/out/listing
NEED_C := x86_64-linux-gnu-gcc:gcc-x86-64-linux-gnu qemu-x86_64:qemu-user
NEED_CXX := x86_64-linux-gnu-g++:g++-x86-64-linux-gnu
endif
CFLAGS := -std=gnu11 -O2 -Wall -Wextra -Werror -static -Iinclude -Icrates/measured -Icrates/compared
ARCHIVE := target/staticlib/libtessarquin.a
MEASURED := target/staticlib/libmeasured.a
COMPARED := target/staticlib/libcompared.a
HOST := $(wildcard host/*.c)
FILE ?= crates/listing/stdin
CARGO := --release --offline --locked --manifest-path tests/Cargo.toml --target-dir target/tests
SEED ?= 1
N ?= 100000

list: listing $(if $(RUN),need-c)
	@$(LISTING) <'$(FILE)'

# The listing program, proved and linked again where something changed.
listing: need-kit
	@mkdir -p target
	@(cd crates/listing && rt run) </dev/null >target/listing.log 2>&1 || { cat target/listing.log; exit 1; }

# The last line is that of rt ci, which says on its line 'rt: ok' how many wrong answers count for nothing (N bad): none may.
test: need-tests
	@log=$$(mktemp); trap 'rm -f "$$log"' EXIT; rt ci | tee "$$log"; \
	ok=$$(grep '^rt: ok' "$$log") || { echo "make test: rt ci has no line 'rt: ok'" >&2; exit 1; }; \
	if [[ $$ok =~ ,\ [1-9][0-9]*\ bad ]]; then echo "make test: some wrong answers count for nothing: $$ok" >&2; exit 1; fi; \
	$(MAKE) checked; tail -n 1 "$$log"

archive: $(ARCHIVE)

# The archive of a library is built of the crate beside it that exports its calls; again where a file of a crate is newer.
target/staticlib/lib%.a: crates.txt $(shell find crates -name out -prune -o \( -name '*.rt' -o -name '*.antt' \) -print) | need-kit
	@mkdir -p target/staticlib
	@(cd crates/$*_c && rt lib) >target/archive.log 2>&1 || { cat target/archive.log; exit 1; }
	@cp crates/$*_c/out/lib$*_c.a $@

# Where the machine is not x86-64, `trace` is a script that starts the program by the emulator.
host: need-c $(ARCHIVE)
	@mkdir -p target/host
	@$(CC) $(CFLAGS) $(HOST) $(ARCHIVE) -lm -o target/host/trace$(if $(RUN),.x86-64)
	@$(if $(RUN),cp host/emulated target/host/trace)

# The programs that the tests of the host program call, each of one file.
target/host/%: host/tests/%.c host/tests/blocks.h include/tessarquin.h | need-c
	@mkdir -p target/host
	@$(CC) $(CFLAGS) $< -o $@

# The program that README prints, the lines that the header prints, the calls at the end of a page, the header's readers,
# the host program (faults.c says which calls go wrong in a second copy of it), and the independent reader.
checked: WRAPPED := open write fsync close rename renameat2 tessarquin_point tessarquin_fill tessarquin_crossing tessarquin_strip tessarquin_cut tessarquin_combined tessarquin_setup_read tessarquin_setup_write tessarquin_join tessarquin_narrow
checked: need-tests host target/host/made target/host/sample target/host/table target/host/fields target/host/formed
	@awk '/^```c$$/ { on = 1; next } /^```$$/ { on = 0 } on' README.md >target/host/first.c
	@$(CC) $(CFLAGS) target/host/first.c $(ARCHIVE) -o target/host/first
	@sed -n '/^ \*     uint8_t /,/^ \*     }/s/^ \*     //p' include/tessarquin.h >target/host/printed.h
	@$(CC) $(CFLAGS) -Itarget/host host/tests/printed.c $(ARCHIVE) -o target/host/printed
	@$(CXX) -std=c++17 -Wall -Wextra -Werror -Iinclude -Itarget/host -fsyntax-only -x c++ target/host/first.c host/tests/printed.c
	@$(CC) $(CFLAGS) host/tests/calls.c $(ARCHIVE) -o target/host/calls
	@$(RUN) target/host/calls
	@$(CC) $(CFLAGS) host/tests/crossings.c $(ARCHIVE) -o target/host/crossings
	@$(RUN) target/host/crossings
	@$(CC) $(CFLAGS) host/tests/strips.c $(ARCHIVE) -o target/host/strips
	@$(RUN) target/host/strips
	@$(CC) $(CFLAGS) host/tests/chains.c $(ARCHIVE) -o target/host/chains
	@$(RUN) target/host/chains
	@$(CC) $(CFLAGS) host/tests/setups.c $(ARCHIVE) -o target/host/setups
	@$(RUN) target/host/setups
	@$(CC) $(CFLAGS) host/tests/joins.c $(ARCHIVE) -o target/host/joins
	@$(RUN) target/host/joins
	@$(CC) $(CFLAGS) host/tests/narrows.c $(ARCHIVE) -o target/host/narrows
	@$(RUN) target/host/narrows
	@$(RUN) target/host/fields
	@$(CC) $(CFLAGS) -Ihost host/tests/decimals.c host/decimal.c -o target/host/decimals
	@$(RUN) target/host/decimals
	@$(CC) $(CFLAGS) -Ihost host/tests/typed.c $(filter-out host/trace.c,$(HOST)) $(ARCHIVE) -lm -o target/host/typed
	@$(RUN) target/host/typed
	@$(CC) $(CFLAGS) $(WRAPPED:%=-Wl,--wrap=%) $(HOST) host/tests/faults.c $(ARCHIVE) -lm -o target/host/faulty
	@host/tests/run '$(RUN)' target/host crates/listing/stdin
	@$(MAKE) listed
	@cargo test -q --lib $(CARGO)
	@$(MAKE) compare
	@target/tests/release/slips
	@target/tests/release/compare --cases 40000 --seed 1 -- $(RUN) target/tests/runner

# The listing program on blocks, on what is refused and on what is too long, against stored texts.
listed: listing target/host/made
	@host/tests/listed/run '$(LISTING)' '$(RUN) target/host/made' crates/listing

# The independent reader and the runner that makes the calls, those that are not in the library among them.
compare: need-compare $(ARCHIVE) $(MEASURED) $(COMPARED)
	@cargo build -q $(CARGO) --workspace
	@$(CC) $(CFLAGS) tests/runner.c $(ARCHIVE) $(MEASURED) $(COMPARED) -o target/tests/runner

soak: compare
	@target/tests/release/compare --cases $(N) --seed $(SEED) -- $(RUN) target/tests/runner

# Counted by the emulator on every machine; where the machine is x86-64, times stand beside the counts.
bench: need-count $(ARCHIVE) $(MEASURED)
	@mkdir -p target/bench
	@gcc -O2 -Wall -Wextra -Werror -fPIC -shared bench/count.c -o target/bench/count.so
	@$(CC) -std=gnu11 -O3 -Wall -Wextra -Werror -c bench/same.c -o target/bench/same.o
	@$(CC) $(CFLAGS) -Ihost/tests bench/bench.c target/bench/same.o $(ARCHIVE) $(MEASURED) -o target/bench/bench
	@bench/run target/bench/bench target/bench/count.so $(if $(RUN),no,yes)

fmt: need-kit
	@for crate in $$(sed -n 's/^\([a-z_]*\).*:.*/\1/p' crates.txt); do (cd "crates/$$crate" && rt fmt); done

need-kit:
	@tools/need rt:

need-c: need-kit
	@tools/need $(NEED_C)

need-compare: need-c
	@tools/need cargo:cargo

need-tests: need-compare
	@tools/need $(NEED_CXX)

need-count: need-kit
	@tools/need $(NEED_C) gcc:gcc qemu-x86_64:qemu-user
