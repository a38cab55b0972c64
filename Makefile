# The commands of the README; `make help` prints them. A line `##` says what the target below it does.
.PHONY: test help proofs apart wrong reference-tests programs outside histories visits streams visit differ soak faults bench archive shared client client-test stack install clean

## everything that is claimed, from nothing; the last line is `N passed, 0 failed`
# Everything is proved first, and laid out as `rt fmt` has it; beside it runs what needs nothing that is built. What is built is then held from outside, and the
# last line is that of `rt ci`.
test:
	$(MAKE) --no-print-directory -j2 -O proofs apart
	$(MAKE) --no-print-directory archive programs
	$(MAKE) --no-print-directory outside
	@tail -n 1 target/ci.log

## this list
help:
	@awk '/^## / { text = substr($$0, 4) } /^[a-z-]+:/ && text { sub(":.*", ""); printf "make %-16s%s\n", $$0, text; text = "" }' Makefile

## every crate by `rt ci`, its must-fail edits and the programs' runs
proofs:
	tests/prove.sh

## what needs nothing that is built: wrong, reference-tests and faults, one after another in the time that `rt ci` leaves
apart:
	nice -n 19 $(MAKE) --no-print-directory -j1 wrong reference-tests faults

## the separate implementation's own tests
reference-tests:
	cd reference && cargo test --release --quiet

## wrong definitions that the theorems must refuse
wrong:
	python3 tests/wrong_definitions/run.py

## what is built, held from outside: histories, visits, streams, client-test and differ
outside: histories visits streams client-test differ

## the programs replay, replay_two and visitor, proved and built in target/bin
programs:
	@tools/quiet.sh programs tools/programs.sh replay replay_two visitor

## the learners' histories, and what the replay program must print of each
histories: programs
	python3 tests/replay/run.py

## inputs of the visiting program, and what it must print of each
visits: programs
	python3 tests/visitor/run.py

## what both programs tell where they can't read or write
streams: programs
	tests/streams/run.sh

## the visiting program on an example, before and after side by side
visit:
	@tools/quiet.sh visitor tools/programs.sh visitor
	@python3 examples/visit.py

## the engine held against the separate implementation, byte for byte
differ: archive programs
	cd reference && cargo run --release --quiet --features engine --bin differ

## the same until 8,000,000 calls or 600 seconds; SEED=n repeats a run
SEED ?= $(shell date +%s)
soak: archive programs
	cd reference && cargo run --release --quiet --features engine --bin differ 8000000 $(SEED) 600

## the comparison itself: faults in the separate implementation, each of which must show as a difference within a third of its calls
faults:
	cd reference && cargo run --release --quiet --features faults --bin faults

## the engine's time beside a baseline in safe Rust, printed and drawn
bench: archive
	cd reference && cargo run --release --quiet --features engine --bin bench ../docs/bench.svg

# made anew where a crate has changed
ARCHIVE = target/staticlib/libc_api.a

## the engine as an archive for C and Rust, target/staticlib/libc_api.a
archive: $(ARCHIVE)

$(ARCHIVE): crates.txt $(shell find crates -name out -prune -o \( -name '*.rt' -o -name '*.antt' \) -print)
	@tools/quiet.sh archive tools/archive.sh

# The header has the version. A library with another major number is another library.
VERSION := $(shell sed -n 's/^\#define RAPYHEO_VERSION_M[A-Z]* \|^\#define RAPYHEO_VERSION_PATCH //p' include/rapyheo.h | paste -s -d .)
SONAME = librapyheo.so.$(firstword $(subst ., ,$(VERSION)))
SHARED = target/shared/librapyheo.so.$(VERSION)

## the same as a shared library, target/shared/librapyheo.so
shared: $(SHARED)

# `rt ci` refuses links, so that the other names are copies here. Nothing of the archive may want to be changed when it is loaded (-z text), nor be missing (-z defs).
$(SHARED): $(ARCHIVE) include/rapyheo.map include/rapyheo.h
	@mkdir -p target/shared
	$(CC) -shared -Wl,-soname,$(SONAME) -Wl,--version-script=include/rapyheo.map -Wl,-z,text -Wl,-z,defs -o $@ -Wl,--whole-archive $(ARCHIVE) -Wl,--no-whole-archive
	@cp -f $@ target/shared/$(SONAME)
	@cp -f $@ target/shared/librapyheo.so

CFLAGS = -std=c11 -Wall -Wextra -Werror -pedantic

## the client in C of examples/, with its output
client: archive
	$(CC) $(CFLAGS) -Iinclude -o target/client examples/client.c $(ARCHIVE)
	./target/client

## header, clients in C, C++, Python and Rust, installed copies of the library, and a client that is killed
client-test:
	tests/c_client/run.sh

## how much stack each exported function needs, measured
stack: archive
	$(CC) $(CFLAGS) -O2 -Iinclude -o target/stack tests/c_client/stack.c $(ARCHIVE)
	./target/stack

## header, archive, shared library and pkg-config file under PREFIX (/usr/local); DESTDIR goes before it
PREFIX = /usr/local
export PREFIX DESTDIR VERSION SONAME SHARED ARCHIVE
install: archive shared
	@tools/install.sh

## removes all that was built
clean:
	rm -rf target reference/target crates/*/out
