# The two commands of README.md are `make demo` and `make test`; both do all their set-up themselves.
.PHONY: demo test outside targets write-targets lib native install bench speed clean FORCE

CC ?= gcc
CFLAGS = -O2 -std=c11 -Wall -Wextra -Werror -Iinclude
# The C of the tests runs under the address and undefined behaviour sanitizers; the first finding stops it.
CHECKED = $(CFLAGS) -g -fsanitize=address,undefined -fno-sanitize-recover=all
NATIVE = build/$(shell uname -m)-unknown-linux-gnu/libam33c93a.a
CARGO = cargo --offline
# All of cargo's output goes below build/, by the absolute name that cargo wants from every folder.
CARGO_OUT = $(CURDIR)/build/cargo
LENT = AM33C93A_LIB_DIR=$(CURDIR)/$(dir $(NATIVE))
CODE = crates.txt $(shell find crates/*/src crates/*/specs crates/*/proofs -name '*.rt' -o -name '*.antt')

# Where `make install` puts header, libraries and am33c93a.pc; DESTDIR stands before it and into no file.
PREFIX ?= /usr/local
VERSION = 0.1
INTO = $(DESTDIR)$(PREFIX)

# How many calls each differential run makes, and its seed; a run on another target is emulated, so it makes fewer.
CALLS ?= 10000000
TARGET_CALLS ?= 1000000
SEED ?= 1

# A host and a disk around the library, the bus story line by line.
demo: build/board
	@build/board
	@echo "With a host that works as Linux's driver does: build/board --driver linux"

# The static libraries: one for each target of tools/targets, and the one for any x86-64 that rt itself builds.
lib: $(patsubst tools/targets/%,build/%/libam33c93a.a,$(wildcard tools/targets/*))
	@mkdir -p build/x86-64
	@cd crates/controller_c && rt lib --cpu x86-64 > $(CURDIR)/build/staticlib.log 2>&1 || { cat $(CURDIR)/build/staticlib.log; exit 1; }
	@cp crates/controller_c/out/libcontroller_c.a build/x86-64/libam33c93a.a
	@echo build/x86-64/libam33c93a.a

native: $(NATIVE)

# The library for this machine, and below lib/am33c93a those for other processors that `make lib` has built.
install: $(NATIVE)
	@install -d "$(INTO)/include" "$(INTO)/lib/pkgconfig"
	@install -m 644 include/am33c93a.h "$(INTO)/include/"
	@install -m 644 $(NATIVE) "$(INTO)/lib/"
	@sed -e 's|@PREFIX@|$(PREFIX)|' -e 's|@VERSION@|$(VERSION)|' am33c93a.pc.in > "$(INTO)/lib/pkgconfig/am33c93a.pc"
	@chmod 644 "$(INTO)/lib/pkgconfig/am33c93a.pc"
	@for a in $(filter-out $(NATIVE),$(wildcard build/*/libam33c93a.a)); do \
		install -D -m 644 $$a "$(INTO)/lib/am33c93a/$$(basename $$(dirname $$a))/libam33c93a.a" || exit 1; done
	@echo "$(INTO)"

# The proved module, a minute; then seconds for each target.
build/module.ll: tools/module $(CODE)
	@tools/module

build/%/libam33c93a.a: build/module.ll tools/native-lib tools/targets/% include/am33c93a.h
	@tools/native-lib $*

# Everything that is checked: all proofs, must-fail edits and the layout, by rt ci; then what runs outside the prover.
# What rt ci printed comes last, so that its closing line 'N passed, 0 failed' is the last one.
test:
	@mkdir -p build
	@tests/edits texts
	@tests/places
	@touch build/ci.begun
	@rt ci > build/ci.log 2>&1 || { cat build/ci.log; exit 1; }
	@tests/edits
	@$(MAKE) --no-print-directory outside
	@$(MAKE) --no-print-directory targets
	@cat build/ci.log

# Tests of the compiled library: its boundary and the refusals there, the paper's sessions, two independent models, one in C
# (bench/plain.c) and one in Rust (tests/model), the wrapper for Rust, and the installation.
outside: build/boundary build/refusals build/sessions build/plain_sessions build/differential build/against_model build/checked_board build/first \
		build/bare_drive
	@build/boundary
	@build/refusals
	@build/plain_sessions
	@build/sessions
	@build/differential $(SEED) $(CALLS)
	@build/against_model $(SEED) $(CALLS)
	@build/first
	@build/bare_drive > build/bare_drive.out && diff build/bare_drive.out build/bare_drive.txt && echo "bare drive: as docs/BOARD.md says"
	@build/checked_board > build/board.out && tail -n 2 build/board.out
	@build/checked_board --driver linux > build/board-linux.out && tail -n 2 build/board-linux.out
	@cd rust && $(LENT) $(CARGO) test -q --target-dir $(CARGO_OUT) > $(CURDIR)/build/wrapper.log 2>&1 || { cat $(CURDIR)/build/wrapper.log; exit 1; }
	@awk '/^test result/ { passed += $$4; failed += $$6 } END { print "wrapper for Rust: " passed " passed, " failed " failed" }' build/wrapper.log
	@tests/install

# The library on every processor that it is built for (docs/BOARD.md, "On which processors"). `make write-targets` puts what was seen there.
targets:
	@CALLS=$(TARGET_CALLS) SEED=$(SEED) tests/targets

write-targets: targets
	@tools/put-figures build/targets.md docs/BOARD.md

build/board: examples/board.c include/am33c93a.h $(NATIVE)
	@$(CC) $(CFLAGS) -o $@ $< $(NATIVE)

# The example of README.md.
build/first: README.md include/am33c93a.h $(NATIVE)
	@sed -n '/^```c$$/,/^```$$/p' README.md | sed '1d;$$d' > build/first.c
	@$(CC) $(CFLAGS) -o $@ build/first.c $(NATIVE)

# The driver for a bare drive of docs/BOARD.md, and what that page says that it prints.
build/bare_drive: docs/BOARD.md include/am33c93a.h $(NATIVE)
	@sed -n '/^```c$$/,/^```$$/p' $< | sed '1d;$$d' > build/bare_drive.c
	@sed -n '/^```text$$/,/^```$$/p' $< | sed '1d;$$d' > build/bare_drive.txt
	@$(CC) $(CHECKED) -o $@ build/bare_drive.c $(NATIVE)

build/checked_board: examples/board.c include/am33c93a.h $(NATIVE)
	@$(CC) $(CHECKED) -o $@ $< $(NATIVE)

build/boundary: tests/boundary.c include/am33c93a.h $(NATIVE)
	@$(CC) $(CHECKED) -o $@ $< $(NATIVE)

build/refusals: tests/refusals.c include/am33c93a.h $(NATIVE)
	@$(CC) $(CHECKED) -o $@ $< $(NATIVE)

build/sessions: tests/plain_sessions.c include/am33c93a.h $(NATIVE)
	@$(CC) $(CHECKED) -DLIBRARY -o $@ $< $(NATIVE)

build/plain_sessions: tests/plain_sessions.c bench/plain.c bench/plain.h include/am33c93a.h
	@mkdir -p build
	@$(CC) $(CHECKED) -o $@ $< bench/plain.c

build/differential: tests/differential.c bench/plain.c bench/plain.h include/am33c93a.h $(NATIVE)
	@$(CC) $(CHECKED) -o $@ $< bench/plain.c $(NATIVE)

build/against_model: $(wildcard tests/model/src/*.rs tests/model/Cargo.* tests/against_model/src/*.rs) rust/src/entries.rs rust/build.rs \
		$(wildcard tests/against_model/Cargo.* tests/against_model/*.txt) $(NATIVE)
	@cd tests/against_model && $(LENT) $(CARGO) build -q --release --target-dir $(CARGO_OUT)
	@cp $(CARGO_OUT)/release/against_model $@

# Nanoseconds for each call, and the ratios to the two plain models and to a ring; then instructions for each call, where valgrind is installed.
# `make speed` writes what it prints into docs/SPEED.md.
# `make bench BEFORE=..libam33c93a.a`: an earlier library stands beside this one, in the place of the model in Rust.
# For a processor that this machine does not have: bench/count-foreign.
MEASURED = build/bench$(if $(BEFORE),_before) build/count$(if $(BEFORE),_before)

bench: $(MEASURED)
	@$(word 1,$(MEASURED))
	@bench/count $(word 2,$(MEASURED))

speed: build/bench build/count
	@tools/write-speed

RUST_SIDES = $(CARGO_OUT)/release/librust_sides.a
SIDES = bench/plain.c $(RUST_SIDES) $(NATIVE)

# Always built: the library that NATIVE or BEFORE names now may be older than the program with another one.
build/bench build/count: build/%: bench/%.c $(SIDES) FORCE
	@$(CC) $(CFLAGS) -o $@ $< $(SIDES)

build/bench_before build/count_before: build/%_before: bench/%.c $(SIDES) build/before.a
	@$(CC) $(CFLAGS) -DBEFORE -Ibuild -o $@ $< $(SIDES) build/before.a

build/before.a: $(BEFORE) FORCE
	@bench/rename-before objcopy $(BEFORE)

$(RUST_SIDES): $(wildcard tests/model/src/*.rs tests/model/Cargo.* bench/rust_sides/src/*.rs bench/rust_sides/Cargo.*)
	@cd bench/rust_sides && $(CARGO) build -q --release --target-dir $(CARGO_OUT)
	@touch $@

FORCE:

clean:
	rm -rf build crates/*/out
