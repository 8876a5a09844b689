# Tests, run example and benchmark over the proved crates. Everything built goes to target/, what rt makes to crates/*/out.
#
#   make test        the whole gate: proofs, C tests, second program, whole sessions, wrong edits (.ci/run)
#   make run         document 01's example session, written as text, through the session program; held to what document 01 prints
#   make session     the session program, target/bin/session
#   make answers     crates/session/stdin from tests/answers.session, and crates/session/stdout from the second program
#   make libs        both C libraries, target/staticlib/libedge.a and libdesk.a
#   make show        the soundings P1 and P9 through the C edge
#   make edge-test   the C test alone; last line 'edge: N passed, M failed'
#   make second      the independent second program; last line 'second: N passed, M failed'
#   make second-desk the second program's store against the desk library; last line 'desk: N passed, M failed'
#   make second-session  document 01's example session, written as text, through the second program's own session; held to what document 01 prints
#   make second-sessions  2,000,000 operations (300,000 where they are emulated) in whole sessions, through the session program and the desk library; last line 'sessions: N passed, 0 failed'
#   make soak N=..   the same with N operations; the seed is random and printed, or given by SEED=..
#   make memcheck    parts of both comparisons under Valgrind
#   make desk-test   the desk library from C; last line 'desk: N passed, M failed'
#   make desk-example   examples/desk.c, compiled and run; what it prints is held to examples/desk.expected
#   make picture     docs/slots.svg: how a key finds its slot, drawn from what the desk library leaves in memory
#   make worst       look for key lists on which model choice is slow, for a minute
#   make bench       the time each function of the C edge takes, load and lookup beside a BTreeMap, then bench-store
#   make bench-store the time each call of the desk library takes, beside a BTreeMap and a sorted array, and docs/speed.svg from what it measured
#   make edits       the wrong edits of all crates, or of CRATES=..; every one has to be refused (rt ci tries them too)
#   make statements  the tables of edits in docs/STATEMENTS.md, from the edits' own lines
#   make clean       remove target/ and each crate's out/

# The kit's code is for x86-64. On another processor the tests are compiled for x86-64 too, and run under an emulator.
ifeq ($(shell uname -m),x86_64)
CC = gcc
RUSTC = rustc
RUSTFLAGS = -O --edition 2021
RUN =
SESSIONS =
else
CC = x86_64-linux-gnu-gcc
RUSTC = /usr/bin/rustc
RUSTFLAGS = -O --edition 2021 --target x86_64-unknown-linux-gnu -C linker=x86_64-linux-gnu-gcc
RUN = qemu-x86_64
# 500 to 700 operations a second there: all 2,000,000 would take some 50 to 65 minutes (docs/CHECKS.md)
SESSIONS = --operations 300000
endif
CFLAGS = -std=c11 -Wall -Wextra -Werror -Iinclude
EDGE_DIR = target/staticlib
EDGE = $(EDGE_DIR)/libedge.a
LINK_EDGE = -L native=$(EDGE_DIR) -l static=edge
DESK = $(EDGE_DIR)/libdesk.a
SESSION = target/bin/session
LINK_DESK = -L native=$(EDGE_DIR) -l static=desk
# the calls that the desk library has today; 'all' stands for every one
DESK_CALLS = unpack load lookup replace delete band insert
DESK_CFG = $(foreach call,$(DESK_CALLS),--cfg 'desk="$(call)"')
DESK_DEFINES = $(foreach call,$(DESK_CALLS),-DDESK_$(call))
PROVED = crates.txt $(shell find crates -name out -prune -o \( -name '*.rt' -o -name '*.antt' \) -print)

need = @command -v $(1) >/dev/null || { echo "$(1) is missing: $(2)" >&2; exit 1; }
need_cc = $(call need,$(CC),install a C11 compiler or name yours with 'make CC=..')
need_rustc = $(call need,$(RUSTC),install Rust or name its compiler with 'make RUSTC=..')
need_rt = $(call need,rt,install the Rattle kit and put its rt on the PATH)

need_python = $(call need,python3,install Python 3)

.PHONY: test run libs session session-example answers show edge-test second second-program second-desk second-session second-sessions sessions-program soak memcheck desk-test desk-example picture worst bench bench-store clean edits statements

test:
	@test -x .ci/run || { echo ".ci/run is missing: take it from the repository again" >&2; exit 1; }
	@.ci/run

run: session-example

session: $(SESSION)

libs: $(EDGE) $(DESK)

session-example: $(SESSION)
	$(need_python)
	@mkdir -p target/test
	@tools/session-text < tests/example.session | $(RUN) $(SESSION) | tee target/test/session-example.out
	@cmp -s target/test/session-example.out tests/example.printed || { echo "the session program prints something else than tests/example.printed: compare it with target/test/session-example.out" >&2; exit 1; }

answers: second-session
	@tools/session-text < tests/answers.session > crates/session/stdin
	@$(RUN) target/second/session < crates/session/stdin > crates/session/stdout

show: $(EDGE)
	$(need_cc)
	@mkdir -p target/test
	@$(CC) $(CFLAGS) tests/show.c $(EDGE) -o target/test/show
	@$(RUN) target/test/show

edge-test: $(EDGE)
	$(need_cc)
	@mkdir -p target/test
	@$(CC) $(CFLAGS) tests/edge.c $(EDGE) -o target/test/edge
	@$(RUN) target/test/edge

second: second-program
	@$(RUN) target/second/second

second-desk: $(DESK)
	$(need_rustc)
	@mkdir -p target/second
	@$(RUSTC) $(RUSTFLAGS) $(DESK_CFG) tests/second/desk_main.rs $(LINK_DESK) -o target/second/desk
	@$(RUN) target/second/desk

second-session:
	$(need_rustc)
	$(need_python)
	@mkdir -p target/second
	@$(RUSTC) $(RUSTFLAGS) tests/second/session_main.rs -o target/second/session
	@tools/session-text < tests/example.session | $(RUN) target/second/session | cmp - tests/example.printed || { echo "the second program's session prints something else than tests/example.printed" >&2; exit 1; }

second-sessions: sessions-program $(SESSION)
	@$(RUN) target/second/sessions --program "$(RUN) $(SESSION)" $(SESSIONS)

N = 10000000
SEED = $(shell od -An -N4 -tu4 /dev/urandom)
soak: sessions-program $(SESSION)
	@$(RUN) target/second/sessions --program "$(RUN) $(SESSION)" --operations $(N) --seed $(SEED)

# lists lent without guards, each in a block of its own; the first error ends it
MEMCHECK = valgrind --quiet --error-exitcode=9 --exit-on-first-error=yes
MEMCHECK_FLAGS = $(RUSTFLAGS) -g --cfg exact
memcheck: $(DESK) $(SESSION)
	$(need_rustc)
	$(call need,valgrind,install Valgrind (the package is named valgrind))
	@mkdir -p target/memcheck
	@$(RUSTC) $(MEMCHECK_FLAGS) $(DESK_CFG) tests/second/sessions_main.rs $(LINK_DESK) -o target/memcheck/sessions
	@$(RUSTC) $(MEMCHECK_FLAGS) $(DESK_CFG) tests/second/desk_main.rs $(LINK_DESK) -o target/memcheck/desk
	@$(MEMCHECK) target/memcheck/sessions --program "$(MEMCHECK) $(SESSION)" --operations 20000
	@for part in unpack load lookup replace delete band "insert, long" "insert, due" "insert, harmed"; do \
		$(MEMCHECK) target/memcheck/desk --only "$$part" || exit 1; done
	@echo "memcheck: no error found"

sessions-program: $(DESK)
	$(need_rustc)
	@mkdir -p target/second
	@$(RUSTC) $(RUSTFLAGS) $(DESK_CFG) tests/second/sessions_main.rs $(LINK_DESK) -o target/second/sessions

desk-example: $(DESK) $(EDGE)
	$(need_cc)
	@mkdir -p target/test
	@$(CC) $(CFLAGS) examples/desk.c $(DESK) $(EDGE) -o target/test/desk-example
	@$(RUN) target/test/desk-example | tee target/test/desk-example.out
	@cmp -s target/test/desk-example.out examples/desk.expected || { echo "the desk example prints something else than examples/desk.expected: compare it with target/test/desk-example.out" >&2; exit 1; }

picture: $(DESK) $(EDGE)
	$(need_cc)
	$(need_python)
	@mkdir -p target/test
	@$(CC) $(CFLAGS) tests/tree.c $(DESK) $(EDGE) -o target/test/tree
	@$(RUN) target/test/tree | tools/picture > target/test/slots.svg && mv target/test/slots.svg docs/slots.svg

desk-test: $(DESK)
	$(need_cc)
	@mkdir -p target/test
	@$(CC) $(CFLAGS) $(DESK_DEFINES) tests/desk.c $(DESK) -o target/test/desk
	@$(RUN) target/test/desk

worst: second-program
	@$(RUN) target/second/second --worst

second-program: $(EDGE)
	$(need_rustc)
	@mkdir -p target/second
	@$(RUSTC) $(RUSTFLAGS) tests/second/main.rs $(LINK_EDGE) -o target/second/second

bench: $(EDGE) $(DESK)
	$(need_rustc)
	@mkdir -p target/bench
	@$(RUSTC) $(RUSTFLAGS) bench/leaves.rs $(LINK_EDGE) -o target/bench/leaves
	@$(RUN) target/bench/leaves
	@$(RUSTC) $(RUSTFLAGS) bench/load.rs $(LINK_DESK) -o target/bench/load
	@$(RUN) target/bench/load
	@$(MAKE) --no-print-directory bench-store

bench-store: $(DESK)
	$(need_rustc)
	@mkdir -p target/bench
	@$(RUSTC) $(RUSTFLAGS) $(DESK_CFG) bench/store.rs $(LINK_DESK) -o target/bench/store
	$(need_python)
	@$(RUN) target/bench/store --series target/bench/series.txt
	@tools/speed < target/bench/series.txt > target/bench/speed.svg && mv target/bench/speed.svg docs/speed.svg

# rt builds a program or a library only where it proves it, in the crate's own out/; the C libraries keep their names without the _c
$(SESSION): $(PROVED)
	$(need_rt)
	@mkdir -p target/bin
	@cd crates/session && rt run </dev/null >&2
	@cp crates/session/out/session $@

$(EDGE): $(PROVED)
	$(need_rt)
	@mkdir -p $(EDGE_DIR)
	@cd crates/edge_c && rt lib >&2
	@cp crates/edge_c/out/libedge_c.a $@

$(DESK): $(PROVED)
	$(need_rt)
	@mkdir -p $(EDGE_DIR)
	@cd crates/desk_c && rt lib >&2
	@cp crates/desk_c/out/libdesk_c.a $@

edits:
	$(need_rt)
	$(need_python)
	@tools/edits $(CRATES)

statements:
	$(need_python)
	@tools/edits --tables

clean:
	rm -rf target crates/*/out
