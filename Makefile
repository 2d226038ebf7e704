# make: prove what `list` and the library for C and Rust stand on, list a sample message, build the command `sim0mq` and
# ask it how many people sleep on deck seven. make install PREFIX=FOLDER: install that command. make check: prove all
# the rest, and run every program. make test: the gate, from nothing, with the must-fail edits and the bindings' tests.
# make calls: every public call with its contract and with what is determined: its result, and each buffer. make
# example: the C example, built for this machine and run. make compare: a million cases of the library against the
# independent reader in compare/, and as many of the second one, in C, against it. make bench: how fast the three are,
# side by side, and what is built on messages, written into docs/SPEED.md and docs/growth.svg. make versus BEFORE=FILE:
# how fast the library is beside an earlier one, FILE being the libsim0mq.a of another checkout.
.PHONY: all command install check test calls bindings example compare bench versus

PEER = cd compare && SIM0MQ_LIB_DIR=$(CURDIR)/target/native CARGO_TARGET_DIR=$(CURDIR)/target/native/compare cargo run --release --offline --quiet --features product

COMMAND = target/native/cli/release/sim0mq
PREFIX = /usr/local
INSTALL = install -D -m

all:
	@tools/prove list sim0mq_c
	@tools/run list < crates/list/stdin
	@$(MAKE) --no-print-directory command
	@echo "How many people sleep on deck seven?"
	@$(COMMAND) decks cli/samples/season.rec --deck 7

command: target/native/libsim0mq.a
	@cd cli && SIM0MQ_LIB_DIR=$(CURDIR)/target/native CARGO_TARGET_DIR=$(CURDIR)/target/native/cli cargo build --release --offline --quiet

install: command
	@$(INSTALL) 755 $(COMMAND) $(DESTDIR)$(PREFIX)/bin/sim0mq
	@$(INSTALL) 644 cli/sim0mq.1 $(DESTDIR)$(PREFIX)/share/man/man1/sim0mq.1
	@$(INSTALL) 644 cli/completion.bash $(DESTDIR)$(PREFIX)/share/bash-completion/completions/sim0mq
	@$(INSTALL) 644 -t $(DESTDIR)$(PREFIX)/share/sim0mq cli/samples/*
	@echo "sim0mq is in $(DESTDIR)$(PREFIX)/bin, its samples are in $(DESTDIR)$(PREFIX)/share/sim0mq"

check:
	@tools/prove

test:
	@.ci/run

calls:
	@tools/public-calls

bindings:
	@tools/test-bindings

target/native/libsim0mq.a: $(wildcard crates/*/src/*.rt) tools/native-library
	@tools/native-library

example: target/native/libsim0mq.a
	@cc -std=c11 -Wall -Wextra -Wpedantic -O2 -I bindings/c bindings/c/example.c -L target/native -lsim0mq -o target/native/example
	@target/native/example

compare: target/native/libsim0mq.a
	@$(PEER) --bin compare -- peer product 1 1000000
	@$(PEER) --bin compare -- peer c 1 1000000

bench: target/native/libsim0mq.a
	@$(PEER) --bin bench -- $(CURDIR)/docs/SPEED.md $(CURDIR)/docs/growth.svg

SHARED = cc -shared -Wl,--whole-archive

versus: target/native/libsim0mq.a
	@$(SHARED) $(BEFORE) -Wl,--no-whole-archive -o target/native/before.so
	@$(SHARED) target/native/libsim0mq.a -Wl,--no-whole-archive -o target/native/now.so
	@cc -std=c11 -D_POSIX_C_SOURCE=200809L -Wall -Wextra -O2 compare/versus.c -ldl -o target/native/versus
	@target/native/versus target/native/before.so target/native/now.so
