# What each target does: make help.
.PHONY: help run test tests reference_tests compare_tests gate_tests bench table_1 tails columns reference programs entries library replay_library \
	display_library fuzz libfuzzer

.DEFAULT_GOAL := run

SAMPLE = samples/lane.txt

help: ## this list
	@grep -E '^[a-z_0-9]+:.* ## ' Makefile | sed 's/:.* ## /\t/' | expand -t 16

run: programs ## a text of coordinates to its listing and to a picture, target/deck.svg
	@target/bin/deckpack < $(SAMPLE) > target/pins.deck && [ -s target/pins.deck ]
	@target/bin/deckplan < target/pins.deck | target/bin/deckdraw > target/deck.svg
	@target/bin/decklist < target/pins.deck

# The programs, proved and linked to target/bin. Each is run once, on the input that lies beside its source.
PROGRAMS = deckpack deckplan deckdraw decklist deckplay arrows

programs: ## the programs, proved and linked to target/bin
	@mkdir -p target/bin
	@for name in $(PROGRAMS); do \
		input=crates/$$name/stdin; [ -e $$input ] || input=/dev/null; \
		(exec <$$input && cd crates/$$name && rt run >/dev/null) && cp crates/$$name/out/$$name target/bin/$$name || exit 1; \
	done

reference: ## the independent implementation
	@cd tests/reference && cargo build --release --offline --quiet

# A proved crate as a library for C: $(call archive,CRATE,NAME) writes target/staticlib/libNAME.a.
define archive
	@cd crates/$(1) && rt lib >&2
	@mkdir -p target/staticlib && cp crates/$(1)/out/lib$(1).a target/staticlib/lib$(2).a
endef

# The planner for C.
library: ## the planner for C: target/staticlib/libplanner.a
	$(call archive,planner_c,planner)

# Lists of calls for C.
replay_library: ## lists of calls for C: target/staticlib/libreplay.a
	$(call archive,replay_c,replay)

# Arrows on displays for C.
display_library: ## arrows on displays for C: target/staticlib/libdisplay.a
	$(call archive,display_c,display)

# The proved functions as libraries for the tests in Rust. One after the other: a crate below two of them is proved once.
entries: ## the proved functions as libraries for the tests
	$(call archive,test_tree,test_tree)
	$(call archive,test_deck,test_deck)
	$(call archive,planner_c,planner)
	$(call archive,replay_c,replay)
	$(call archive,display_c,display)

# The prover over every crate, then the tests on what it proved.
test: ## the gate: the prover over every crate, then the tests; the last line is the verdict
	sh tests/gate/gate.sh $(MAKE) -s tests

# The libraries are made beside the tests that need none of them; the programs are in target/bin already.
tests: ## the tests alone, once the prover has passed
	$(MAKE) -s -j2 -O entries gate_tests
	$(MAKE) -s compare_tests

reference_tests: ## the tests of the independent implementation
	cd tests/reference && cargo test --release --offline --quiet

compare_tests: ## the proved functions against it
	cd tests/compare && cargo test --release --offline --quiet

# That the gate fails when it must.
gate_tests: reference_tests ## that the gate fails when it must
	sh tests/gate/failures.sh

# Functions and loops at even addresses: else a way gets some parts in a hundred slower or faster by where it stands in the program.
ALIGNED = -C llvm-args=-align-all-functions=6 -C llvm-args=-align-all-nofallthru-blocks=5

bench: entries ## the time of a run to the end, by the planner and by others
	cd tests/compare && RUSTFLAGS="$(ALIGNED)" CARGO_TARGET_DIR=target/aligned cargo run --release --offline --quiet --bin bench

table_1: entries ## the averages of document 004, Table 1
	cd tests/compare && cargo run --release --offline --quiet --bin table_1

tails: entries ## rounds, taps and lengths of a run to the end at some tail lengths
	cd tests/compare && cargo run --release --offline --quiet --bin tails

columns: entries ## the time of one column beside that of a round
	cd tests/compare && cargo run --release --offline --quiet --bin columns

# Some 20 seconds of deck files changed at random; tests/fuzz/check.c says what must hold. Not a part of test.
ROUNDS = 150000
FUZZ_FLAGS = -std=c11 -Wall -Wextra -Werror -O1 -g -Iinclude -fno-sanitize-recover=undefined
FUZZ_SOURCES = tests/fuzz/plan.c tests/fuzz/mutate.c tests/fuzz/check.c

fuzz: library ## deck files changed at random, to the planner for C
	mkdir -p target/fuzz
	gcc $(FUZZ_FLAGS) -fsanitize=address,undefined $(FUZZ_SOURCES) target/staticlib/libplanner.a -o target/fuzz/plan
	target/fuzz/plan $(ROUNDS) samples/*.deck

# The same demands with changes by libFuzzer, where clang has it.
libfuzzer: library ## the same with changes by libFuzzer, where clang has it
	mkdir -p target/fuzz/corpus
	clang $(FUZZ_FLAGS) -fsanitize=fuzzer,address,undefined tests/fuzz/check.c target/staticlib/libplanner.a -o target/fuzz/libfuzzer
	target/fuzz/libfuzzer -max_total_time=20 -max_len=1024 -artifact_prefix=target/fuzz/ target/fuzz/corpus samples
