# What can be run here; README.md says what each is for.

# The original, a clone of nelhage/ultimattt at commit 87ef0d9c7c (README.md), and the directory of the proved static library.
ULTIMATTT_SRC ?= $(abspath $(firstword $(wildcard ../ultimattt ../shared/docs/src) ../ultimattt))
ULTIMATTT_LIB ?= $(abspath target/staticlib)
export ULTIMATTT_SRC ULTIMATTT_LIB

JOBS ?= 2
SEED ?= 1
CALLS ?= 200000
FUZZ_CALLS ?= 100000
FUZZ_SECONDS ?= 60
ROUNDS ?= 5
LOAD_ROUNDS ?= 25
LOOKUP_ROUNDS ?= 101
GAMES_ROUNDS ?= 41
STAY_ROUNDS ?= 3
PLAYERS_ROUNDS ?= 5
CARGO = cargo
BUILD_IN = $(CARGO) build --manifest-path harness/Cargo.toml --offline --locked -j $(JOBS)
BUILD = $(BUILD_IN) --release

.PHONY: test judge library uttt answers oracle-test fuzz compare bench bench-loads bench-lookups bench-games bench-stay bench-players bindings-test examples

# Every crate proved and laid out, every must-fail edit refused and none of them bad, every program's output as stored. Nothing is printed after rt's last line.
test:
	@.ci/run

# The program judge, proved, built and run on record W under rule 0: target/bin/judge
judge:
	cd crates/judge && rt run < stdin > /dev/null
	@mkdir -p target/bin
	cp crates/judge/out/judge target/bin/judge
	target/bin/judge < crates/judge/stdin

# A proved static library, target/staticlib/libNAME.a, is that of the crate NAME_c. It is made anew where a source of a crate that it stands on has changed.
LIBRARY = target/staticlib/libultimattt.a
LOAD_BENCH = target/staticlib/libload_bench.a

$(LIBRARY): $(shell tools/sources ultimattt_c)
$(LOAD_BENCH): $(shell tools/sources load_bench_c)
$(LIBRARY) $(LOAD_BENCH): target/staticlib/lib%.a:
	cd crates/$*_c && rt lib
	@mkdir -p target/staticlib
	cp crates/$*_c/out/lib$*_c.a $@

# The proved static library: target/staticlib/libultimattt.a
library: $(LIBRARY)

# A tool over the library that answers calls, one a line: harness/target/release/uttt
uttt: library
	$(BUILD) -p uttt

# The original's answers: harness/target/release/answers
answers:
	$(BUILD) -p oracle

# The original on the manual's positions to try and on chosen small searches; the tests of the generators, of lines and records, and of `measure`.
oracle-test:
	$(CARGO) test --manifest-path harness/Cargo.toml --offline --locked -j $(JOBS) -p calls -p oracle -p measure

# The library's exports on random and damaged bytes, every buffer between guard pages. First libraries with one thing wrong: each must be caught.
fuzz: library
	$(BUILD) -p fuzz
	harness/target/release/fuzz wrong
	harness/target/release/fuzz $(SEED) $(FUZZ_CALLS) $(FUZZ_SECONDS)

# The library and the original on the same calls, after the fuzz.
compare: library fuzz
	$(BUILD) -p compare
	harness/target/release/compare $(SEED) $(CALLS)

# The library and the original on the same searches, timed: the tables of docs/SPEED.md.
bench: library
	$(BUILD_IN) --profile speed -p bench
	harness/target/speed/bench $(ROUNDS)

# Records read from three words and bit by bit, both proved, timed: the tables of loading in docs/SPEED.md.
bench-loads: $(LOAD_BENCH)
	$(BUILD_IN) --profile speed -p loads
	harness/target/speed/loads $(LOAD_ROUNDS)

# Lookups in books of verdicts beside a plain loop in C, timed: the tables of lookups in docs/SPEED.md.
bench-lookups: library
	$(BUILD_IN) --profile speed -p lookups
	harness/target/speed/lookups $(LOOKUP_ROUNDS)

# Eight games judged together beside lone searches with what each game is granted, timed: the tables of games in docs/SPEED.md.
bench-games: library
	$(BUILD_IN) --profile speed -p rounds
	harness/target/speed/rounds $(GAMES_ROUNDS)

# Endings searched with and without a margin, counted and timed: the table of staying on a line in docs/SPEED.md.
bench-stay: library
	$(BUILD_IN) --profile speed -p stays
	harness/target/speed/stays $(STAY_ROUNDS)

# A thousand games of simulated players with small budgets, timed: the table of simulated players in docs/SPEED.md.
bench-players: library
	$(BUILD_IN) --profile speed -p players
	harness/target/speed/players $(PLAYERS_ROUNDS)

# The Rust wrapper's own tests, over the library.
bindings-test: library
	$(CARGO) test --manifest-path bindings/rust/Cargo.toml --offline --locked -j $(JOBS)

# The example programs, built and run: without a record (W of the manual), on D, on E, on D with target 0, on FA. Both have to say what is stored.
EXAMPLES = target/examples/adjudicate examples/rust/target/release/adjudicate
EXAMPLE_RECORDS = \
	7AB400AC0054001500054000A8002A000A80054000 \
	780000000000000000000000000000000000000000 \
	02B400AC0054001500054000A8002A000A80054000 \
	FA0000000000000000000000000000000000000000

examples: library
	@mkdir -p target/examples
	$(CC) -std=c99 -O2 -Wall -Wextra -Wpedantic -Werror -Iinclude examples/c/adjudicate.c $(ULTIMATTT_LIB)/libultimattt.a -o target/examples/adjudicate
	$(CARGO) build --manifest-path examples/rust/Cargo.toml --release --offline --locked -j $(JOBS)
	@for program in $(EXAMPLES); do \
		echo "$$program"; \
		{ $$program; for record in $(EXAMPLE_RECORDS); do $$program $$record; done; } >target/examples/words.txt 2>&1; \
		cat target/examples/words.txt; \
		diff examples/expected.txt target/examples/words.txt || exit 1; \
	done
