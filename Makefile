# The front door. Each target is one command; `make test` is the gate.
.PHONY: fold read preview lines check test differ large calls fuzz growth speed store samples mutants choose economy index
.DELETE_ON_ERROR:
MAKEFLAGS += --no-builtin-rules

# Show a sample script folded; FILE is another one. A script with diagnostics, status 1, is no error of make.
FILE ?= examples/wallet.masm
fold: target/fold
	@target/fold $(FILE) || [ $$? -eq 1 ]

# The same for the program to start from.
read: target/read
	@target/read $(FILE) || [ $$? -eq 1 ]

# The same for a service that previews at a limit of 64, on a small stack.
preview: target/preview
	@target/preview $(FILE) || [ $$? -eq 1 ]

# The line and column of every offset of FILE.
lines: target/lines
	@target/lines $(FILE)

C_FLAGS := -std=c11 -O2 -Wall -Wextra -Iinclude
archive := target/staticlib/libmasm.a

target/fold: $(wildcard examples/fold/* include/*.h) $(archive)
	$(CC) $(C_FLAGS) $(filter %.c,$^) $(archive) -o $@

target/read: examples/read.c $(wildcard include/*.h) $(archive)
	$(CC) $(C_FLAGS) $< $(archive) -o $@

target/preview: examples/preview.c $(wildcard include/*.h) $(archive)
	$(CC) $(C_FLAGS) -pthread $< $(archive) -o $@

target/lines: examples/lines.c $(wildcard include/*.h) $(archive)
	$(CC) $(C_FLAGS) $< $(archive) -o $@

# The archive with the exported calls, proved: made anew where a file of the crates changed, or the kit (`rt version`).
ifneq ($(shell rt version 2>&1),$(shell cat target/staticlib/kit 2>&1))
.PHONY: $(archive)
endif
$(archive): crates.txt $(shell find crates \( -name must-fail -o -name out \) -prune -o -print)
	@echo "proving the reader, some minutes from nothing: a line for each crate here, all that is said in target/archive.log"
	@tools/progress target/archive.log tools/archive
	@touch $@

# Prove every crate and run the programs.
check:
	tools/progress target/check.log rt all test

# The gate: everything, but for the proofs that `rt ci` keeps on this machine of files that have not changed since.
test:
	bash .ci/run

# The lexer, the readings, the text of tree and the lines against the compiled reference, and the same on N times the sampled cases.
differ:
	tools/progress target/check.log tools/program cases
	cd tests && cargo run --offline --release --bin differ lexer --program ../crates/cases/out/cases
	cd tests && cargo run --offline --release --bin differ readings --program ../crates/cases/out/cases
	cd tests && cargo run --offline --release --bin differ trees --program ../crates/cases/out/cases
	cd tests && cargo run --offline --release --bin differ lines --program ../crates/cases/out/cases

N ?= 10
large:
	tools/progress target/check.log tools/program cases
	cd tests && cargo run --offline --release --bin differ lexer --program ../crates/cases/out/cases --large $(N)
	cd tests && cargo run --offline --release --bin differ readings --program ../crates/cases/out/cases --large $(N)
	cd tests && cargo run --offline --release --bin differ trees --program ../crates/cases/out/cases --large $(N)
	cd tests && cargo run --offline --release --bin differ lines --program ../crates/cases/out/cases --large $(N)

# The exported calls over the corpus, from C and against Python's lines, and fold. Needs gcc, valgrind and python3.
calls: $(archive)
	cd tests && cargo build --offline --release
	tests/target/release/differ calls
	tests/target/release/differ lines
	tests/c/run
	tests/lines/run
	tests/fold/run

# The exported calls against the reference for a chosen time: guided by coverage, with JOBS processes, and as
# long again from SEED. Needs clang.
SECONDS ?= 60
JOBS ?= 1
SEED ?= 1
fuzz: $(archive)
	tests/fuzz/run $(SECONDS) $(JOBS)
	cd tests && cargo run --offline --release --bin fuzz -- --seed $(SEED) --seconds $(SECONDS)

# Instructions of the exported calls on sources of n and 2n bytes, and those for lines beside the reading
# (docs/PERFORMANCE.md). Needs valgrind.
growth: $(archive)
	cd tests && cargo build --offline --release -p growth
	tests/target/release/growth --markdown
	tests/target/release/growth --beside --size 16384 --markdown

# Times of the proved lexer and reader, a plain Rust lexer and the reference (docs/PERFORMANCE.md).
speed: $(archive)
	cd tests && cargo run --offline --profile speed --bin speed

# Writes the stored cases and answers that `rt ci` replays.
store:
	cd tests && cargo run --offline --release --bin differ -- --store ../crates/cases 100 200 50 150

# Writes the reference's answers that the grammar's definitions are held to.
samples:
	cd tests && cargo run --offline --release --bin samples > ../crates/samples/specs/Samples.antt

# One-line mutants of the Rust text against the stored answers: each is caught, or listed with the reason why it
# reads everything the same (tests/mutants). `make choose` writes the sources that they choose anew.
mutants:
	cd tests && cargo run --offline --release -p mutants

choose:
	cd tests && cargo run --offline --release -p mutants --bin choose > ../target/chosen.rs
	mv target/chosen.rs tests/corpus/src/chosen.rs

# The table of lines in docs/PROOFS.md.
economy:
	tests/economy/run

# docs/FUNCTIONS.md, and the edits in docs/PROOFS.md, against the Rust sources and the crates; `tests/index/run --write` writes the
# tables of laws anew. Needs python3.
index:
	tests/index/run
