# What there is to run. All that is made stands in target/, and what rt keeps in crates/*/out/.

# The programs and the archive are for x86-64. On another machine an emulator runs them.
CARGO ?= tools/cross cargo
RT ?= rt
MACHINE := $(shell uname -m)
RUN_WITH ?= $(if $(filter x86_64,$(MACHINE)),,tools/x86-64)
BIN ?= target/bin
export CARGO_TARGET_DIR := $(CURDIR)/target/cargo
export RT

.PHONY: help run programs test whole faults archive vectors linked fuzz bench fmt clean

help:
	@echo 'make run     proves and builds the tools, packs, lists and unpacks a recording, and lists the example stream'
	@echo 'make test    the gate: every proof and every test; the last line counts them'
	@echo 'make whole   every test with all that it draws; the gate draws a fourth where that is dear'
	@echo 'make faults  tries every edit that the prover must refuse, or those of CRATES= some crates, and the fact that each names'
	@echo 'make fuzz    proved code and second program on drawn inputs, for FUZZ_SECONDS=60, from FUZZ_SEED'
	@echo 'make bench   the times of both, in one run, as tables for docs/BENCHMARKS.md; PARTS= of frames few linear store long mend why file'
	@echo 'make vectors compares the published test signals in FOLDER= with both, file by file'
	@echo 'make archive target/staticlib/libg7110.a, for C and Rust to link'
	@echo 'make fmt     lays out every file of Rattle'
	@echo 'make clean   removes target/ and what rt keeps in the crates'

# A recording packed, listed, unpacked and compared. Then M 41 00 56 0F 86, the example of document 01, is listed.
run: programs
	@BIN='$(BIN)' RUN_WITH='$(RUN_WITH)' tools/show
	@printf '%s\n' "$$ printf 'M\101\000\126\017\206' | $(BIN)/listing"
	@printf 'M\101\000\126\017\206' | $(RUN_WITH) $(BIN)/listing >target/listing-example.txt
	@cat target/listing-example.txt
	@cmp target/listing-example.txt tests/data/listing-example.txt
	@echo 'The listing is the expected one, octet for octet.'

programs:
	@mkdir -p target
	@echo 'Proving and building pack, listing, unpack, mend and why; the first time takes some minutes.'
	@tools/build programs >target/run-build.log 2>&1 || { tail -n 20 target/run-build.log; exit 1; }

test:
	@bash .ci/run

# Words for cargo test may be given, as TESTS='--test store'.
whole: programs linked
	@tools/cross --programs env $(OWN) cargo test --release --offline --locked --no-fail-fast $(or $(TESTS),--workspace)

# CRATES='store tables': their edits alone.
faults:
	@RT='$(RT)' tools/faults $(CRATES)

# Nothing is built that is built already.
archive:
	@tools/build archive

# Compiled for x86-64 on any machine, and so on the shipped archive.
vectors: archive
	@$(CARGO) run --release --offline --locked --quiet --package tests --bin vectors_of -- "$(FOLDER)"

# Under an emulator fuzzing is slow and times say nothing, so on another machine the archive's module is compiled for that machine.
ifeq ($(MACHINE),x86_64)
linked: archive
else
OWN := CARGO_TARGET_DIR=$(CURDIR)/target/native/cargo G7110_ARCHIVE=$(CURDIR)/target/native/libg7110.a
linked:
	@echo 'This machine is $(MACHINE): the proved code is the module of the archive, compiled for it.'
	@tools/native
endif

fuzz: linked
	@$(OWN) cargo run --release --offline --locked --quiet --package tests --bin fuzz

bench: linked
	@$(OWN) cargo run --profile bench --offline --locked --quiet --package bench -- $(PARTS)

fmt:
	@for crate in crates/*/; do (cd $$crate && $(RT) fmt) || exit 1; done

clean:
	rm -rf target crates/*/out
