# Checks beside the gate, for as long as one likes; the Makefile includes this.
N ?= 1000000
SEED ?=
SECONDS ?= 60
CRATE ?= fields
LIMIT ?= 0
JOBS ?= 2
MINUTES ?= 0

.PHONY: soak fuzz fuzz-planted mutants
# N generated cases against the second program, each time others or those of SEED
soak:
	@sh tests/soak.sh $(N) $(SEED)

# coverage-guided inputs to plain C and the library beside each other, for SECONDS, and a quarter as long to `scanboot inspect`
fuzz:
	@sh fuzz/run.sh $(SECONDS)

# that the fuzzer finds mistakes, of which one at a time is put into a plain C stand-in for the library
fuzz-planted:
	@sh fuzz/planted.sh

# small mistakes put into the code of CRATE, at most LIMIT of them, drawn by SEED: the prover must refuse each
mutants:
	@python3 tools/mutants.py $(CRATE) --limit $(LIMIT) --seed $(or $(SEED),1) --jobs $(JOBS) --minutes $(MINUTES)
