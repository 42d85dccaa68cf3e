# scanboot: see README.md. What is built stands in build/.
.DEFAULT_GOAL := all

include build.mk
include install.mk
include dist.mk
include checks.mk

.PHONY: all setup demo test clean
# the library and the command-line program
all: setup lib host

# the tools that are needed: installed where that is allowed, named otherwise
setup:
	@sh tools/setup.sh

# the main job on a small file
demo: all
	@sh tests/demo.sh

# what decides: all proofs, the must-fail edits, the programs, and the second program
test: setup
	@sh tests/gate.sh

clean:
	rm -rf build crates/*/out second/target
