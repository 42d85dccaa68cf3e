# The archive, the command-line program and the bench; the Makefile includes this.
# The proved library is x86-64 code. On another machine a cross compiler links it, statically, and an emulator runs what was linked.
# CC, CPPFLAGS, CFLAGS and LDFLAGS are taken from the environment or from make's command line.
# what tools/machine.sh calls so
machine = $(shell . tools/machine.sh && echo $$$(1))
COMPILER := $(call machine,compiler)
STATIC := $(call machine,link)
RUN := $(call machine,emulator)

# `cc`, which make has for a CC that nobody gave, need not be a compiler for x86-64
ifeq ($(origin CC),default)
CC := $(COMPILER)
endif
CFLAGS ?= -O2
# what the sources need, whatever else is given
SCANBOOT_CFLAGS := -std=c11 -Wall -Wextra -Wpedantic -D_GNU_SOURCE -Iinclude
COMPILE = $(CC) $(SCANBOOT_CFLAGS) $(CPPFLAGS) $(CFLAGS)
LINK = $(STATIC) $(LDFLAGS)

PROVED := crates.txt $(shell find crates -name out -prune -o \( -name '*.rt' -o -name '*.antt' \) -print)
HOST := $(wildcard host/*.c host/*.h) include/scanboot.h build/libscanboot.a

.PHONY: lib host bench plot
# the proved library for C: build/libscanboot.a, with include/scanboot.h
lib: build/libscanboot.a

# the command-line program: build/scanboot
host: build/scanboot

# speed and stack beside plain C, memcpy, memcmp and fnmatch, as tables; a time is the least of ROUNDS
bench: build/bench build/count.so
	@ROUNDS=$(ROUNDS) python3 bench/bench.py

# how cost grows, as a picture
plot: build/bench build/count.so
	@ROUNDS=$(ROUNDS) python3 bench/growth.py $(or $(OUT),docs/cost.svg)

# for every x86-64, where rt would compile for x86-64-v2 and later
build/libscanboot.a: $(PROVED)
	@mkdir -p build
	@echo 'rt lib in crates/scanboot_c: proves what has changed, then compiles (build/lib.log)'
	@(cd crates/scanboot_c && rt lib --cpu x86-64) >build/lib.log 2>&1 || { tail -n 40 build/lib.log; false; }
	cp crates/scanboot_c/out/libscanboot_c.a $@

# The listing program, which is proved too. rt runs it once, and it stays beside the crate.
build/listing: $(PROVED)
	@mkdir -p build
	@echo 'rt run in crates/listing: proves what has changed, compiles and runs (build/listing.log)'
	@(cd crates/listing && rt run <stdin) >build/listing.said 2>build/listing.log || { tail -n 40 build/listing.log; false; }
	@cmp build/listing.said crates/listing/stdout
	cp crates/listing/out/listing $@

build/scanboot.program: $(HOST)
	$(COMPILE) $(LINK) -o $@ $(filter %.c %.a,$^)

# Under an emulator the program is started by a script of its name.
build/scanboot: build/scanboot.program host/emulated.sh
	cp $(if $(RUN),host/emulated.sh,build/scanboot.program) $@
	chmod 755 $@

build/face: tests/face.c include/scanboot.h build/libscanboot.a
	$(COMPILE) $(LINK) -o $@ $(filter %.c %.a,$^)

# the library behind a pipe, for the second program; the whole archive, so that a call that it lacks is told and is no link error
build/driver: second/driver/driver.c include/scanboot.h build/libscanboot.a
	$(COMPILE) $(LINK) -o $@ second/driver/driver.c -Wl,--whole-archive build/libscanboot.a -Wl,--no-whole-archive

BENCH := bench/bench.c bench/blocks.c bench/cases.c bench/given.c bench/names.c bench/orders.c second/driver/plain.c build/libscanboot.a
BENCH_HEADERS := bench/blocks.h bench/cases.h bench/given.h bench/names.h bench/orders.h second/driver/plain.h include/scanboot.h
build/bench: $(BENCH) $(BENCH_HEADERS)
	$(COMPILE) $(LINK) -DPLAIN_NAMES -o $@ $(BENCH)

# the same with flags of its own, so that what it takes of the stack itself is known: tests/stack.py
build/stack: $(BENCH) $(BENCH_HEADERS)
	$(COMPILER) $(SCANBOOT_CFLAGS) -O2 $(STATIC) -DPLAIN_NAMES -o $@ $(BENCH)

build/count.so: bench/count.c
	cc -O2 -shared -fPIC -o $@ $<
