# Putting the library and the program where users find them, and taking them away; the Makefile includes this.
# The folders are GNU's, and each may be given. All of them go under DESTDIR, if one is named.
PREFIX ?= /usr/local
DESTDIR ?=
prefix = $(PREFIX)
exec_prefix = $(prefix)
bindir = $(exec_prefix)/bin
libdir = $(exec_prefix)/lib
libexecdir = $(exec_prefix)/libexec
includedir = $(prefix)/include
datarootdir = $(prefix)/share
datadir = $(datarootdir)
mandir = $(datarootdir)/man
docdir = $(datarootdir)/doc/scanboot
# which program goes there, and whether it is a script that starts another by an emulator
PROGRAM = build/scanboot
EMULATED = $(RUN)

VERSION := $(shell sed -n 's/^.define SCANBOOT_VERSION_TEXT "\(.*\)"/\1/p' include/scanboot.h)
PLACES = DESTDIR='$(DESTDIR)' prefix='$(prefix)' bindir='$(bindir)' libdir='$(libdir)' libexecdir='$(libexecdir)' includedir='$(includedir)' \
	datadir='$(datadir)' mandir='$(mandir)' docdir='$(docdir)' PROGRAM='$(PROGRAM)' EMULATED='$(EMULATED)' VERSION='$(VERSION)'

# make -s says nothing
QUIET = $(if $(findstring s,$(firstword -$(MAKEFLAGS))),>/dev/null)

.PHONY: install uninstall
# header, archive, program, manual pages, examples, a file for pkg-config and completion for bash, under PREFIX
install: lib host
	@$(PLACES) sh tools/install.sh put $(QUIET)

# takes the same files away, and the folders that nobody else has a use for
uninstall:
	@$(PLACES) sh tools/install.sh remove $(QUIET)
