# What is handed out; the Makefile includes this.
ARCHIVE := build/scanboot-$(VERSION).tar.gz
PACKAGE := build/scanboot_$(VERSION)_amd64.deb
HANDED = PROGRAM=build/dist/scanboot EMULATED=

.PHONY: dist
# one archive and a Debian package, with checksums, the kit's identity and the gate's last page: the same bytes each time they are made
dist: lib host build/dist/scanboot
	@rm -rf build/dist/package build/dist/scanboot-$(VERSION)
	@$(MAKE) -s install DESTDIR=build/dist/scanboot-$(VERSION) PREFIX= $(HANDED)
	@VERSION=$(VERSION) sh packaging/archive.sh build/dist/scanboot-$(VERSION)
	@$(MAKE) -s install DESTDIR=build/dist/package PREFIX=/usr libdir=/usr/lib/x86_64-linux-gnu $(HANDED)
	@VERSION=$(VERSION) sh packaging/package.sh build/dist/package
	@sha256sum $(ARCHIVE) $(PACKAGE)

# The program for other machines takes the C library from where it runs. That is the one that was tested, but under an emulator, where that
# is static: there it is linked anew.
build/dist/scanboot: build/scanboot.program
	@mkdir -p build/dist
	$(if $(RUN),$(COMPILE) $(LDFLAGS) -o $@ $(filter %.c %.a,$(HOST)),cp build/scanboot.program $@)
