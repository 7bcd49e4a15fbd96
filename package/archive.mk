# cobix as it was proved and built: docs/FIRST-NIGHT.md. `make check` compares each file with its checksum;
# `make install` puts the program, the library and their pages into PREFIX;
# `make handler` compiles the handler for GnuCOBOL, and puts it there too (it needs a C compiler and GnuCOBOL);
# `make uninstall` takes all of that out of PREFIX.
.PHONY: check install handler uninstall

VERSION := $(shell cat VERSION)
PREFIX = /usr/local
DESTDIR =
INSTALLED = $(DESTDIR)$(PREFIX)
SONAME = libcobix.so.$(firstword $(subst ., ,$(VERSION)))
PLAIN = include/cobix.h lib/libcobix.a share/man/man1/cobix.1 share/man/man3/cobix.3 share/bash-completion/completions/cobix share/file/cobix
LINKS = lib/$(SONAME) lib/libcobix.so
HANDLER = lib/libcobixfh.a lib/cobixfh.o lib/cobix/libcobixfh.so include/cobixfh.h

check:
	@sha256sum --check --quiet --strict SHA256SUMS && echo "each file is as it was packed"

install: check
	install -D bin/cobix $(INSTALLED)/bin/cobix
	for it in $(PLAIN) lib/libcobix.so.$(VERSION); do install -D -m 644 $$it $(INSTALLED)/$$it || exit 1; done
	cp -P $(LINKS) $(INSTALLED)/lib
	install -d $(INSTALLED)/lib/pkgconfig
	sed 's|^prefix=.*|prefix=$(abspath $(PREFIX))|' lib/pkgconfig/cobix.pc > $(INSTALLED)/lib/pkgconfig/cobix.pc

handler:
	$(MAKE) -C gnucobol install PREFIX=$(abspath $(INSTALLED))

uninstall:
	cd $(INSTALLED) && rm -f bin/cobix $(PLAIN) $(LINKS) lib/libcobix.so.$(VERSION) lib/pkgconfig/cobix.pc $(HANDLER)
