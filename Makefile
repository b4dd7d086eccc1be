# The C library: `make` proves it and makes the archive, `make install` puts it where compilers look.
#
#     make install [PREFIX=/usr/local] [DESTDIR=]
#     make examples                 builds and runs examples/embedding
#     make check                    the same, and again under valgrind; it fails where a frame differs or memory leaks

TOP := .
include embedding.mk

PREFIX ?= /usr/local
INCLUDES := $(DESTDIR)$(PREFIX)/include
LIBRARIES := $(DESTDIR)$(PREFIX)/lib
VERSION := $(shell sed -n 's/^.define KZ_VERSION //p' include/kalzurenk.h)

.DEFAULT_GOAL := lib
.PHONY: lib install examples check

lib: $(ARCHIVE)

install: $(ARCHIVE)
	install -d $(INCLUDES) $(LIBRARIES)/pkgconfig
	install -m 644 include/kalzurenk.h $(INCLUDES)/
	install -m 644 $(ARCHIVE) $(LIBRARIES)/libkalzurenk.a
	sed 's|@prefix@|$(PREFIX)|; s|@version@|$(VERSION)|' include/kalzurenk.pc.in >$(LIBRARIES)/pkgconfig/kalzurenk.pc

examples: $(ARCHIVE)
	$(MAKE) -C examples/embedding

check: examples
	$(MAKE) -C examples/embedding valgrind
