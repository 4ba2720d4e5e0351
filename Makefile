# What a web front links with, put where compilers look for it. `tools/archives` writes the archive before.
#
#   make shared                       target/shared/libperdigolh.so.N
#   make install [PREFIX=/usr/local] [DESTDIR=]
#                                     headers, archive, shared library and a file for pkg-config

PREFIX ?= /usr/local
VERSION := $(shell cat VERSION)
INTERFACE := $(shell sed -n 's/^\#define PERDIGOLH_INTERFACE //p' include/perdigolh.h)
ARCHIVE := target/staticlib/libfront.a
NAME := libperdigolh.so
# the loader looks for the interface's number in the name, so a library with another one is not loaded
SHARED := target/shared/$(NAME).$(INTERFACE)
PLACE = $(DESTDIR)$(PREFIX)

.PHONY: shared install
shared: $(SHARED)

$(ARCHIVE):
	@echo "no $@: run 'tools/archives'" >&2; exit 1

$(SHARED): $(ARCHIVE)
	mkdir -p $(@D)
	$(CC) -shared -o $@ -Wl,-soname,$(@F) -Wl,--whole-archive $(ARCHIVE) -Wl,--no-whole-archive -Wl,-z,defs,-z,relro,-z,now

install: $(ARCHIVE) $(SHARED)
	install -d $(PLACE)/include $(PLACE)/lib/pkgconfig
	install -m 644 include/perdigolh.h include/perdigolh_text.h $(PLACE)/include
	install -m 644 $(ARCHIVE) $(PLACE)/lib/libperdigolh.a
	install -m 755 $(SHARED) $(PLACE)/lib
	ln -sf $(NAME).$(INTERFACE) $(PLACE)/lib/$(NAME)
	sed -e 's|@PREFIX@|$(PREFIX)|' -e 's|@VERSION@|$(VERSION)|' include/perdigolh.pc.in >$(PLACE)/lib/pkgconfig/perdigolh.pc
