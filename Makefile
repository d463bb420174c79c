# The library for whoever links it, and the command for whoever writes sheets:
#
#     make                        proves and builds target/staticlib/liblexondar.a
#     make install PREFIX=..      headers, archive and pkg-config file; DESTDIR is put before it
#     make install-desk PREFIX=.. the command for people who write sheets
#     make uninstall PREFIX=..    all of these
#     make assumed                what the proofs of the library and the program assume
#     make check                  the gate, .ci/run

PREFIX ?= /usr/local
DESTDIR ?=

archive := target/staticlib/liblexondar.a
headers := include/lexondar.h include/lexondar_words.h
version := $(shell sed -n 's/^#define LEXONDAR_VERSION "\(.*\)"/\1/p' include/lexondar.h)
prefix := $(abspath $(PREFIX))
to := $(DESTDIR)$(prefix)
build := .ci/build library

.PHONY: all install install-desk uninstall assumed check

all:
	$(build)

# The archive that is there is installed, without the toolchain; after a change of the sources, `make` comes first.
$(archive):
	$(build)

install: $(archive)
	install -d $(to)/include $(to)/lib/pkgconfig
	install -m 644 $(headers) $(to)/include
	install -m 644 $(archive) $(to)/lib
	sed -e 's|@PREFIX@|$(prefix)|' -e 's|@VERSION@|$(version)|' lexondar.pc.in >$(to)/lib/pkgconfig/lexondar.pc
	chmod 644 $(to)/lib/pkgconfig/lexondar.pc

install-desk: $(archive)
	cargo build --quiet --release --offline -p desk
	install -d $(to)/bin
	install -m 755 target/cargo/release/desk $(to)/bin

uninstall:
	rm -f $(addprefix $(to)/,$(headers)) $(to)/lib/liblexondar.a $(to)/lib/pkgconfig/lexondar.pc $(to)/bin/desk

assumed:
	@.ci/assumed

check:
	@.ci/run
