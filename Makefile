# Proves and builds the programs, installs them, and packs a release. `rt` proves; where proved executables are there,
# `install` and `dist` need none.
#     make install PREFIX=/usr/local [DESTDIR=..]    bin, lib/leekclamp, share/leekclamp/records, share/man, share/doc
#     make uninstall PREFIX=/usr/local
#     make dist                                      dist/leekclamp-VERSION-MACHINE-linux.tar.gz and its checksum
#     make check                                     the gate, in hours on a machine that has proved nothing
PREFIX = /usr/local
DESTDIR =

all:
	tools/install.sh --build

install:
	DESTDIR='$(DESTDIR)' tools/install.sh '$(PREFIX)'

uninstall:
	DESTDIR='$(DESTDIR)' tools/install.sh --remove '$(PREFIX)'

dist:
	tools/install.sh --pack dist

check:
	.ci/run

.PHONY: all install uninstall dist check
