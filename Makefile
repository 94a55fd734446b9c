# Builds the programs and the library for C, and installs them. ./run builds what it needs by itself; docs/INSTALL.md has more.
#
#   make                                    builds all before any proof, where no proved ones are there: some minutes
#   make install [PREFIX=/usr/local]        puts programs, library, header, man pages, examples there; DESTDIR=FOLDER stands in front
#   make uninstall [PREFIX=/usr/local]      removes them again
#   make release [OUT=release]              an archive and a .deb
PREFIX ?= /usr/local
OUT ?= out/release

all:
	./run build
	tools/c_library
	./run check --help > /dev/null
install:
	tools/release --install "$(DESTDIR)$(PREFIX)"
uninstall:
	tools/release --uninstall "$(DESTDIR)$(PREFIX)"
release:
	tools/release "$(OUT)"

.PHONY: all install uninstall release
