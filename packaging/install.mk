# What `make install` puts beside the library and the program: the header for C++, CMake's files, manual pages, completions, a glossary, a schema and examples.
PREFIX ?= /usr/local
override PREFIX := $(abspath $(PREFIX))
LIBDIR ?= $(PREFIX)/lib
override LIBDIR := $(abspath $(LIBDIR))
SHARE := $(DESTDIR)$(PREFIX)/share
CMAKE := $(LIBDIR)/cmake/Mezulobu
PROGRAM := $(if $(UNPROVED),out/unproved,crates/sysmem_replay/out)/sysmem_replay
VERSION := $(shell bindings/version)
# zero_copy.c needs the library that asks devices, and is installed with it.
EXAMPLES := $(filter-out examples/zero_copy.c,$(wildcard examples/*.c examples/*.py examples/*.json))
SAID := s|@VERSION@|$(VERSION)|; s|@MAJOR@|$(firstword $(subst ., ,$(VERSION)))|
SAID := $(SAID); s|@INCLUDE@|$(shell realpath -m --relative-to='$(CMAKE)' '$(PREFIX)/include')|

.PHONY: beside manual completions examples
beside: manual completions examples
	install -d $(DESTDIR)$(PREFIX)/include $(DESTDIR)$(CMAKE)
	install -m 644 bindings/cxx/mezulobu.hpp $(DESTDIR)$(PREFIX)/include
	for name in MezulobuConfig MezulobuConfigVersion; do \
		sed '$(SAID)' packaging/cmake/$$name.cmake.in > $(DESTDIR)$(CMAKE)/$$name.cmake || exit; \
	done

manual:
	install -d $(SHARE)/man/man1 $(SHARE)/man/man3 $(SHARE)/man/man5
	packaging/manual $(PROGRAM) $(SHARE)/man

examples:
	install -d $(SHARE)/doc/mezulobu/examples
	install -m 644 $(EXAMPLES) $(SHARE)/doc/mezulobu/examples
	install -m 644 docs/GLOSSARY.md docs/sysmem.schema.json $(SHARE)/doc/mezulobu
	packaging/pages $(SHARE)/doc/mezulobu

completions:
	packaging/completions $(PROGRAM) $(SHARE)
