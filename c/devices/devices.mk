# The library that asks devices, and the command: a C compiler, binutils and libdrm are all that they
# need. In the archive the header's names alone are seen.
PREFIX ?= /usr/local
override PREFIX := $(abspath $(PREFIX))
CFLAGS ?= -O2
OUT := out
TO := $(DESTDIR)$(PREFIX)
FOLDER := c/devices
LIBRARY := asking formats v4l2 drm platform
COMMAND := main script
HEADERS := c/mezulobu.h $(wildcard $(FOLDER)/*.h)
DRM_CFLAGS := $(shell pkg-config --cflags libdrm)
DRM_LIBS ?= $(shell pkg-config --libs libdrm)
WARNINGS := -std=c11 -D_DEFAULT_SOURCE -Wall -Wextra -Wpedantic -Werror
NAMES := $(shell sed -n 's/^[a-z].*[ *]\(mezulobu_[a-z0-9_]*\)\x28.*/\1/p' $(FOLDER)/mezulobu_devices.h)
# As in the library's header: major and minor number.
VERSION := $(shell awk '/define MEZULOBU_VERSION/ { v = substr($$3, 3, 8); print substr(v, 1, 4) + 0 "." substr(v, 5, 4) + 0 }' c/mezulobu.h)

.PHONY: devices install

devices: $(OUT)/mezulobu-devices $(OUT)/libmezulobu_devices.a

$(OUT)/devices/%.o: $(FOLDER)/%.c $(HEADERS)
	@mkdir -p $(OUT)/devices
	$(CC) $(WARNINGS) -fPIC $(CFLAGS) -Ic $(DRM_CFLAGS) -c $< -o $@

$(OUT)/devices/whole.o: $(LIBRARY:%=$(OUT)/devices/%.o)
	$(LD) -r $^ -o $@
	objcopy $(addprefix --keep-global-symbol=,$(NAMES)) $@

$(OUT)/libmezulobu_devices.a: $(OUT)/devices/whole.o
	@rm -f $@
	ar rcsD $@ $<

$(OUT)/mezulobu-devices: $(LIBRARY:%=$(OUT)/devices/%.o) $(COMMAND:%=$(OUT)/devices/%.o)
	$(CC) $(CFLAGS) $^ $(DRM_LIBS) -o $@

install: devices
	install -d $(TO)/bin $(TO)/lib/pkgconfig $(TO)/include $(TO)/share/doc/mezulobu/examples
	install -m 755 $(OUT)/mezulobu-devices $(TO)/bin
	install -m 644 $(FOLDER)/mezulobu_devices.h c/mezulobu.h $(TO)/include
	install -m 644 docs/DEVICES.md $(TO)/share/doc/mezulobu
	install -m 644 examples/zero_copy.c $(TO)/share/doc/mezulobu/examples
	install -m 644 $(OUT)/libmezulobu_devices.a $(TO)/lib
	sed 's|@PREFIX@|$(PREFIX)|; s|@VERSION@|$(VERSION)|' $(FOLDER)/mezulobu-devices.pc.in > $(TO)/lib/pkgconfig/mezulobu-devices.pc
