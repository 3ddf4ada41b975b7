#!/usr/bin/env python3
"""Compares the machine's drm_fourcc.h with docs/REPORT.md and with the library: each format and modifier of the tables
has the code that the header has under its DRM name, and the library lays such images out; each other code of the header
is refused. The last line is 'N passed, M failed'.

usage: codes.py LIBRARY
"""
import ctypes
import os
import re
import sys

sys.path.append(os.path.join(sys.path[0], "..", ".."))
from lib import text_of  # noqa: E402

HEADERS = ["/usr/include/libdrm/drm_fourcc.h", "/usr/include/drm/drm_fourcc.h"]
DONE, REFUSED = 0, 3
ABGR8888 = int.from_bytes(b"AB24", "little")
FORMAT = re.compile(r"#define\s+DRM_FORMAT_(\w+)\s+fourcc_code\('(.)', '(.)', '(.)', '(.)'\)")
VENDOR = re.compile(r"#define\s+DRM_FORMAT_MOD_VENDOR_(\w+)\s+(\w+)")
MODIFIER = re.compile(r"#define\s+(\w+_MOD_\w+)\s+fourcc_mod_code\((\w+), (\d+)\)")
ROW = re.compile(r"\| `(\w+)` \| `(DRM_FORMAT_\w+)` \| `(\w+)`(, then two spaces)? \|")
VALUE = re.compile(r"\| `(\w+)` \| `(\w+_MOD_\w+)` \| (\w+)")


def codes_in(header):
    """The code of each format of a header, and of each modifier that is a plain number."""
    formats = {"DRM_FORMAT_" + name: "".join(letters) for name, *letters in FORMAT.findall(header)}
    vendors = {name: int(number, 0) for name, number in VENDOR.findall(header)}
    modifiers = {name: vendors[vendor] << 56 | int(number) for name, vendor, number in MODIFIER.findall(header)}
    return formats, modifiers


def status(library, code, modifier):
    layout = ctypes.create_string_buffer(256)
    return library.mezulobu_planes(
        ctypes.c_uint32(code), ctypes.c_uint64(modifier), ctypes.c_uint32(4096), ctypes.c_uint32(64), layout
    )


def answers(library, header):
    """What is compared, and whether it is right."""
    formats, modifiers = codes_in(header)
    known = {
        drm: letters + (spaces and "  ")
        for _, drm, letters, spaces in ROW.findall(text_of("docs", "REPORT.md"))
    }
    named = {drm: int(value, 0) for _, drm, value in VALUE.findall(text_of("docs", "REPORT.md"))}
    yield "the tables of REPORT", (len(known), len(named)) == (14, 3)
    for drm, letters in known.items():
        yield drm, formats.get(drm) == letters and status(
            library, int.from_bytes(letters.encode(), "little"), 0
        ) == DONE
    for drm, value in named.items():
        yield drm, modifiers.get(drm) == value and status(library, ABGR8888, value) == DONE
    for drm, letters in formats.items():
        if letters not in known.values():
            yield drm, status(library, int.from_bytes(letters.encode(), "little"), 0) == REFUSED
    for drm, value in modifiers.items():
        if value not in named.values():
            yield drm, status(library, ABGR8888, value) == REFUSED
    yield "DRM_FORMAT_MOD_INVALID", status(library, ABGR8888, 2**56 - 1) == REFUSED


def main():
    header = next(filter(os.path.exists, HEADERS), None)
    passed = failed = 0
    if header is None:
        print("library: there is no drm_fourcc.h here (libdrm-dev has one), so NO CODE IS COMPARED with it")
    for name, good in answers(ctypes.CDLL(sys.argv[1]), text_of(header)) if header else ():
        passed, failed = passed + good, failed + (not good)
        if not good:
            print(f"library: {name} is another code, or is laid out otherwise")
    print(f"{passed} passed, {failed} failed")
    return 1 if failed else 0


sys.exit(main())
