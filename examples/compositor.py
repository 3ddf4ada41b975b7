#!/usr/bin/env python3
"""The start-up of compositor.c in Python.

It needs the package of bindings/python, and finds the library as that page says.
"""
import mmap
import os
import struct
import sys

from mezulobu import Color, Entry, Heap, NoSettings, Pair, Participant, Platform, Size, Usage, negotiate

XRGB8888, LINEAR, X_TILED = "XR24", 0, 0x0100000000000001
HEAPS = [Heap(cpu=True, ram=True), Heap(contiguous=True, cpu=True, ram=True)]
# Ways to show the output: what the buffers are to hold, the greatest pitch that the display reads (0: any), and how large the images are at least.
WAYS = {
    "tiles in full size": (X_TILED, 0, Size(2560, 1440)),
    "rows in full size": (LINEAR, 8192, Size(2560, 1440)),
    "rows scaled by the display": (LINEAR, 8192, Size(1920, 1080)),
}


def asked(max_pitch, output):
    """Who takes part, each with what it asks for."""
    drawn = Entry(XRGB8888, Color.SRGB, modifier=None, pitch_divisor=64, min_size=output)
    shown = Entry(XRGB8888, Color.SRGB, modifier=None, max_pitch=max_pitch)
    read = Entry(XRGB8888, Color.SRGB, modifier=LINEAR)
    return {
        "renderer": Participant(Usage.VULKAN, ram=True, camping=2, entries=[drawn]),
        "display": Participant(Usage.DISPLAY, ram=True, contiguous=True, camping=2, entries=[shown]),
        "recorder": Participant(Usage.VIDEO, ram=True, camping=1, entries=[read]),
    }


def settled():
    """The settings of the first way that has some; none where no way has."""
    for name, (modifier, max_pitch, output) in WAYS.items():
        everybody = asked(max_pitch, output)
        try:
            s = negotiate(Platform(HEAPS, [Pair(XRGB8888, modifier)], [Color.SRGB]), list(everybody.values()))
        except NoSettings as error:
            why = error.refusal
            print(f"{name}: the {list(everybody)[why.who]} is in the way by {why.field_name}{', even alone' if why.alone else ''}")
            continue
        print(f"{name}: {s.count} buffers of {s.bytes} bytes in heap {s.heap}, {s.image.width}x{s.image.height}, pitch {s.image.layout.planes[0].pitch}")
        return s
    return None


def is_shown(settings, buffer):
    """Draws each row of a buffer where the settings have it, and reads the last pixel back from a mapping of its own."""
    image, plane = settings.image, settings.image.layout.planes[0]
    file = os.memfd_create("scan-out")
    try:
        os.ftruncate(file, settings.bytes)
        with mmap.mmap(file, settings.bytes) as at:
            for y in range(image.height):
                start = plane.offset + y * plane.pitch
                at[start : start + 4 * image.width] = struct.pack("<I", buffer << 24 | y) * image.width
        with mmap.mmap(file, settings.bytes, prot=mmap.PROT_READ) as at:
            last = plane.offset + (image.height - 1) * plane.pitch + 4 * (image.width - 1)
            return struct.unpack_from("<I", at, last)[0] == buffer << 24 | image.height - 1
    finally:
        os.close(file)


def main():
    settings = settled()
    if settings is None:
        return 1
    good = sum(is_shown(settings, buffer) for buffer in range(settings.count))
    print(f"{good} buffers drawn and read back")
    return 0 if good == settings.count else 1


sys.exit(main())
