#!/usr/bin/env python3
"""flat.py LIBRARY: negotiates random lists of participants by structs, beside the report of a script with the same
participants; and refusals that were worked out by hand. The last line is 'N passed, M failed'."""
import ctypes
import json
import os
import random
import re
import sys

lib = ctypes.CDLL(sys.argv[1])
DONE, MISUSED, REFUSED, NO = 0, 2, 3, 6
PLATFORM, PARTICIPANT, TOO_MANY, COUNT, PLACES, OFFERS = range(1, 7)
NOBODY = 2**64 - 1
LISTS = 1000
U8, U32, U64, SIZE, BOOL = ctypes.c_uint8, ctypes.c_uint32, ctypes.c_uint64, ctypes.c_size_t, ctypes.c_bool


def code(letters):
    return int.from_bytes(letters.encode(), "little")


FORMATS = {
    "R8G8B8A8": "AB24", "B8G8R8A8": "AR24", "R5G6B5": "RG16", "YUY2": "YUYV", "NV12": "NV12", "I420": "YU12",
    "R8": "R8  ",
}
MODIFIERS = {"LINEAR": 0, "INTEL_I915_X_TILED": (1 << 56) + 1, "INTEL_I915_Y_TILED": (1 << 56) + 2}
COLORS = [
    "SRGB", "REC601_NTSC", "REC601_NTSC_FULL_RANGE", "REC601_PAL", "REC601_PAL_FULL_RANGE", "REC709", "REC2020",
    "REC2100", "DO_NOT_CARE",
]
USAGE = ["none", "cpu", "vulkan", "display", "video"]
DOMAINS = ["cpu", "ram", "inaccessible"]


class Struct(ctypes.Structure):
    """A struct whose first member, where it has that name, is its size."""

    def __init__(self, **members):
        super().__init__(**members)
        if self._fields_[0][0] == "struct_size":
            self.struct_size = ctypes.sizeof(self)


class Size(Struct):
    _fields_ = [("width", U32), ("height", U32)]


class Heap(Struct):
    _fields_ = [(name, BOOL) for name in ("contiguous", "secure", *DOMAINS)]


class Pair(Struct):
    _fields_ = [("modifier", U64), ("format", U32), ("reserved", U32)]


class Platform(Struct):
    _fields_ = [
        ("struct_size", SIZE), ("heaps", ctypes.POINTER(Heap)), ("n_heaps", SIZE), ("pairs", ctypes.POINTER(Pair)),
        ("n_pairs", SIZE),
    ]
    _fields_ += [("colors", ctypes.POINTER(U32)), ("n_colors", SIZE)]


class Entry(Struct):
    _fields_ = [
        ("struct_size", SIZE), ("modifier", U64), ("format", U32), ("colors", U32), ("any_format", BOOL),
        ("any_modifier", BOOL),
    ]
    _fields_ += [
        ("rows_end_at_pixels", BOOL), ("min_size", Size), ("max_size", Size), ("size_alignment", Size),
        ("min_pitch", U32), ("max_pitch", U32),
    ]
    _fields_ += [
        ("pitch_divisor", U32), ("offset_divisor", U32), ("display_rect_alignment", Size), ("required_min_size", Size),
    ]
    _fields_ += [("required_max_size", Size), ("max_pixels", U64)]


class Participant(Struct):
    _fields_ = [("struct_size", SIZE), ("usage", U8), ("contiguous", BOOL), ("secure", BOOL)] + [
        (name, BOOL) for name in DOMAINS
    ]
    _fields_ += [(name, U32) for name in ("camping", "dedicated_slack", "shared_slack", "min_count", "max_count")]
    _fields_ += [
        ("min_bytes", U64), ("max_bytes", U64), ("heaps", U64), ("entries", ctypes.POINTER(Entry)), ("n_entries", SIZE),
    ]


class Plane(Struct):
    _fields_ = [("offset", U64), ("rows", U64), ("pitch", U32), ("reserved", U32)]


class Layout(Struct):
    _fields_ = [("bytes", U64), ("n_planes", U32), ("reserved", U32), ("planes", Plane * 4)]


class Image(Struct):
    _fields_ = [("modifier", U64), ("format", U32), ("color", U32), ("width", U32), ("height", U32), ("layout", Layout)]


class Settings(Struct):
    _fields_ = [
        ("struct_size", SIZE), ("bytes", U64), ("heap", SIZE), ("count", U32), ("coherency", U32), ("image", Image),
    ]


class Refusal(Struct):
    _fields_ = [("struct_size", SIZE), ("who", SIZE), ("index", SIZE), ("heap", SIZE), ("modifier", U64)]
    _fields_ += [(name, U32) for name in ("format", "color", "coherency", "kind", "field", "alone")]


lib.mezulobu_field_name.restype = ctypes.c_char_p
lib.mezulobu_negotiate.argtypes = [
    ctypes.POINTER(Platform), ctypes.POINTER(Participant), SIZE, ctypes.POINTER(Settings), ctypes.POINTER(Refusal),
]
lib.mezulobu_planes.argtypes = [U32, U64, U32, U32, ctypes.POINTER(Layout)]


def array(kind, items):
    return (kind * len(items))(*items)


def bits(names, of):
    return sum(1 << of.index(name) for name in names)


def flat_platform(p):
    heaps = array(
        Heap,
        [
            Heap(**{name: True for name in h["domains"]}, contiguous=h["contiguous"], secure=h["secure"])
            for h in p["heaps"]
        ],
    )
    pairs = array(
        Pair,
        [
            Pair(format=code(FORMATS[q["pixel_format"]]), modifier=MODIFIERS[q["pixel_format_modifier"]])
            for q in p["pairs"]
        ],
    )
    colors = array(U32, [bits([name], COLORS) for name in p["color_spaces"]])
    return Platform(
        heaps=heaps, n_heaps=len(heaps), pairs=pairs, n_pairs=len(pairs), colors=colors, n_colors=len(colors)
    )


# A field of an entry's record, and that of its struct.
BOUNDS = {
    "min_size": "min_size", "max_size": "max_size", "size_alignment": "size_alignment",
    "min_bytes_per_row": "min_pitch", "max_bytes_per_row": "max_pitch",
}
BOUNDS |= {
    "bytes_per_row_divisor": "pitch_divisor",
    "start_offset_divisor": "offset_divisor",
    "display_rect_alignment": "display_rect_alignment",
}
BOUNDS |= {
    "required_min_size": "required_min_size",
    "required_max_size": "required_max_size",
    "max_width_times_height": "max_pixels",
}
BOUNDS |= {"require_bytes_per_row_at_pixel_boundary": "rows_end_at_pixels"}
COUNTS = {"min_buffer_count_for_camping": "camping", "min_buffer_count_for_dedicated_slack": "dedicated_slack"}
COUNTS |= {
    "min_buffer_count_for_shared_slack": "shared_slack",
    "min_buffer_count": "min_count",
    "max_buffer_count": "max_count",
}


def flat_entry(e):
    flat = Entry(colors=bits(e["color_spaces"], COLORS))
    flat.any_format, flat.any_modifier = e["pixel_format"] == "DO_NOT_CARE", e["pixel_format_modifier"] == "DO_NOT_CARE"
    flat.format = 0 if flat.any_format else code(FORMATS[e["pixel_format"]])
    flat.modifier = 0 if flat.any_modifier else MODIFIERS[e["pixel_format_modifier"]]
    for name, member in BOUNDS.items():
        if name in e:
            setattr(flat, member, Size(**e[name]) if isinstance(e[name], dict) else e[name])
    return flat


def flat_participant(p):
    flat, memory = Participant(usage=bits(p["usage"], USAGE)), p["buffer_memory_constraints"]
    for name, member in COUNTS.items():
        setattr(flat, member, p.get(name, 0))
    flat.contiguous, flat.secure = memory.get("physically_contiguous_required", False), memory.get(
        "secure_required", False
    )
    for name in DOMAINS:
        setattr(flat, name, memory.get(f"{name}_domain_supported", name == "cpu"))
    flat.min_bytes, flat.max_bytes = memory.get("min_size_bytes", 0), memory.get("max_size_bytes", 0)
    flat.heaps = sum(1 << h["id"] for h in memory.get("permitted_heaps", []))
    entries = array(Entry, [flat_entry(e) for e in p.get("image_format_constraints", [])])
    flat.entries, flat.n_entries = entries, len(entries)
    return flat


def random_platform(r):
    heaps = []
    for i in range(r.randint(1, 3)):
        heaps.append({"heap_type": "heap", "id": i, "contiguous": r.random() < 0.5, "secure": r.random() < 0.05})
        heaps[-1]["domains"] = r.sample(DOMAINS, r.choice([1, 2, 3, 3]))
    formats = r.sample(list(FORMATS), r.randint(1, 4))
    pairs = [{"pixel_format": f, "pixel_format_modifier": "LINEAR"} for f in formats]
    if r.random() < 0.4:
        pairs.insert(
            0,
            {
                "pixel_format": "B8G8R8A8",
                "pixel_format_modifier": r.choice(["INTEL_I915_X_TILED", "INTEL_I915_Y_TILED"]),
            },
        )
    return {"heaps": heaps, "pairs": pairs, "color_spaces": r.sample(COLORS[:8], r.randint(1, 3))}


def sides(r, least, most):
    return {"width": r.randint(least, most), "height": r.randint(least, most)}


def random_entry(r, platform, asked):
    pair = platform["pairs"][0] if r.random() < 0.6 else r.choice(platform["pairs"])
    e = {"pixel_format": pair["pixel_format"], "pixel_format_modifier": pair["pixel_format_modifier"]}
    if r.random() < 0.15:
        e["pixel_format"] = "DO_NOT_CARE"
    if r.random() < 0.15:
        e["pixel_format_modifier"] = "DO_NOT_CARE"
    if (e["pixel_format"], e["pixel_format_modifier"]) in asked:
        return None
    asked.add((e["pixel_format"], e["pixel_format_modifier"]))
    e["color_spaces"] = r.choice(
        [platform["color_spaces"], platform["color_spaces"], ["DO_NOT_CARE"], r.sample(COLORS, 2)]
    )
    some = {
        "min_size": sides(r, 1, 300),
        "max_size": sides(r, 100, 4000),
        "size_alignment": {"width": r.choice([1, 2, 16]), "height": r.choice([1, 4, 6])},
    }
    some |= {
        "min_bytes_per_row": r.randint(1, 3000),
        "max_bytes_per_row": r.randint(500, 9000),
        "bytes_per_row_divisor": r.choice([1, 6, 64, 256]),
    }
    some |= {
        "start_offset_divisor": r.choice([1, 64, 4096]),
        "display_rect_alignment": sides(r, 1, 4),
        "required_min_size": sides(r, 100, 400),
    }
    some |= {
        "required_max_size": sides(r, 1, 300),
        "max_width_times_height": r.randint(10000, 10**7),
        "require_bytes_per_row_at_pixel_boundary": True,
    }
    return e | {name: some[name] for name in some if r.random() < 0.2}


def random_participant(r, platform):
    p = {"usage": r.choice([["none"], r.sample(USAGE[1:], r.choice([1, 1, 2, 3]))])}
    p |= {name: r.randint(1, 4) for name in list(COUNTS)[:4] if r.random() < 0.4}
    if r.random() < 0.2:
        p["max_buffer_count"] = r.randint(5, 40)
    memory = {f"{name}_domain_supported": True for name in r.sample(DOMAINS, r.choice([1, 2, 3, 3]))}
    memory = {f"{name}_domain_supported": False for name in DOMAINS} | memory
    memory |= {name: True for name in ("physically_contiguous_required", "secure_required") if r.random() < 0.03}
    if r.random() < 0.2:
        memory["min_size_bytes"] = r.randint(1, 10**6)
    if r.random() < 0.1:
        memory["max_size_bytes"] = r.randint(10**4, 10**7)
    if r.random() < 0.1:
        memory["permitted_heaps"] = [{"heap_type": "heap", "id": r.randrange(len(platform["heaps"]))}]
    p["buffer_memory_constraints"], asked = memory, set()
    entries = [random_entry(r, platform, asked) for _ in range(r.choice([0, 1, 1, 2, 3]))]
    if any(entries):
        p["image_format_constraints"] = [e for e in entries if e]
    return p


def script(platform, participants):
    names = [f"p{i}" for i in range(len(participants))]
    calls = [{"call": "duplicate", "on": "root", "as": name, "actor": "a"} for name in names] + [
        {"call": "release", "on": "root", "actor": "a"}
    ]
    for name, p in zip(names, participants):
        calls += [
            {"call": "bind", "on": name, "actor": "a"},
            {"call": "set_constraints", "on": name, "actor": "a", "constraints": p},
        ]
    return json.dumps({"platform": platform, "calls": calls}).encode()


def reported(platform, participants):
    """What the report of a script says of the one domain: settings as `told` has them, or None."""
    text, size, bytes_in = ctypes.create_string_buffer(1 << 16), SIZE(1 << 16), script(platform, participants)
    status = lib.mezulobu_run(bytes_in, SIZE(len(bytes_in)), text, ctypes.byref(size), None, None)
    assert status == DONE, (status, text.raw[: size.value])
    words = next(line for line in text.raw[: size.value].decode().splitlines() if line.startswith("domain / ")).split()
    if words[2] == "empty":
        return None
    image = words[words.index("image") + 1 :]
    place = int(words[9].partition("#")[2]), words[10]
    return int(words[5]), int(words[7]), place, tuple(image) if image[0] != "none" else None


def told(s):
    """The same of settings."""
    names = [name for name, letters in FORMATS.items() if code(letters) == s.image.format]
    image = None
    if names:
        modifier = next(name for name, value in MODIFIERS.items() if value == s.image.modifier)
        image = (
            names[0], modifier, COLORS[s.image.color.bit_length() - 1], f"{s.image.width}x{s.image.height}", "row",
            str(s.image.layout.planes[0].pitch),
        )
    return s.count, s.bytes, (s.heap, DOMAINS[s.coherency.bit_length() - 1]), image


def negotiate(platform, participants, n=None):
    settings, refusal, flats = Settings(), Refusal(), array(Participant, participants)
    status = lib.mezulobu_negotiate(platform, flats, len(flats) if n is None else n, settings, refusal)
    return status, settings, refusal


def is_laid_out(s):
    """The planes are those of the image, which lies in the buffer."""
    layout = Layout()
    if not s.image.format:
        return bytes(s.image) == bytes(ctypes.sizeof(Image))
    status = lib.mezulobu_planes(
        s.image.format, s.image.modifier, s.image.layout.planes[0].pitch, s.image.height, layout
    )
    return status == DONE and bytes(layout) == bytes(s.image.layout) and layout.bytes <= s.bytes


def is_blamed(platform, flats, refusal):
    """Those before who is in the way share settings, or lack a name alone; with it there are none."""
    if refusal.who == NOBODY:
        return refusal.kind == OFFERS and lib.mezulobu_field_name(refusal.field).startswith(b"unnamed_")
    status, settings, before = negotiate(platform, flats[: refusal.who])
    fits = status == DONE or status == NO and before.who == NOBODY
    if fits and status == DONE and refusal.kind == PLACES:
        fits = (settings.heap, settings.coherency) == (refusal.heap, refusal.coherency)
    status, _, again = negotiate(platform, flats[: refusal.who + 1])
    lone, _, own = negotiate(platform, [flats[refusal.who]])
    is_lone = lone == NO and own.who != NOBODY
    if refusal.alone != is_lone or is_lone and (own.kind, own.alone, own.who) != (refusal.kind, 1, 0):
        return False
    return refusal.who < len(flats) and fits and status == NO and bytes(again) == bytes(refusal) and refusal.field > 0


def try_random(r):
    platform = random_platform(r)
    participants = [random_participant(r, platform) for _ in range(r.randint(1, 5))]
    wanted, on, flats = (
        reported(platform, participants),
        flat_platform(platform),
        [flat_participant(p) for p in participants],
    )
    status, settings, refusal = negotiate(on, flats)
    if wanted is None:
        return status == NO and bytes(settings) == bytes(Settings()) and is_blamed(on, flats, refusal)
    return status == DONE and told(settings) == wanted and bytes(refusal) == bytes(Refusal()) and is_laid_out(settings)


def one_entry(letters="NV12", colors=32, **members):
    entries = array(Entry, [Entry(format=code(letters), colors=colors, **members)])
    return {"entries": entries, "n_entries": 1}


def rows():
    """Lists, with the status and the refusal that they were worked out to have: kind, who, index, field, and where who
    is alone in the way 1."""
    heaps = array(Heap, [Heap(cpu=True), Heap(cpu=True, ram=True)])
    pairs = array(Pair, [Pair(format=code("AB24")), Pair(format=code("NV12"))])
    colors = array(U32, [1, 32])
    on = Platform(heaps=heaps, n_heaps=2, pairs=pairs, n_pairs=2, colors=colors, n_colors=2)
    first = Platform(heaps=heaps, n_heaps=1, pairs=pairs, n_pairs=2, colors=colors, n_colors=2)
    wrong = Platform(
        heaps=heaps,
        n_heaps=2,
        pairs=array(Pair, [Pair(format=code("AB24")), Pair(format=code("NV21"))]),
        n_pairs=2,
        colors=colors,
        n_colors=2,
    )
    video, camera = Participant(usage=16), Participant(usage=16, **one_entry(min_size=Size(width=1920, height=1080)))
    yield "two formats", on, [camera, Participant(usage=8, **one_entry("AB24", 1))], NO, (OFFERS, 1, 0, "pixel_format")
    yield "max_size", on, [
        video,
        camera,
        Participant(usage=16, **one_entry(max_size=Size(width=1280, height=720))),
    ], NO, (OFFERS, 2, 0, "max_size")
    yield "a maximum", on, [Participant(usage=16, camping=3, max_count=4), Participant(usage=16, camping=2)], NO, (
        COUNT, 1, 0, "max_buffer_count",
    )
    yield "the limit", on, [Participant(usage=16, camping=100), Participant(usage=16, camping=29)], NO, (
        COUNT, 1, 0, "buffer_count_limit",
    )
    yield "coherency", first, [video, Participant(usage=16, ram=True)], NO, (PLACES, 1, 0, "cpu_domain_supported", 1)
    yield "heaps", on, [Participant(usage=16, heaps=1), video, Participant(usage=16, heaps=2)], NO, (
        PLACES, 2, 0, "permitted_heaps",
    )
    screen, rg16 = one_entry("AR24", 1), one_entry("RG16", 1)
    tiled = Platform(
        heaps=heaps,
        n_heaps=2,
        pairs=array(
            Pair, [Pair(format=code("AR24"), modifier=MODIFIERS["INTEL_I915_X_TILED"]), Pair(format=code("NV12"))]
        ),
        n_pairs=2,
    )
    tiled.colors, tiled.n_colors = array(U32, [1]), 1
    both = Platform(
        heaps=heaps,
        n_heaps=2,
        pairs=array(
            Pair, [Pair(format=code("AR24"), modifier=MODIFIERS["INTEL_I915_X_TILED"]), Pair(format=code("AR24"))]
        ),
        n_pairs=2,
    )
    both.colors, both.n_colors = array(U32, [1]), 1
    x_tiles = Participant(usage=4, **one_entry("AR24", 1, modifier=MODIFIERS["INTEL_I915_X_TILED"]))
    against = {"min_size": Size(width=640, height=480), "max_size": Size(width=320, height=480)}
    yield "another tiling", both, [x_tiles, Participant(usage=8, **screen)], NO, (OFFERS, 1, 0, "pixel_format_modifier")
    yield "a tiling that isn't offered", tiled, [video, Participant(usage=8, **screen)], NO, (
        OFFERS, 1, 0, "pixel_format_modifier", 1,
    )
    yield "a format that isn't offered", on, [video, Participant(usage=8, **rg16)], NO, (
        OFFERS, 1, 0, "pixel_format", 1,
    )
    yield "a colour space that isn't offered", tiled, [Participant(usage=8, **one_entry("NV12", 32))], NO, (
        OFFERS, 0, 0, "color_spaces", 1,
    )
    yield "against itself, first", on, [Participant(usage=16, **one_entry(**against)), video], NO, (
        OFFERS, 0, 0, "max_size", 1,
    )
    yield "against itself, later", on, [camera, Participant(usage=16, **one_entry("AB24", 1, **against))], NO, (
        OFFERS, 1, 0, "max_size", 1,
    )
    yield "a count against itself", on, [camera, Participant(usage=16, camping=3, max_count=2)], NO, (
        COUNT, 1, 0, "max_buffer_count", 1,
    )
    yield "no name", on, [Participant(usage=16, **one_entry(colors=256))], NO, (
        OFFERS, NOBODY, 0, "unnamed_color_space",
    )
    yield "no such format", on, [video, Participant(usage=16, **one_entry("NV21"))], REFUSED, (
        PARTICIPANT, 1, 0, "pixel_format",
    )
    yield "no colours", on, [Participant(usage=16, **one_entry(colors=0))], REFUSED, (PARTICIPANT, 0, 0, "color_spaces")
    yield "bits of no colour", on, [Participant(usage=16, **one_entry(colors=512))], REFUSED, (
        PARTICIPANT, 0, 0, "color_spaces",
    )
    yield "a divisor", on, [Participant(usage=16, **one_entry(pitch_divisor=65537))], REFUSED, (
        PARTICIPANT, 0, 0, "bytes_per_row_divisor",
    )
    yield "no usage", on, [video, video, Participant()], REFUSED, (PARTICIPANT, 2, 0, "usage")
    yield "none and cpu", on, [Participant(usage=3)], REFUSED, (PARTICIPANT, 0, 0, "usage")
    yield "no heaps", Platform(pairs=pairs, n_pairs=2, colors=colors, n_colors=2), [video], REFUSED, (
        PLATFORM, NOBODY, 0, "heaps",
    )
    yield "a pair's format", wrong, [video], REFUSED, (PLATFORM, NOBODY, 1, "pixel_format")
    yield "a bit of no family", on, [Participant(usage=34)], REFUSED, (PARTICIPANT, 0, 0, "usage")
    x_code, nv12 = MODIFIERS["INTEL_I915_X_TILED"], Entry(format=code("NV12"), colors=32)
    yield "tiles in an entry", on, [Participant(usage=16, **one_entry(modifier=x_code))], REFUSED, (
        PARTICIPANT, 0, 0, "pixel_format_modifier",
    )
    twice = Participant(usage=16, entries=array(Entry, [nv12, nv12]), n_entries=2)
    yield "an entry twice", on, [video, twice], REFUSED, (PARTICIPANT, 1, 0, "image_format_constraints")

    def offering(*pairs, colors=(1,)):
        pairs, colors = array(Pair, pairs), array(U32, colors)
        return Platform(heaps=heaps, n_heaps=2, pairs=pairs, n_pairs=len(pairs), colors=colors, n_colors=len(colors))

    one, tiles = Pair(format=code("AB24")), Pair(format=code("NV12"), modifier=x_code)
    yield "a pair twice", offering(one, one), [video], REFUSED, (PLATFORM, NOBODY, 0, "pairs")
    yield "tiles in a pair", offering(tiles), [video], REFUSED, (PLATFORM, NOBODY, 0, "pixel_format_modifier")
    yield "no colours offered", offering(one, colors=()), [video], REFUSED, (PLATFORM, NOBODY, 0, "color_spaces")
    yield "too many", on, [video] * 1025, REFUSED, (TOO_MANY, NOBODY, 0, "?")
    yield "as many as may be", on, [video] * 1024, DONE, (0, 0, 0, "?")
    yield "nobody", on, [], DONE, (0, 0, 0, "?")


def misused():
    """Calls that are misused: the status, what the refusal says of whose struct it is, and what it is to say."""
    video, heap = Participant(usage=16), array(Heap, [Heap(cpu=True)])
    on, settings, refusal = flat_platform(random_platform(random.Random(1))), Settings(), Refusal()
    short, entry, good = (
        Participant(usage=16), Entry(format=code("NV12"), colors=32), Entry(format=code("NV12"), colors=32)
    )
    short.struct_size -= 8
    entry.struct_size += 8
    second = Participant(usage=16, entries=array(Entry, [good, entry]), n_entries=2)
    bad = Platform(heaps=heap, n_heaps=1, n_pairs=1)

    def told(platform, participants, n, settings, wanted):
        status = lib.mezulobu_negotiate(
            platform, array(Participant, participants) if participants else None, n, settings, refusal
        )
        return status, (refusal.kind, refusal.who, refusal.index, refusal.field), wanted

    yield told(None, [video], 1, settings, (PLATFORM, NOBODY, 0, 0))
    yield told(bad, [video], 1, settings, (PLATFORM, NOBODY, 0, 0))
    yield told(on, None, 1, settings, (PARTICIPANT, NOBODY, NOBODY, 0))
    yield told(on, [video], 1, None, (0, NOBODY, 0, 0))
    yield told(on, [video, short], 2, settings, (PARTICIPANT, 1, NOBODY, 0))
    yield told(on, [video, video, second], 3, settings, (PARTICIPANT, 2, 1, 0))
    yield told(on, [Participant(usage=16, n_entries=1)], 1, settings, (PARTICIPANT, 0, NOBODY, 0))
    settings.struct_size = 8
    yield told(on, [video], 1, settings, (0, NOBODY, 0, 0))
    settings.struct_size, refusal.struct_size = ctypes.sizeof(settings), 8
    before = (refusal.kind, refusal.who, refusal.index, refusal.field)
    yield told(on, [video], 1, settings, before)


def numbered():
    """Whether each field's number in the installed header has its name, and no further number has one."""
    header = os.path.join(os.path.dirname(sys.argv[1]), "..", "include", "mezulobu.h")
    with open(header, encoding="utf-8") as file:
        fields = {
            int(number): name.lower() for name, number in re.findall(r"MEZULOBU_FIELD_(\w+) = (\d+)", file.read())
        }
    told = {number: lib.mezulobu_field_name(number).decode() for number in range(len(fields) + 2)}
    return told == fields | {0: "?", len(fields): "?", len(fields) + 1: "?"}


def tries():
    for name, platform, flats, wanted, why in rows():
        status, _, r = negotiate(platform, flats)
        is_so = (
            status == wanted
            and (r.kind, r.who, r.index, lib.mezulobu_field_name(r.field).decode(), r.alone) == (*why, 0)[:5]
        )
        yield name, is_so, (status, r.kind, r.who, r.index, lib.mezulobu_field_name(r.field), r.alone)
    yield "numbers of fields", numbered(), ""
    statuses = list(misused())
    yield "what is misused", all(status == MISUSED and said == wanted for status, said, wanted in statuses), statuses
    for seed in range(LISTS):
        yield f"list {seed}", try_random(random.Random(seed)), ""


def main():
    passed, failed = 0, 0
    for name, good, answer in tries():
        passed, failed = passed + good, failed + (not good)
        if not good:
            print(f"library: another answer: {name} {answer}")
    print(f"{passed} passed, {failed} failed")
    return 1 if failed else 0


sys.exit(main())
