"""Scripts that cost most: on the widest platform, of 64 heaps, 23 pairs and 8 colour spaces, participants who take each pair, and groups whose every
selection fails. `scripts` gives each by its name; `refused_texts` gives texts that are refused, up to the longest that is read; `faulty_texts` gives
texts with faults beside a great value."""
import json
import os
import sys

sys.path.append(os.path.join(os.path.dirname(os.path.abspath(__file__)), "..", "tests"))
import definitions as of  # noqa: E402

COLOURS, FORMATS_OF_4_BYTES, MODIFIERS = list(of.COLOURS.values()), of.OF_4_BYTES, list(of.MODIFIERS.values())
FORMATS = [name for name in of.FORMATS.values() if name not in FORMATS_OF_4_BYTES]
PAIRS = [(form, modifier) for form in FORMATS_OF_4_BYTES for modifier in MODIFIERS] + [(form, "LINEAR") for form in FORMATS]
# Each pair that an entry may name: 42.
LEFT_OPEN = [(form, "DO_NOT_CARE") for form in FORMATS_OF_4_BYTES + FORMATS] + [("DO_NOT_CARE", it) for it in [*MODIFIERS, "DO_NOT_CARE"]]
ENTRY_PAIRS = PAIRS + LEFT_OPEN
# Two whose least common multiple is the most that two so small numbers can have.
FIBONACCI = 28657, 46368
MOST, MOST_PIXELS = 2**32 - 1, 2**64 - 1
# The longest text that is read, and the longest that is corrected, or whose refused calls are made otherwise; and the longest of objects that is explained.
LONGEST, LONGEST_CORRECTED, LONGEST_EXPLAINED = 4 * 2**20, 2**18, 680_000
# Pairs of a camera, an encoder and a display, and what they ask of each.
USUAL = [(("NV12", "LINEAR"), 16), (("R8G8B8A8", "LINEAR"), 4), (("B8G8R8A8", "INTEL_I915_X_TILED"), 4), (("P010", "LINEAR"), 4)]


def both(width, height=None):
    return {"width": width, "height": width if height is None else height}


def pair(form, modifier):
    return {"pixel_format": form, "pixel_format_modifier": modifier}


PLATFORM = {
    "heaps": [{"heap_type": "ram", "id": n, "contiguous": n % 2 == 1, "domains": ["cpu", "ram", "inaccessible"]} for n in range(64)],
    "pairs": [pair(*it) for it in PAIRS],
    "color_spaces": COLOURS,
}


def entry(named, multiple=1, shown=both(1)):
    """An entry with each of its fields, which takes images in multiples of this, and has to show one of that size."""
    return pair(*named) | {
        "color_spaces": COLOURS,
        "min_size": both(16),
        "max_size": both(MOST),
        "size_alignment": both(multiple),
        "min_bytes_per_row": 1,
        "max_bytes_per_row": MOST,
        "bytes_per_row_divisor": multiple,
        "start_offset_divisor": multiple,
        "display_rect_alignment": both(multiple),
        "required_min_size": both(MOST),
        "required_max_size": shown,
        "max_width_times_height": MOST_PIXELS,
    }


def asks(entries, more=None, **memory):
    domains = {"ram_domain_supported": True, "inaccessible_domain_supported": True}
    constraints = {"usage": ["video"], "buffer_memory_constraints": domains | memory}
    return constraints | (more or {}) | {"image_format_constraints": entries}


def all_of(pairs, multiple=1, more=None, **memory):
    """Takes each of these pairs."""
    return asks([entry(it, multiple) for it in pairs], more, **memory)


class Script:
    """The calls of a script, in which what is made is called n1, n2, .. ."""

    def __init__(self):
        self.calls, self.made = [], 0

    def call(self, name, on, **more):
        self.calls.append({"call": name, "on": on} | more)

    def makes(self, name, on):
        self.made += 1
        self.call(name, on, **{"as": f"n{self.made}"})
        return f"n{self.made}"

    def state(self, on, constraints):
        self.call("bind", on)
        self.call("set_constraints", on, constraints=constraints)

    def groups(self, host, count, children):
        """The children of groups on a token."""
        found = []
        for _ in range(count):
            group = self.makes("create_group", host)
            found.append([self.makes("create_child", group) for _ in range(children)])
            self.call("all_children_present", group)
            self.call("release", group)
        return found

    def duplicates(self, host, count, each_of_last=False):
        """Duplicates of a token, or each of the one before it."""
        found = []
        for _ in range(count):
            found.append(self.makes("duplicate", found[-1] if each_of_last and found else host))
        return found

    def alternatives(self, host, count, children, others, of_host, of_each, of_last, each_of_last=False):
        """Groups on a token, and further participants beside it: the children of the last group state what nobody can meet."""
        groups = self.groups(host, count, children)
        beside = self.duplicates(host, others, each_of_last)
        self.state(host, of_host)
        for name in beside:
            self.state(name, of_each)
        for number, names in enumerate(groups):
            for name in names:
                self.state(name, of_last if number == count - 1 else of_each)
        return self


def failing(pairs, count, others):
    """So many groups of two, whose every selection fails by its least size alone."""
    first, last = FIBONACCI
    return Script().alternatives("root", count, 2, others, all_of(pairs, first), all_of(pairs), all_of(pairs, last, max_size_bytes=1))


def uncounted(count):
    """So many groups of two, of whom all together want one buffer too many."""
    first, last = FIBONACCI
    one = {"min_buffer_count_for_camping": 1}
    return Script().alternatives("root", count, 2, 0, all_of(PAIRS, first, {"max_buffer_count": 11}), all_of(PAIRS, 1, one), all_of(PAIRS, last, one))


def late(count, repeats):
    """So many who come late, whom nothing suits that was decided, and who take a colour space again and again."""
    made = Script()
    made.state("root", all_of(ENTRY_PAIRS, 1, {"min_buffer_count": 64}))
    stated = all_of(ENTRY_PAIRS, permitted_heaps=[{"heap_type": "ram", "id": 1}], min_size_bytes=2**30)
    stated["image_format_constraints"][0]["color_spaces"] = COLOURS + COLOURS[:1] * repeats
    for _ in range(count):
        made.state(made.makes("attach_token", "root"), stated)
    return made


def hostile(kind):
    """A camera, an encoder and a display, and one who is hostile: not at all, with each entry, with groups that fail, with groups to the limit of nodes."""
    made = Script()
    for name in ("camera", "encoder", "display", "hostile"):
        made.call("duplicate", "root", **{"as": name})
    made.call("release", "root")
    for name, camping in (("camera", 3), ("encoder", 2), ("display", 2)):
        more = {"min_buffer_count_for_camping": camping}
        made.state(name, asks([entry(named, multiple, both(1920, 1080)) for named, multiple in USUAL], more))
    first, last = FIBONACCI
    if kind == 0:
        made.call("release", "hostile")
    elif kind == 1:
        made.state("hostile", all_of(ENTRY_PAIRS))
    elif kind == 2:
        made.alternatives("hostile", 12, 2, 87, all_of(PAIRS, first), all_of(PAIRS), all_of(PAIRS, last, max_size_bytes=1))
    else:
        nothing = {"usage": ["none"], "buffer_memory_constraints": {"ram_domain_supported": True}}
        no_bytes = {"usage": ["none"], "buffer_memory_constraints": {"ram_domain_supported": True, "max_size_bytes": 0}}
        made.alternatives("hostile", 6, 4, 93, nothing, nothing, no_bytes, each_of_last=True)
    return made


def scripts():
    """The calls of each script, by its name."""
    yield "proof_12x2_89", failing(PAIRS[::-1], 12, 89)
    yield "check_5x2_80", failing(ENTRY_PAIRS, 5, 80)
    yield "run_12x2_fib", uncounted(12)
    yield "late_126", late(126, 0)
    yield "late_colours", late(1, 400000)
    for kind in (0, 1, 2, 4):
        yield f"hostile_{kind}", hostile(kind)


def repeated(part, before="", after="", most=LONGEST):
    """A list of this JSON between two texts, as often as they have room for it together."""
    room = most - len(before) - len(after)
    return before + "[" + ",".join([part] * ((room - 1) // (len(part) + 1))) + "]" + after


def nested(levels, more):
    """Objects within each other, each with so many more keys."""
    inner = "0"
    for _ in range(levels):
        inner = "{" + "".join(f'"k{number}":0,' for number in range(more)) + f'"":{inner}' + "}"
    return inner


def refused_texts():
    """Texts of scripts that are refused, by their names, and whether they take too much memory to be explained."""
    # The first object has a key twice, so that keys are compared.
    yield "keys_118x60", repeated(nested(118, 60)).replace("[{", '[{"k0":0,', 1), False
    parts = {"objects_of_one": '{"":0}', "objects_of_two": '{"b":0,"a":1.0e1}', "objects_100_deep": nested(100, 0), "lists_100_deep": 100 * "[" + 100 * "]"}
    for name, part in parts.items():
        yield name, repeated(part, most=LONGEST_EXPLAINED), False
        yield f"many_{name}", repeated(part), True
    yield "lists_of_one", repeated("[0]", most=LONGEST // 2), False


def made(call, on, more=""):
    """The text of a call that is open for more."""
    return f'{{"call":"{call}","on":"{on}"{more}'


def faulty_texts():
    """Texts with faults beside what takes most memory, objects 100 deep, as long as is corrected, explained and read: with a name, whether they are refused, and which."""
    platform = '"platform":{"heaps":[{"heap_type":"ram","domains":["cpu"]}],"pairs":[{"pixel_format":"NV12"}],"color_spaces":["SRGB"]}'
    misspelt = platform.replace("platform", "platfrom").replace("heaps", "heps")
    bound = "},".join([made("duplicate", "root", f',"as":"{name}"') for name in "ab"] + [made("release", "root"), *2 * [made("bind", "a")], ""])
    states, alone = ',"constraints":{"usage":', made("bind", "root") + "},"
    befores = {
        # Three keys, each of which is found once those before it are corrected.
        "misspelt": f'{{{misspelt},"cals":[{alone}{made("set_constraints", "root", states)}["cpu"],"zz":',
        # One is bound again, where the other one is meant.
        "bound_again": f'{{{platform},"calls":[{bound}{made("set_constraints", "a", states)}["cpu"],"zz":',
        # The item that has the fault is looked for in parts of the list.
        "no_usages": f'{{{platform},"calls":[{alone}{made("set_constraints", "root", states)}',
    }
    for length, most in (("short", LONGEST_CORRECTED), ("long", LONGEST_EXPLAINED), ("great", LONGEST)):
        for name, before in befores.items():
            yield f"{name}_{length}", repeated(nested(100, 0), before, "}}]}", most), name == "misspelt", length


def write_scripts(folder):
    """Writes them, and gives their names and paths."""
    for name, script in scripts():
        path = os.path.join(folder, f"{name}.json")
        with open(path, "w", encoding="utf-8") as file:
            file.write(json.dumps({"platform": PLATFORM, "calls": script.calls}, separators=(",", ":")) + "\n")
        yield name, path
