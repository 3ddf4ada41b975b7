"""What the definitions list: formats, modifiers, colours, fields, calls and refusals, read off the texts in specs/."""
import re

from lib import text_of


def specs(crate, file):
    return text_of("crates", crate, "specs", file + ".antt")


def source(crate, file):
    return text_of("crates", crate, "src", file + ".rt")


def column(text, word):
    """A definition by cases: of each constructor what it is, as `format_name NV12 = codes "NV12"`."""
    return dict(re.findall(rf"^{word} (?:field\.)?(\w+) =\s+(?:codes )?\"?([^\"\n]*?)\"?$", text, re.M))


def listed(text, word, known):
    """A list of constructors, whose parts that are lists of their own are known."""
    body = re.search(rf"^{word} =(.*?)(?:\n\n|\Z)", text, re.M | re.S)[1]
    parts = re.findall(r"\w+", re.sub(r"\bfield\.|\bmap\b|\bfield_of\b|\[\]", " ", body))
    return [each for part in parts for each in known.get(part, [part])]


FORMATS_OF, NAMES = specs("sysmem_formats", "Formats"), specs("sysmem_formats", "Names")
FORMATS = column(FORMATS_OF, "format_name")
MODIFIERS, COLOURS = column(NAMES, "modifier_name"), column(NAMES, "colour_name")
PIXEL_BYTES, SAMPLING = column(FORMATS_OF, "pixel_bytes"), column(FORMATS_OF, "sampling_of")
OF_4_BYTES = [FORMATS[form] for form, count in PIXEL_BYTES.items() if count == "4"]
PLANES = {"Full": "1", "HalfRow": "1", "TwoPlanes": "2", "ThreePlanes": "3"}
FIELDS = column(specs("sysmem_counts", "Field"), "field_name")
FIELDS_OF = specs("sysmem_image", "Fields")
BOUNDS = listed(FIELDS_OF, "all_bounds", {})
MULTIPLES = [bound for bound, rule in column(FIELDS_OF, "rule_of").items() if rule == "Multiple"]
READING = "".join(specs("record_reading", f"Reading/{file}") for file in ("Constraints", "Bounds", "Heaps", "Entries"))
KNOWN = {"all_bounds": BOUNDS, "multiple_lines": MULTIPLES}
for crate, file, words in (
    ("sysmem_image", "Lines", ("bounds_lines",)),
    ("sysmem_memory", "PlaceTable", ("heap_fields", "domain_fields", "place_fields")),
    ("sysmem_merge", "OfferRead", ("offer_lines",)),
    ("sysmem_merge", "Failing", ("offer_fields", "size_fields", "failing_fields")),
    ("record_reading", "Reading/Constraints", ("memory_fields", "constraints_fields")),
    ("record_reading", "Reading/Entries", ("entry_fields",)),
    ("record_reading", "Reading/Pairs", ("pair_fields",)),
    ("record_reading", "Reading/Platform", ("platform_fields",)),
    ("record_reading", "Reading/Heaps", ("name_fields", "heap_info_fields")),
):
    for word in words:
        KNOWN[word] = listed(specs(crate, file), word, KNOWN)
COUNTS = [field for field in KNOWN["constraints_fields"] if "BufferCount" in field]
CALLS_OF = specs("script_reading", "Call")
CALLS = re.findall(r'bytes_eq name \(codes "(\w+)"\) then', CALLS_OF)
MAKERS = re.findall(r'bytes_eq name \(codes "(\w+)"\) then option_map', CALLS_OF)
REFUSALS = re.findall(r'"(E\d+) (\w+)"', specs("sysmem_tree", "Refusal"))
# The faults of a record: the code of each, and its number in C.
CODES = column(specs("record_reading", "Faults"), "code_name")
NUMBERS = re.findall(r"^code_number codes\.(\w+) = (\d+)$", specs("live_calls", "Numbers"), re.M)


def spelled(fields):
    return [FIELDS[field] for field in fields]


def named_by_drm():
    """What DRM calls each format and modifier, by the tables of REPORT."""
    row = r"^\| `(\w+)` \| `(DRM_FORMAT_\w+|\w+_MOD_\w+)` \|"
    return dict(re.findall(row, text_of("docs", "REPORT.md"), re.M))


def faults():
    """What C is told of a record's fault, by its number: first of a record that is no JSON."""
    told = {0: "no JSON", **{int(number): f"{CODES[kind]} {kind}" for kind, number in NUMBERS}}
    return [told.get(number) for number in range(max(told) + 1)]
