#!/usr/bin/env python3
"""Gives the library each record of tests/program/records, by ctypes: the number of its fault has a name, which begins
with the code that is expected there, and a record without a fault is taken. Records that are no JSON have the name that
says so, and a further number has none. The words of each fault begin with the fault that is expected there, and a
record without one has none; what is said of the place, and what would be right, are as the program explains a script
with that record. Some texts are compared whole, which were written by hand. Then what statuses mean: the names of E1 to
E10 are those that the definitions give to reports, and a call is known by its name with and without what the header has
before it. The last line is 'N passed, M failed'.

usage: faults.py LIBRARY PROGRAM
"""
import ctypes
import os
import re
import subprocess
import sys

sys.path.append(os.path.join(sys.path[0], "..", ".."))
from lib import TOP, load, text_of  # noqa: E402

DONE, MISUSED, REFUSED, TOO_SMALL, NO = 0, 2, 3, 5, 6
OF_PLATFORM, OF_PARTICIPANT = 1, 2
PLATFORM = b'{"heaps":[{"heap_type":"a","domains":["cpu"]}],"pairs":[{"pixel_format":"R8"}],"color_spaces":["SRGB"]}'
NO_JSON = [b"", b"{", b'{"usage":["cpu"]}}]}', b'{"usage":"cpu']

# By whose record and by its bytes: the whole of its text.
WHOLE = {
    (OF_PARTICIPANT, b""): """no JSON
the record is empty, where an object is due
""",
    (OF_PARTICIPANT, b"{"): """no JSON
 --> record:1:2
  |
1 | {
  |  ^ expected a key, found the end
  = the text ends here; still open: the { of line 1, column 1
""",
    (OF_PARTICIPANT, b'{"usage":["cpu"]}}]}'): """no JSON
 --> record:1:18
  |
1 | {"usage":["cpu"]}}]}
  |                  ^ expected the end
  = one JSON value is complete before this
""",
    (OF_PARTICIPANT, b'{"a":\xff}'): """no JSON
 --> record:1:6
  |
1 | {"a":\N{REPLACEMENT CHARACTER}}
  |      ^ the byte 0xff isn't UTF-8
""",
    (OF_PARTICIPANT, b"7"): """S1 whole
 --> record:1:1: the record
  |
1 | 7
  | ^ a number, where an object is due
""",
    (OF_PARTICIPANT, b"[" * 126 + b"]" * 126): f"""S1 whole
 --> record:1:1: the record
  |
1 | {'[' * 84}...
  | {'^' * 84} a list, where an object is due
""",
    (OF_PARTICIPANT, b"[" * 128 + b"]" * 128): f"""no JSON
 --> record:1:128
  |
1 | ...{'[' * 25}{']' * 59}...
  |    {' ' * 24}^ expected no more than 127 lists and objects within each other
""",
    (OF_PLATFORM, b"{}"): """S3 heaps
 --> record:1:1: the record
  |
1 | {}
  | ^ heaps is missing
  = needed: a list of 1 to 64 heaps, no two of one heap_type and id
""",
    (OF_PARTICIPANT, b'{"usage":["cpu"],\n"min_buffer_cont":2}'): """S2 whole
 --> record:2:1: min_buffer_cont
  |
2 | "min_buffer_cont":2}
  | ^^^^^^^^^^^^^^^^^ unknown key
  = did you mean min_buffer_count?
""",
    (
        OF_PARTICIPANT,
        b'{"usage":["cpu"],"image_format_constraints":[{"pixel_format":"nv12","color_spaces":["SRGB"]}]}',
    ): """S4 pixel_format
 --> record:1:62: image_format_constraints[0].pixel_format
  |
1 | ...aints":[{"pixel_format":"nv12","color_spaces":["SRGB"]}]}
  |                            ^^^^^^ unknown name
  = did you mean NV12?
""",
    (
        OF_PARTICIPANT,
        b'{"usage":["cpu"],"buffer_memory_constraints":{"permitted_heaps":[{"heap_type":"a"},'
        + b"\n" * 8
        + b'{"heap_type":"a"}]}}',
    ): """S10 permitted_heaps
 --> record:9:1: buffer_memory_constraints.permitted_heaps[1]
  |
9 | {"heap_type":"a"}]}}
  | ^^^^^^^^^^^^^^^^^ given before
  = first at buffer_memory_constraints.permitted_heaps[0]
""",
    (OF_PARTICIPANT, b'{"usage":["cpu"],' + b"\n" * 100 + b'"min_buffer_count":-1}'): """S3 min_buffer_count
   --> record:101:20: min_buffer_count
    |
101 | "min_buffer_count":-1}
    |                    ^^ below 0
    = allowed: a whole number of buffers, 0 to 4294967295
""",
    (OF_PARTICIPANT, b'{"calls[1].constraints":7,"--> record:1:1: calls[1].constraints":8}'): """S2 whole
 --> record:1:2: calls[1].constraints
  |
1 | {"calls[1].constraints":7,"--> record:1:1: calls[1].constraints":8}
  |  ^^^^^^^^^^^^^^^^^^^^^^ unknown key
""",
}


# By a status and the names of calls: what it means there.
DECISION = b"E1 NoMemory: the decision had no memory, and stays so"
FAILED = (
    b"E6 DomainFailed: the domain failed (somebody closed too early, or what it was attached to has no settings), "
    b"or no settings were chosen; explain says which"
)
NO_PLATFORM = b"refused: the platform can't be meant; the refusal says which field"
NO_PARTICIPANT = b"refused: the participant can't be meant; the refusal says which field"
FAULTY = b"refused: the record has a fault; record_fault says what and where"
LONG = b"refused: the collection's script would be longer than a script may be"
MISNAMED = b"refused: a name is 1 to 32 letters, digits, _ or -, and not root, nor n with digits"
UNMEANT = b"refused: what is given can't be meant"
LACKING = b"E1 NoMemory: memory was refused; the call changed nothing"
MEANT = [
    (22, "mezulobu_token_duplicate attach_token mezulobu_collection_set_constraints", FAILED),
    (
        6,
        "wait collection_wait mezulobu_collection_wait",
        b"no: nothing was decided in that time; explain says who is awaited",
    ),
    (
        6,
        "refusal mezulobu_collection_refusal",
        b"no: check isn't E7, or the domain has groups or is attached; explain tells more",
    ),
    (6, "set_name mezulobu_group_set_name", b"no: another node of the collection has this name"),
    (6, "record_fault mezulobu_record_fault", b"no: nothing is wrong with the record"),
    (6, "mezulobu_check mezulobu_negotiate token_wait_not mezulobu_wait group_ mezulobu_", b"no"),
    (4, "check wait selection mezulobu_collection_check mezulobu_collection_wait collection_selection", DECISION),
    (4, "mezulobu_check mezulobu_collection_set_constraints script", LACKING),
    (3, "allocator_new mezulobu_allocator_new", NO_PLATFORM),
    (3, "set_constraints mezulobu_collection_set_constraints", NO_PARTICIPANT),
    (3, "set_constraints_record mezulobu_collection_set_constraints_record", FAULTY),
    (3, "allocator_new_record mezulobu_allocator_new_record", FAULTY),
    (3, "script mezulobu_collection_script", b"refused: it would be longer than a script may be"),
    (3, "explain explain_json mezulobu_collection_explain mezulobu_collection_explain_json", LONG),
    (3, "mezulobu_explain mezulobu_explain_json mezulobu_run mezulobu_check mezulobu_planes", UNMEANT),
    (3, "set_name mezulobu_token_set_name mezulobu_group_set_name collection_set_name", MISNAMED),
]


def told(library, status, code):
    """What is told of a record: the name of its fault, or that it has none."""
    return library.mezulobu_fault_name(
        code.value
    ).decode() if status == REFUSED else "none" if status == DONE else f"status {status}"


def of_platform(library, record):
    allocator, code = ctypes.c_void_p(), ctypes.c_uint32(99)
    status = library.mezulobu_allocator_new_record(
        record, ctypes.c_size_t(len(record)), ctypes.byref(allocator), ctypes.byref(code)
    )
    library.mezulobu_allocator_free(allocator)
    return told(library, status, code)


def of_participant(library, allocator, record):
    token, collection, code = ctypes.c_void_p(), ctypes.c_void_p(), ctypes.c_uint32(99)
    made = library.mezulobu_allocate_shared(allocator, ctypes.byref(token)) or library.mezulobu_token_bind(
        ctypes.byref(token), ctypes.byref(collection)
    )
    status = made or library.mezulobu_collection_set_constraints_record(
        collection, record, ctypes.c_size_t(len(record)), ctypes.byref(code)
    )
    library.mezulobu_collection_close(ctypes.byref(collection))
    return told(library, status, code)


def of_records(library):
    """What is told of each record, and what it is to begin with."""
    records, allocator = load("records"), ctypes.c_void_p()
    yield "a platform", library.mezulobu_allocator_new_record(
        PLATFORM, ctypes.c_size_t(len(PLATFORM)), ctypes.byref(allocator), None
    ), DONE
    for record, fault in records.PLATFORMS:
        yield record, of_platform(
            library, record.encode()
        ).partition(" ")[0], fault.partition(" ")[0] if fault else "none"
    for record, fault in records.PARTICIPANTS:
        yield record, of_participant(
            library, allocator, record.encode()
        ).partition(" ")[0], fault.partition(" ")[0] if fault else "none"
    for record in NO_JSON:
        yield record, (of_platform(library, record), of_participant(library, allocator, record)), ("no JSON", "no JSON")
    yield "a whole name", of_participant(library, allocator, b'{"usage":[]}'), "S5 BadUsage"
    library.mezulobu_allocator_free(allocator)


def words_of(library, kind, record):
    """The status of what is wrong with a record and its text, or its size where there is none; the size is asked for
    first."""
    size = ctypes.c_size_t()
    status = library.mezulobu_record_fault(kind, record, ctypes.c_size_t(len(record)), None, ctypes.byref(size))
    if status != TOO_SMALL:
        return status, size.value
    text = ctypes.create_string_buffer(b"\1" * (size.value + 1))
    status = library.mezulobu_record_fault(kind, record, ctypes.c_size_t(len(record)), text, ctypes.byref(size))
    is_within = text.raw[size.value : -1] == b"\1"
    return status, text.raw[: size.value].decode() if is_within else "more than it has room for"


def marks(text, path):
    """What explanations say of a place, and what would be right there: the lines with marks, and those behind them."""
    lines = [line.strip().replace(f"first at {path}.", "first at ") for line in text.split("\n")]
    return [re.sub(r" +", " ", line) for line in lines if line.startswith("= ") or re.match(r"\| *\^", line)]


def by_program(program, kind, record):
    """The same by the program, of a script that has the record; not what is told once it is corrected."""
    if kind == OF_PLATFORM:
        script, path = f'{{"calls":[],"platform":\n{record}\n}}', "platform"
    else:
        path, call = "calls[1].constraints", f'{{"call":"set_constraints","on":"root","constraints":\n{record}\n}}'
        script = f'{{"platform":{PLATFORM.decode()},"calls":[{{"call":"bind","on":"root"}},{call}]}}'
    done = subprocess.run([program, "explain", "-"], input=script, stdout=subprocess.PIPE, text=True, timeout=60)
    return marks(done.stdout.partition("\n  then ")[0], path)


def of_words(library, program):
    """What is told of each record in words, and what it is to be."""
    records = load("records")
    for kind, known in ((OF_PARTICIPANT, records.PARTICIPANTS), (OF_PLATFORM, records.PLATFORMS)):
        for record, fault in known:
            status, text = words_of(library, kind, record.encode())
            first = text.partition("\n")[0] if fault and text else text
            yield f"words of {record}", (status, first), (DONE, fault) if fault else (NO, 0)
            if fault and os.path.exists(program):
                yield f"what is said of {record}", marks(text, "") or "nothing", by_program(program, kind, record)
            if fault:
                yield f"the place in {record}", re.search(r"^ +--> record:\d+:\d+: \S", text, re.M) is not None, True
    for (kind, record), text in WHOLE.items():
        yield f"words of {record!r}", words_of(library, kind, record), (DONE, text)


def of_rooms(library):
    """How the call ends that tells words, and what it is to."""
    size, text = ctypes.c_size_t(8), ctypes.create_string_buffer(b"\1" * 8)
    status = library.mezulobu_record_fault(OF_PARTICIPANT, b"7", ctypes.c_size_t(1), text, ctypes.byref(size))
    yield "no room", (status, size.value, text.raw), (TOO_SMALL, len(WHOLE[OF_PARTICIPANT, b"7"]), b"\1" * 8 + b"\0")
    status = library.mezulobu_record_fault(
        OF_PLATFORM, PLATFORM, ctypes.c_size_t(len(PLATFORM)), text, ctypes.byref(size)
    )
    yield "no fault", (status, size.value, text.raw), (NO, 0, b"\1" * 8 + b"\0")
    yield "the other kind", words_of(library, OF_PARTICIPANT, PLATFORM)[1].partition("\n")[0], "S2 whole"
    for kind in (0, 3, 0xFFFFFFFF):
        size = ctypes.c_size_t(8)
        status = library.mezulobu_record_fault(
            ctypes.c_uint32(kind), b"7", ctypes.c_size_t(1), text, ctypes.byref(size)
        )
        yield f"kind {kind}", (status, size.value, text.raw), (MISUSED, 8, b"\1" * 8 + b"\0")
    for record, room in ((None, ctypes.byref(size)), (b"7", None)):
        status = library.mezulobu_record_fault(OF_PARTICIPANT, record, ctypes.c_size_t(1), text, room)
        yield f"null for {record}", status, MISUSED


def of_statuses(library):
    """What is told of each status, and what it is to be."""
    library.mezulobu_status_text.restype = ctypes.c_char_p
    named = re.findall(r'"(E(\d+) \w+)"', text_of("crates", "sysmem_tree", "specs", "Refusal.antt"))
    for name, number in named:
        text = library.mezulobu_status_text(4 if number == "1" else 16 + int(number), None).decode()
        yield name, text.startswith(f"{name}: "), True
    yield "names of refusals", len(named), 10
    for status in (-1, 1, 7, 17, 27):
        yield f"status {status}", library.mezulobu_status_text(status, b"set_name"), b"?"
    for call, statuses, wanted in (
        (b"set_name", (2, 3, 6, 19), [True, True, True, False]),
        (b"record_fault", (2, 6, 5), [True, True, False]),
    ):
        of_call = [
            library.mezulobu_status_text(status, call) != library.mezulobu_status_text(status, None)
            for status in statuses
        ]
        yield f"of {call.decode()}", of_call, wanted
    for status, calls, wanted in MEANT:
        for call in calls.split():
            yield f"{status} of {call}", library.mezulobu_status_text(status, call.encode()), wanted


def answers(library, program):
    """What is compared, what it is, and what it is to be."""
    library.mezulobu_fault_name.restype = ctypes.c_char_p
    yield from of_records(library)
    yield from of_words(library, program)
    yield from of_rooms(library)
    codes = [library.mezulobu_fault_name(number).decode().partition(" ")[0] for number in range(1, 14)]
    yield "numbers", codes, [f"S{number}" for number in range(1, 14)]
    for number in (14, 99, 0xFFFFFFFF):
        yield f"number {number}", library.mezulobu_fault_name(ctypes.c_uint32(number)), b"?"
    yield from of_statuses(library)


def main():
    passed = failed = 0
    for name, had, wanted in answers(ctypes.CDLL(sys.argv[1]), sys.argv[2]):
        passed, failed = passed + (had == wanted), failed + (had != wanted)
        if had != wanted:
            print(f"library: the fault of {name}: {had!r}, not {wanted!r}")
    print(f"{passed} passed, {failed} failed")
    return 1 if failed else 0


sys.exit(main())
