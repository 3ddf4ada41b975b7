#!/usr/bin/env python3
"""use.py LIBRARY NAME ..: runs each NAME.json in Python, by ctypes. The last line is 'N passed, M failed'."""
import ctypes
import sys

lib = ctypes.CDLL(sys.argv[1])
SIZE = ctypes.POINTER(ctypes.c_size_t)
lib.mezulobu_run.argtypes = [ctypes.c_char_p, ctypes.c_size_t, ctypes.c_void_p, SIZE, ctypes.c_void_p, SIZE]
TOO_SMALL = 5


def content(name):
    with open(name, "rb") as file:
        return file.read()


def run(script):
    """The status of a run, its report and its certificate."""
    size, proof_size = ctypes.c_size_t(0), ctypes.c_size_t(0)
    text, proof = None, None
    while (status := lib.mezulobu_run(script, len(script), text, size, proof, proof_size)) == TOO_SMALL:
        text, proof = ctypes.create_string_buffer(size.value), ctypes.create_string_buffer(proof_size.value)
    return status, text.raw[: size.value], proof.raw[: proof_size.value]


def main():
    passed, failed = 0, 0
    for name in sys.argv[2:]:
        good = run(content(name + ".json")) == (0, content(name + ".out"), content(name + ".proof"))
        passed, failed = passed + good, failed + (not good)
        if not good:
            print(f"library: another answer: {name}")
    print(f"{passed} passed, {failed} failed")
    return 1 if failed else 0


sys.exit(main())
