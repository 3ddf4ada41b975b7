#!/usr/bin/env python3
"""Explains scripts through the library, by ctypes: the text, the objects and the status are those of the program,
strict and not, where it is built, and the text is NAME.told where that is there. The last line is 'N passed, M failed'.

usage: explain.py LIBRARY PROGRAM NAME ..
"""
import ctypes
import os
import subprocess
import sys

lib = ctypes.CDLL(sys.argv[1])
PROGRAM = sys.argv[2]
SIZE = ctypes.POINTER(ctypes.c_size_t)
lib.mezulobu_explain.argtypes = [
    ctypes.c_char_p, ctypes.c_size_t, ctypes.c_char_p, ctypes.c_bool, ctypes.c_char_p, SIZE,
]
lib.mezulobu_explain_json.argtypes = lib.mezulobu_explain.argtypes
TOO_SMALL = 5


def content(name):
    with open(name, "rb") as file:
        return file.read()


def explained(call, script, name, is_strict):
    """The text of an explanation, and the status."""
    size, text = ctypes.c_size_t(1024), ctypes.create_string_buffer(1024)
    while (status := call(script, len(script), name, is_strict, text, size)) == TOO_SMALL:
        text = ctypes.create_string_buffer(size.value)
    return text.raw[: size.value], status


def printed(folder, name, is_strict, *more):
    """What the program prints, and its status."""
    words = ["explain", *more, *(["--strict"] if is_strict else []), name]
    done = subprocess.run([PROGRAM, *words], stdout=subprocess.PIPE, cwd=folder, timeout=120)
    return done.stdout, done.returncode


def answers(path):
    """Whether a script is explained as it is to be."""
    folder, name = os.path.split(path + ".json")
    script = content(path + ".json")
    for is_strict in (False, True):
        told = explained(lib.mezulobu_explain, script, name.encode(), is_strict)
        objects = explained(lib.mezulobu_explain_json, script, name.encode(), is_strict)
        yield objects[1] == told[1] and objects[0].count(b"\n") > 0
        if os.path.exists(PROGRAM):
            yield told == printed(folder, name, is_strict)
            yield objects == printed(folder, name, is_strict, "--json")
        if os.path.exists(path + ".told"):
            yield told[0] == content(path + ".told") and told[1] in (0, 3, *([6] if is_strict else []))


def main():
    passed = failed = 0
    if not os.path.exists(PROGRAM):
        print(f"library: {PROGRAM} isn't built, so explanations are compared with .told files alone")
    for path in sys.argv[3:]:
        for good in answers(path):
            passed, failed = passed + good, failed + (not good)
            if not good:
                print(f"library: {path} is explained otherwise")
    print(f"{passed} passed, {failed} failed")
    return 1 if failed else 0


sys.exit(main())
