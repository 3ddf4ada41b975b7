"""What tests share: the program that they run, the scripts that they run it on, and how they count.

A test stands in a folder of its own, and begins with `sys.path.append(os.path.join(sys.path[0], ".."))`.
"""
import glob
import importlib.machinery
import importlib.util
import os
import subprocess
import sys

TOP = os.path.dirname(os.path.dirname(os.path.abspath(__file__)))
NAME = os.path.basename(sys.argv[0])
# The proved programs, or those that the environment names.
PROGRAM = os.path.abspath(
    os.environ.get("SYSMEM_REPLAY") or os.path.join(TOP, "crates/sysmem_replay/out/sysmem_replay")
)
WORKBENCH = os.path.abspath(os.environ.get("WORKBENCH") or os.path.join(TOP, "crates/workbench/out/workbench"))
# The letters of DRM's codes, by its header.
FOURCC = {
    "R8G8B8A8": "AB24", "B8G8R8A8": "AR24", "R8G8B8X8": "XB24", "B8G8R8X8": "XR24", "R8G8B8": "BG24", "B8G8R8": "RG24",
    "R5G6B5": "RG16", "R8G8": "GR88", "YUY2": "YUYV", "R8": "R8  ", "L8": None, "I420": "YU12", "YV12": "YV12",
    "NV12": "NV12", "P010": "P010",
}
EXAMPLES, ROWS, RANDOM, EXPLAINED = "examples", "tests/data/rows", "tests/data/random", "tests/data/explained"


def content(*path):
    """The bytes of a file, whose path is from the top where it isn't whole."""
    with open(os.path.join(TOP, *path), "rb") as file:
        return file.read()


def text_of(*path):
    """The text of a file, likewise."""
    with open(os.path.join(TOP, *path), encoding="utf-8") as file:
        return file.read()


def scripts(*folders):
    """The examples, worked rows and random scripts, or those of other folders."""
    folders = folders or (EXAMPLES, ROWS, RANDOM)
    return [path for folder in folders for path in sorted(glob.glob(os.path.join(TOP, folder, "*.json")))]


def row(name):
    """A file of the worked rows."""
    return os.path.join(TOP, ROWS, name)


def load(name, path=None):
    """Another test as a module, or a program that stands elsewhere."""
    sys.dont_write_bytecode = True
    loader = importlib.machinery.SourceFileLoader(name, path or glob.glob(os.path.join(TOP, "tests", "*", name))[0])
    made = importlib.util.module_from_spec(importlib.util.spec_from_loader(name, loader))
    loader.exec_module(made)
    return made


def call(*words, program=PROGRAM, **how):
    """A call of the program, once it has come to its end. It prints bytes where `text` isn't asked for."""
    streams = {"stdout": subprocess.PIPE, "stderr": subprocess.PIPE}
    return subprocess.run([program, *words], **(streams | {"timeout": 300} | how))


def answer_of(*words, **how):
    """The same as what it prints, what it reports, and its status."""
    done = call(*words, **how)
    return done.stdout or done.stderr[:0], done.stderr, done.returncode


def output(*words, timeout=3000, **how):
    """What a command prints and reports, as one text, and its status."""
    streams = {"stdout": subprocess.PIPE, "stderr": subprocess.STDOUT}
    done = subprocess.run(words, **streams, text=True, errors="replace", timeout=timeout, **how)
    return done.stdout, done.returncode


def preloaded(folder, name):
    """What is loaded before a program, so that one of its reads, allocations or threads fails: built from
    `preload/`."""
    built = os.path.join(folder, name + ".so")
    source = os.path.join(TOP, "tests", "preload", name + ".c")
    subprocess.run([os.environ.get("CC", "cc"), "-O1", "-shared", "-fPIC", "-o", built, source], check=True)
    return built


def edit_lines(path):
    """The lines of a wrong body, each a word and what stands behind its colon."""
    for line in text_of(path).splitlines():
        word, _, rest = line.partition(":")
        yield word, rest.removeprefix(" ")


def wants_program(program=PROGRAM):
    """Ends the test where there is no program."""
    if not os.path.exists(program):
        sys.exit(f"{NAME}: the program isn't built: run `make prove`")


def end(passed, failed):
    """Tells how many cases there were, and ends the test."""
    print(f"{passed} passed, {failed} failed")
    sys.exit(failed != 0)


class Tally:
    """Counts cases, and tells which aren't as they should be."""

    def __init__(self):
        self.passed = self.failed = 0

    def add(self, passed, failed):
        """Cases that another program counted."""
        self.passed, self.failed = self.passed + passed, self.failed + failed

    def expect(self, good, name, more=""):
        """Whether a case is as it should be; where it isn't, more is told."""
        self.add(bool(good), not good)
        if not good:
            print(f"{NAME}: {name}" + (f": {more[-3000:]}" if more else ""), flush=True)
        return good

    def run(self, name, *words, **how):
        """What a command tells, which has to end with status 0."""
        text, status = output(*words, **how)
        self.expect(not status, name, f"status {status}: {text}")
        return text

    def end(self):
        end(self.passed, self.failed)


def judge(cases, wrong="another answer"):
    """Counts cases, each a name and whether it is as it should be, tells which aren't, and ends the test."""
    tally = Tally()
    for name, good in cases:
        tally.expect(good, f"{wrong}: {name}")
    tally.end()
