"""What a call takes: instructions, processor time, memory."""
import os
import re
import subprocess
import sys

TOP = os.path.dirname(os.path.dirname(os.path.abspath(__file__)))
# The proved program, or the one that SYSMEM_REPLAY names.
PROGRAM = os.path.abspath(os.environ.get("SYSMEM_REPLAY") or os.path.join(TOP, "crates", "sysmem_replay", "out", "sysmem_replay"))
# The longest certificate that is checked, in bytes.
LONGEST = 1 << 22


def counted(folder, words):
    """The instructions of a call, in millions."""
    out = os.path.join(folder, "callgrind.out")
    command = ["valgrind", "--tool=callgrind", f"--callgrind-out-file={out}", *words]
    done = subprocess.run(command, stdout=subprocess.DEVNULL, stderr=subprocess.PIPE, text=True, errors="replace")
    told = re.search(r"Collected : (\d+)", done.stderr)
    if not told:
        sys.exit(f"bench: {' '.join(words)} wasn't counted: {done.stderr[-300:]}")
    return int(told[1]) / 1e6


def used(words):
    """The seconds of processor time of a call, and its peak of memory in MB."""
    child = os.fork()
    if not child:
        os.dup2(os.open(os.devnull, os.O_WRONLY), 1)
        os.execv(words[0], words)
    _, _, of = os.wait4(child, 0)
    return of.ru_utime + of.ru_stime, of.ru_maxrss * 1024 / 1e6


def program_of(words, usage):
    """The program that the words of a call name, which has to be there."""
    if words and (len(words) != 2 or words[0] != "--program"):
        sys.exit(usage)
    program = os.path.abspath(words[1]) if words else PROGRAM
    if not os.path.exists(program):
        sys.exit("bench: sysmem_replay isn't built: run `make prove`")
    return program
