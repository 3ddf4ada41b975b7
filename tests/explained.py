"""What the tests of explanations share: how they count, and what a report says."""
import json
import re
import tempfile

from lib import Tally, call

MEMORY, ENTRIES = "buffer_memory_constraints", "image_format_constraints"
judge = (tally := Tally()).expect

# What steers a terminal, the direction of writing or the drawing of music, and what is no character of a text; the end
# of a line left out.
STEERS = re.compile(
    "[\x00-\x09\x0b-\x1f\x7f-\x9f\u061c\u200b-\u200f\u2028-\u202e\u2060-\u2069\ufdd0-\ufdef\ufeff\ufffe\uffff"
    "\U0001d173-\U0001d17a\U000e0000-\U000e007f]"
)


def report_of(script):
    """The lines of the report of a script's value."""
    with tempfile.NamedTemporaryFile("w", suffix=".json") as file:
        json.dump(script, file)
        file.flush()
        return call("run", file.name).stdout.decode().splitlines()


def verdicts_in(lines):
    """What is said last of each domain, by path."""
    return {line.split(" ")[1]: line.split(" ", 2)[2] for line in lines if line.startswith("domain ")}
