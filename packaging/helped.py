"""What the program says of its own words, by its --help. What this doesn't know is an error (`Unknown`), so that nothing is left out."""
import re
import subprocess
from dataclasses import dataclass, field

OPTION = re.compile(r"(?:(-\w), |    )(--[\w-]+)(?: <(\w+)>)?  +(.*)")
ARGUMENT = re.compile(r"<(\w+)>  +(.*)")
COMMAND = re.compile(r"(\w+)  +(.*)")


class Unknown(Exception):
    """The help has what this reader doesn't know."""


@dataclass
class Option:
    short: str
    long: str
    value: str
    says: str

    def names(self):
        return [self.short, self.long] if self.short else [self.long]


@dataclass
class Command:
    """What is told of a command: the program itself is one without a name."""

    name: str
    says: str = ""
    usage: str = ""
    options: list = field(default_factory=list)
    arguments: list = field(default_factory=list)
    commands: list = field(default_factory=list)


def read(name, text):
    command, part = Command(name), ""
    for line in text.splitlines():
        found = {"Options:": OPTION, "Arguments:": ARGUMENT, "Commands:": COMMAND}.get(part)
        if line.startswith("Usage: "):
            command.usage = line[len("Usage: ") :]
        elif line in ("Options:", "Arguments:", "Commands:"):
            part = line
        elif line and found:
            match = found.fullmatch(line[2:])
            if not match:
                raise Unknown(line)
            words = [it or "" for it in match.groups()]
            {OPTION: command.options, ARGUMENT: command.arguments, COMMAND: command.commands}[found].append(
                Option(*words) if found is OPTION else tuple(words)
            )
        elif line and command.says:
            raise Unknown(line)
        elif line:
            command.says = line
    if not command.usage or not command.says:
        raise Unknown(text)
    return command


def told_by(program):
    """The program, and each of its commands."""

    def ask(*words):
        done = subprocess.run([program, *words, "--help"], stdout=subprocess.PIPE, text=True, check=True)
        return read(words[0] if words else "", done.stdout)

    top = ask()
    return top, [ask(name) for name, _ in top.commands]
