"""Corrects a script's text as an explanation says, at the place of its fault."""
import collections
import json
import re

from explained import ENTRIES, MEMORY, STEERS, judge

# Words of an outcome below which stands what the script has then; those of them that correct its text, and those of
# calls on other nodes, or that make children.
ANSWERED = re.compile(r"^with .* the script has(?:, its calls numbered anew)?:$")
CORRECTED = re.compile(r"with (.* \(lines? [\d, and]+\))( and \d+ more)? the script has:")
CALLED = re.compile(r"with calls? \d+(?: on .*|[\d, and]* as (?:create_child|attach_token)(?: and .*)?) the script has:")
DECODER = json.JSONDecoder()
COLON, COMMA, BEHIND = re.compile(r"\s*:\s*"), re.compile(r"\s*,?\s*"), re.compile(r"\s*,")

# A value of a JSON text: where its key begins, or else it; where it begins, and where it ends.
Part = collections.namedtuple("Part", "path start value end")
# A fault at a part, with what is said of it, and of how many lines its correction is told.
Fault = collections.namedtuple("Fault", "part note lines")


def parts_of(text):
    """The values of a JSON text, by path."""
    parts, begin = {}, len(text) - len(text.lstrip())
    add_parts(parts, text, (), begin, begin)
    return parts


def add_parts(parts, text, path, start, value):
    """Adds a value and those in it to others; where it ends."""
    end = value + 1
    if text[value] not in "[{":
        end = DECODER.raw_decode(text, value)[1]
    else:
        begin, index = COMMA.match(text, end).end(), 0
        while text[begin] not in "]}":
            step, inner = index, begin
            if text[value] == "{":
                step, inner = DECODER.raw_decode(text, begin)
                inner = COLON.match(text, inner).end()
            begin = COMMA.match(text, add_parts(parts, text, (*path, step), begin, inner)).end()
            index += 1
        end = begin + 1
    parts[path] = Part(path, start, value, end)
    return end


def visible(text):
    """A text as explanations show it."""
    return STEERS.sub("\ufffd", text)


def path_words(path):
    """A path as explanations show it."""
    words = [f"[{it}]" if isinstance(it, int) else f".{visible(it[:60])}{'...' * (len(it) > 60)}" for it in path]
    return "".join(words).removeprefix(".") or "the script"


def fault_of(shown):
    """Where a fault that is shown is, and what is said of it."""
    return re.match(r" *--> .*:\d+:\d+: (.*)", shown)[1], re.search(r"\^ (.*)", shown)[1]


def line_at(text, at):
    return text.count("\n", 0, at) + 1


def item_around(text, parts, part, mark):
    """The item of a list that begins with a mark, and is a part or has it; the nearest."""
    ends = [k for k, step in enumerate(part.path, 1) if isinstance(step, int)]
    around = [parts[part.path[:end]] for end in reversed(ends)]
    return next((one for one in around if text[one.value] == mark), around[0])


def cut(text, part):
    """A member or an item goes, with a comma beside it."""
    behind = BEHIND.match(text, part.end)
    start = part.start if behind else re.search(r"(,\s*)?\Z", text[: part.start]).start()
    return start, behind.end() if behind else part.end, ""


def first_in(parts, home, member, gone=None):
    """A member comes first in an object, from which another may go."""
    rest = [one for one in parts.values() if one.path[:-1] == home.path and one not in (gone, home)]
    return home.value + 1, home.value + 1, member + ", " * bool(rest)


# What is done at a fault, by what is said: each gives where it is done, whose lines are told, and what replaces what.


def name_of(text, part):
    """The key of a member, or an item of a list."""
    is_member = isinstance(part.path[-1], str)
    return visible(part.path[-1] if is_member else text[part.value : part.end].strip('"'))


def left_out(text, parts, fault, what):
    """A member or an item goes: that at the fault, a member beside it or in it, or a member that has it; or an object or
    a list that is an item and has it."""
    path = fault.part.path
    if what in ("the object", "the list"):
        mark = {"the object": "{", "the list": "["}[what]
        gone = item_around(text, parts, fault.part, mark)
        is_meant = text[gone.value] == mark
    else:
        near = [fault.part, *(one for one in parts.values() if one.path[:-1] in (path[:-1], path))]
        near += [parts[path[:end]] for end in range(len(path) - 1, 0, -1)]
        gone = next((one for one in near if one.path and name_of(text, one) == what), fault.part)
        is_meant = name_of(text, gone) == what
    judge(is_meant, f"{what} isn't at {path_words(path)}")
    return [gone.start], [cut(text, gone)]


def call_left_out(text, parts, fault, number):
    """A call goes, which has the fault."""
    gone = parts["calls", int(number) - 1]
    judge(fault.part.path[:2] == gone.path, f"call {number} has no fault at {path_words(fault.part.path)}")
    return [gone.start], [cut(text, gone)]


def moved_into(text, parts, fault, owner, field):
    """A member comes first in another object of its constraints, or in each entry if it is in none; the object is made
    where there is none. Its key may become another."""
    part = fault.part
    constraints, member = (*part.path[:2], "constraints"), text[part.start : part.end]
    if field:
        member = f'"{field}": {text[part.value : part.end]}'
    entries = [path for path in parts if path[:-1] == (*constraints, ENTRIES)]
    homes = {
        MEMORY: [(*constraints, MEMORY)],
        "the constraints themselves": [constraints],
        f"an entry of {ENTRIES}": [path for path in entries if part.path[: len(path)] == path] or entries,
    }[owner]
    there = [first_in(parts, parts[home], member, part) for home in homes if home in parts]
    made = [
        first_in(parts, parts[home[:-1]], f'"{home[-1]}": {{{member}}}', part) for home in homes if home not in parts
    ]
    return [part.start], [cut(text, part), *there, *made]


def call_later(text, parts, fault, number, after):
    """A call comes right after another."""
    one, other = parts["calls", int(number) - 1], parts["calls", int(after) - 1]
    judge(fault.part.path[:2] == one.path, f"call {number} has no fault at {path_words(fault.part.path)}")
    return [one.start], [cut(text, one), (other.end, other.end, f", {text[one.value:one.end]}")]


def member_added(text, parts, fault, member):
    """An object that is at the fault, or has it as a member, has a member more, before the others."""
    home = fault.part if text[fault.part.value] == "{" else parts[fault.part.path[:-1]]
    return [home.value], [first_in(parts, home, member)]


def brace_earlier(text, parts, _fault):
    """The platform ends before its last member."""
    part = [one for one in parts.values() if one.path[:-1] == ("platform",)][-1]
    comma = text.rindex(",", 0, part.start)
    return [comma], [(comma, comma, "}")]


def brace_gone(_text, _parts, fault):
    """What is at the fault doesn't end where it did."""
    end = fault.part.end
    return [end - 1], [(end - 1, end, " ")]


def bracketed(text, _parts, fault, what):
    """A value stands in brackets."""
    part = fault.part
    value = text[part.value : part.end]
    judge(what == ("the object" if value[0] == "{" else value), f"{what} isn't at {path_words(part.path)}")
    return [part.value], [(part.value, part.end, f"[{value}]")]


def json_written(text, parts, fault, new, was):
    """An object or a list stands in the place of what is at the fault, or has it."""
    path = fault.part.path
    near = [fault.part, parts[path[:-1]]]
    part = next((one for one in near if visible(text[one.value : one.end]) == was), None)
    judge(part, f"{was} isn't at {path_words(path)}")
    part = part or fault.part
    return [part.value], [(part.value, part.end, new)]


def replaced(text, parts, fault, field, known, was):
    """A value of a field stands in the place of another, or a name in that of the key or the value at the fault, of
    the call, of its actor, of a node on which no call is made, or of an actor who makes one call alone; in that of a
    node's name as often as lines are told."""
    part = parts.get((*fault.part.path, field), fault.part)
    if fault.note == "no earlier call makes this name" and text[part.value : part.end] == f'"{known}"':
        part = next(one for one in parts.values() if one.path[2:] == ("as",) and text[one.value : one.end] == f'"{was}"')
    if fault.note == "the 17th actor":
        part = next(one for one in parts.values() if one.path[2:] == ("actor",) and text[one.value : one.end] == f'"{was}"')
    near = [parts.get((*part.path[:2], key), part) for key in ("actor", "call")]
    spots = [(one.value, one.end) for one in (part, *near)]
    if fault.note == "unknown key" and part.path[-1] != "constraints":
        spots = [(part.start, DECODER.raw_decode(text, part.start)[1])]
    first = next((spot for spot in spots if visible(text[slice(*spot)]) == (was if field else f'"{was}"')), None)
    judge(first, f"{was} isn't at {path_words(part.path)}")
    first = first or spots[0]
    calls = [one for one in parts.values() if len(one.path) == 3 and one.path[2] in ("on", "as")]
    alike = [one for one in calls if one.value > first[0] and text[one.value : one.end] == text[slice(*first)]]
    spots = [first, *sorted((one.value, one.end) for one in alike)][: fault.lines]
    return [start for start, _ in spots], [(start, end, known if field else f'"{known}"') for start, end in spots]


AT_FAULTS = {
    r"call (\d+) moved after call (\d+)": call_later,
    r".+ moved into (.+?)(?: as (\w+))?": moved_into,
    r'("\w+": .+) added': member_added,
    r"brackets around (.+)": bracketed,
    r"call (\d+) left out": call_left_out,
    r"\} added": brace_earlier,
    r"\} left out": brace_gone,
    r"(.*) left out": left_out,
    r"([\[{].+[\]}]) in the place of (.+)": json_written,
    r"(?:(\w+) )?(\S+) in the place of (.*)": replaced,
}


# What is done where a text stops being JSON, in the same way.


def stop_of(text):
    """Where a text stops being JSON; None where it is some."""
    try:
        json.loads(text)
    except json.JSONDecodeError as fault:
        return fault.pos
    return None


def bytes_left_out(text, at, what):
    """A comma, a comment or other bytes go."""
    comment = re.compile(r"/\*.*?\*/|(?://|#)[^\n]*", re.S).match(text, at)
    if what == "the comment":
        judge(comment, f"no comment is at {at}")
        return at, comment.end() if comment else at, ""
    if what == "the comma":
        before = len(text[:at].rstrip()) - 1
        comma = before if text[before : before + 1] == "," else at
        return comma, comma + 1, ""
    start = at if visible(text[at : at + len(what)]) == what else at - len(what)
    judge(visible(text[start : start + len(what)]) == what, f"{what} isn't at {at}")
    return start, start + len(what), ""


def quoted(text, at, what):
    """A word that stands without quotes, or in single ones, stands in double ones."""
    word = f"'{what}'" if text[at] == "'" else what
    judge(visible(text[at : at + len(word)]) == word, f"{what} isn't at {at}")
    return at, at + len(word), f'"{text[at : at + len(word)].strip(chr(39))}"'


def mark_added(text, at, what):
    """A mark or brackets are added: a quote before the marks at the end of its line; a comma, and brackets that aren't
    at the text's end, right after the value before: of a list that goes on with a key, the value before that."""
    if what == "a double quote":
        end = text.find("\n", at)
        place = len(text[: end if end >= 0 else len(text)].rstrip(" \t\r\n,]}"))
    elif at < len(text) and what not in ("a colon", "0"):
        front = text[:at].rstrip()
        if text[at] == ":":
            front = front[: front.rindex('"', 0, -1)].rstrip()
        place = len(front.removesuffix(",").rstrip())
    else:
        place = at
    return place, place, {"a comma": ",", "a colon": ":", "a double quote": '"'}.get(what, what)


def written(text, at, known, was):
    """A word stands in the place of another."""
    start = text.rfind(was, 0, at + len(was))
    judge(start >= 0 and at <= start + len(was), f"{was} isn't at {at}")
    return start, start + len(was), known


AT_STOPS = {
    r"double quotes around (.+)": quoted,
    r"(.+) left out": bytes_left_out,
    r"(.+) added": mark_added,
    r"(\S+) in the place of (.+)": written,
}


def made_by(forms, what):
    """How something is done that is said, and which words of it matter."""
    for form, make in forms.items():
        words = re.fullmatch(form, what)
        if words:
            return make, words.groups()
    raise ValueError(f"{what!r} isn't known")


def corrected(name, text, item):
    """The text of a script in which is done what an item says, at the faults above it or where the text stops being
    JSON; None where not all is told."""
    told, more = CORRECTED.fullmatch(item["text"]).groups()
    whats = re.findall(r"(.+?) \(lines? ([\d, and]+)\)(?:, | and |\Z)", told)
    if more:
        return None
    if stop_of(text) is None:
        return corrected_at_faults(name, text, whats, item["faults"])
    for what, line in whats:
        make, words = made_by(AT_STOPS, what)
        start, end, new = make(text, stop_of(text), *words)
        judge(line_at(text, start) == int(line), f"{name}: {what} isn't in line {line}")
        text = text[:start] + new + text[end:]
    return text


def corrected_at_faults(name, text, whats, faults):
    """The text of a script in which something is done at each fault."""
    parts, edits = parts_of(text), []
    by_words = {path_words(path): part for path, part in parts.items()}
    judge(len(whats) == len(faults), f"{name}: {len(whats)} corrections of {len(faults)} faults")
    for (what, told), shown in zip(whats, faults):
        make, words = made_by(AT_FAULTS, what)
        lines = [int(line) for line in re.findall(r"\d+", told)]
        path, note = fault_of(shown)
        starts, more = make(text, parts, Fault(by_words[path], note, len(lines)), *words)
        judge([line_at(text, start) for start in starts] == lines, f"{name}: {what} isn't in the lines {lines}")
        edits += more
    return edited(text, edits)


def edited(text, edits):
    """A text in which stands something else from a place to another, of each of some edits; its lines stay."""
    for start, end, new in sorted(edits, reverse=True):
        text = text[:start] + " ".join(new.split("\n")) + "\n" * text.count("\n", start, end) + text[end:]
    return text


def called_on(text, words):
    """The text of a script in which calls are made on other nodes, or make children or attached tokens."""
    parts = parts_of(text)
    on_nodes = [(number, "on", node) for number, node in re.findall(r"call (\d+) on (\S+)", words)]
    kinds = re.findall(r"calls? ([\d, and]+) as (create_child|attach_token)", words)
    whats = on_nodes + [(number, "call", kind) for some, kind in kinds for number in re.findall(r"\d+", some)]
    spots = [(parts["calls", int(number) - 1, key], word) for number, key, word in whats]
    return edited(text, [(part.value, part.end, f'"{word}"') for part, word in spots])
