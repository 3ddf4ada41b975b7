"""Lines of a manual page in mdoc, from the Markdown of the docs and of the header's comments."""
import re

WIDTH = 78
FENCE = re.compile(r"```\w*")
ITEM = re.compile(r"(?:[-*]|\d+\.) +")
RULE = re.compile(r"\|[-| :]+\|")
# What ends a sentence, with what closes after it.
ENDS = re.compile(r"(?<!\.)[.!?](?:\\fR|[)\"\]])*$")


def escaped(text):
    return text.replace("\\", "\\e")


def plain(line):
    """A line of text that roff doesn't take for a request."""
    return "\\&" + line if line[:1] in (".", "'") else line


def bold(text):
    return "\\fB" + text + "\\fR"


def code(text):
    """A piece of code, whose dashes aren't those of words."""
    return escaped(text).replace("-", "\\-")


def inline(text):
    """Words with fonts: code and what is strong in bold, without what links lead to."""
    text = re.sub(r"\[((?:[^]`]|`[^`]*`)*)\]\([^)]*\)", r"\1", text)
    found = []
    for part in re.split(r"(\*\*(?:`[^`]*`|[^*`])+\*\*|`[^`]*`)", text):
        if part.startswith("`"):
            found.append(bold(code(part[1:-1])))
        elif part.startswith("**"):
            found.append(bold(re.sub(r"`([^`]*)`|([^`]+)", lambda it: code(it[1]) if it[1] else escaped(it[2]), part[2:-2])))
        else:
            found.append(escaped(part))
    return "".join(found)


def prose(text):
    """Text in lines: each sentence begins one."""
    lines, line = [], ""
    for word in inline(text).split():
        if line and len(line) + 1 + len(word) > WIDTH:
            lines.append(line)
            line = ""
        line += (" " if line else "") + word
        if ENDS.search(word):
            lines.append(line)
            line = ""
    return [plain(it) for it in [*lines, line] if it]


def display(lines):
    """Lines as they are."""
    yield ".Bd -literal -offset indent"
    yield from (plain(escaped(line).replace("-", "\\-")) for line in lines)
    yield ".Ed"


def cells(row):
    return [it.strip() for it in re.split(r"(?<!\\)\|", row.strip()[1:-1])]


def table(rows):
    """A list of tags: the first column, and what the others say, each after its heading where there are several."""
    head, *body = [cells(row) for row in rows if not RULE.fullmatch(row)]
    yield ".Bl -tag -width Ds"
    for first, *others in body:
        yield f".It {inline(first) or '(none)'}"
        said = [(name, it) for name, it in zip(head[1:], others) if it]
        yield from prose(" ".join(f"{name}: {it}." for name, it in said) if len(head) > 2 else said[0][1] if said else "")
    yield ".El"


def items(block):
    """A list, an item of which begins with a mark and goes on indented."""
    is_numbered = block[0][0].isdigit()
    yield f".Bl {'-enum' if is_numbered else '-bullet'} -compact"
    texts = []
    for line in block:
        if ITEM.match(line):
            texts.append(ITEM.sub("", line, count=1))
        else:
            texts[-1] += " " + line.strip()
    for text in texts:
        yield ".It"
        yield from prose(text)
    yield ".El"


def quote(lines):
    """A paragraph that stands apart."""
    yield ".Bd -ragged -offset indent"
    yield from prose(" ".join(lines))
    yield ".Ed"


def blocks(text):
    """The blocks of Markdown: of each its kind and its lines."""
    lines, at = text.split("\n"), 0
    while at < len(lines):
        begun = at
        if not lines[at].strip():
            at += 1
        elif FENCE.fullmatch(lines[at]):
            at = lines.index("```", at + 1) + 1
            yield "display", lines[begun + 1 : at - 1]
        elif lines[at].startswith("    "):
            while at < len(lines) and (lines[at].startswith("    ") or not lines[at].strip()):
                at += 1
            yield "display", [line[4:] for line in "\n".join(lines[begun:at]).rstrip().split("\n")]
        elif lines[at].startswith(">"):
            while at < len(lines) and lines[at].startswith(">"):
                at += 1
            yield "quote", [line[1:].strip() for line in lines[begun:at]]
        elif lines[at].startswith("#"):
            at += 1
            yield "title", [lines[begun].lstrip("# ")]
        else:
            is_table, is_list = lines[at].startswith("|"), bool(ITEM.match(lines[at]))
            while at < len(lines) and lines[at].strip() and not FENCE.fullmatch(lines[at]):
                if not is_list and at > begun and ITEM.match(lines[at]) and lines[at][0] == "-":
                    break
                at += 1
            yield "table" if is_table else "list" if is_list else "text", lines[begun:at]


def markdown(text):
    """Lines of mdoc, under a title."""
    is_first = True
    for kind, lines in blocks(text):
        if kind == "title":
            yield f".Ss {inline(lines[0])}"
            is_first = True
            continue
        if kind == "text":
            if not is_first:
                yield ".Pp"
            yield from prose(" ".join(lines))
        else:
            if kind == "list" and not is_first:
                yield ".Pp"
            yield from {"display": display, "table": table, "list": items, "quote": quote}[kind](lines)
        is_first = False
