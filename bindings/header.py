"""Reads c/mezulobu.h: its numbers, structs and calls, with the comments that tell of them.

What it doesn't know is an error (`Unknown`), so nothing of the header is left out of what is made of it.
"""
import os
import re
from dataclasses import dataclass, field

TOP = os.path.dirname(os.path.dirname(os.path.abspath(__file__)))
HEADER = os.path.join(TOP, "c", "mezulobu.h")
# A define with a value; other lines for the preprocessor tell nothing but the ones of C++.
DEFINE = re.compile(r"#define\s+(MEZULOBU_\w+)\s+(\S.*\S|\S)")
PLAIN = re.compile(r"#(?:ifndef \w+|ifdef __cplusplus|endif|include <\w+\.h>|define MEZULOBU_H)")
FOR_CPP = re.compile(r"#ifdef __cplusplus\n.*?#endif\n", re.S)
TOKEN = re.compile(r"(?P<comment>/\*.*?\*/)|(?P<line>#(?:(?!/\*)[^\n])*)|(?P<word>\w+)|(?P<sign>[][{}();,=*])|(?P<space>\s+)", re.S)


class Unknown(Exception):
    """The header has what this reader doesn't know."""


@dataclass
class Token:
    kind: str
    text: str
    line: int
    last: int


@dataclass(frozen=True)
class Type:
    """A type of C: `const` of what the innermost star points to, and how many stars; `length` is that of an array."""

    base: str
    is_struct: bool = False
    is_const: bool = False
    stars: int = 0
    length: "int | None" = None

    def in_c(self):
        words = ["const"] * self.is_const + ["struct"] * self.is_struct + [self.base]
        return " ".join(words) + " " * (self.stars > 0) + "*" * self.stars


@dataclass(frozen=True)
class Member:
    """A member of a struct, a parameter or a number, with what its comment says, and what one says of it and those after it."""

    name: str
    type: "Type | None"
    value: str = ""
    says: str = ""
    heads: str = ""


@dataclass
class Enum:
    name: str
    members: list
    says: str


@dataclass
class Struct:
    name: str
    members: "list | None"
    says: str


@dataclass
class Call:
    name: str
    returns: Type
    parameters: list
    says: str


@dataclass
class Section:
    """What a comment says that stands for itself: the first one, and those with a title."""

    title: str
    says: str


@dataclass
class Header:
    """All that the header declares, in its order."""

    parts: list = field(default_factory=list)

    def of(self, kind):
        return [part for part in self.parts if isinstance(part, kind)]

    def structs(self):
        """The structs whose members are told."""
        return [struct for struct in self.of(Struct) if struct.members is not None]

    def opaque(self):
        told = {struct.name for struct in self.structs()}
        return list(dict.fromkeys(it.name for it in self.of(Struct) if it.members is None and it.name not in told))

    def version(self):
        """Major and minor number."""
        value = next(it.value for it in self.of(Member) if it.name == "MEZULOBU_VERSION")
        return divmod(int(value.rstrip("u"), 16), 1 << 16)


def words_of(comment):
    """The text of a comment, without its stars."""
    lines = comment[2:-2].strip("\n").split("\n")
    return "\n".join([lines[0].strip()] + [re.sub(r"^ *\* ?", "", line).rstrip() for line in lines[1:]]).strip()


def tokens_of(text):
    at, line, found = 0, 1, []
    while at < len(text):
        match = TOKEN.match(text, at)
        if not match:
            raise Unknown(f"line {line}: {text[at : at + 40]!r}")
        last = line + match[0].count("\n")
        if match.lastgroup != "space":
            found.append(Token(match.lastgroup, match[0].strip(), line, last))
        at, line = match.end(), last
    return found


class Reader:
    """Reads tokens one after the other."""

    def __init__(self, text):
        self.tokens = tokens_of(FOR_CPP.sub(lambda it: "\n" * it[0].count("\n"), text))
        self.at = 0
        self.said = ""

    def peek(self):
        return self.tokens[self.at] if self.at < len(self.tokens) else Token("end", "", 0, 0)

    def take(self, *texts):
        token = self.peek()
        if texts and token.text not in texts:
            raise Unknown(f"line {token.line}: {token.text!r} where {' or '.join(map(repr, texts))} is expected")
        self.at += 1
        return token.text

    def takes(self, text):
        return self.peek().text == text and bool(self.take())

    def word(self):
        token = self.peek()
        if token.kind != "word":
            raise Unknown(f"line {token.line}: {token.text!r} where a word is expected")
        return self.take()

    def comment(self):
        """The comment that ends what stands before it, on the same line."""
        before, token = self.tokens[self.at - 1], self.peek()
        if token.kind != "comment" or token.line != before.last:
            return ""
        return words_of(self.take())

    def type(self):
        is_const, is_struct = self.takes("const"), self.takes("struct")
        base = self.word()
        return Type(base, is_struct, is_const, self.stars())

    def stars(self):
        found = 0
        while self.takes("*"):
            found += 1
        return found

    def members(self):
        """The members of a struct, up to its brace: `type name, name[4];`"""
        found, begun = [], 0
        while not self.takes("}"):
            if self.peek().kind == "comment":
                raise Unknown(f"line {self.peek().line}: a comment before a member")
            common = self.type()
            while True:
                name, length = self.word(), None
                if self.takes("["):
                    length = int(self.word())
                    self.take("]")
                found.append(Member(name, Type(common.base, common.is_struct, common.is_const, common.stars, length)))
                if self.take(",", ";") == ";":
                    break
                if self.stars():
                    raise Unknown(f"a star of {name}'s neighbour alone")
            says = self.comment()
            found[begun:] = [Member(it.name, it.type, says=says) for it in found[begun:]]
            begun = len(found)
        return found

    def numbers(self):
        """The members of an enum, up to its brace: `NAME = 1,`"""
        found, says = [], self.comment()
        while not self.takes("}"):
            heads = words_of(self.take()) if self.peek().kind == "comment" else ""
            name = self.word()
            self.take("=")
            value = self.word()
            self.takes(",")
            found.append(Member(name, None, value, self.comment(), heads))
        return found, says

    def parameters(self):
        found = []
        self.take("(")
        if self.tokens[self.at + 1].text == ")" and self.takes("void"):
            self.take(")")
            return found
        while True:
            its_type = self.type()
            found.append(Member(self.word(), its_type))
            if self.take(",", ")") == ")":
                return found

    def declared(self, says):
        """An enum, a struct or a call."""
        if self.takes("enum"):
            name = "" if self.peek().text == "{" else self.word()
            self.take("{")
            members, more = self.numbers()
            part = Enum(name, members, says or more)
        elif self.peek().text == "struct" and self.tokens[self.at + 2].text in ("{", ";"):
            self.take("struct")
            part = Struct(self.word(), None, says)
            if self.takes("{"):
                part.members = self.members()
        else:
            returns = self.type()
            part = Call(self.word(), returns, self.parameters(), says)
        self.take(";")
        return part

    def parts(self):
        """What is declared. A comment is of what follows on the next line, and else stands for itself."""
        while self.peek().kind != "end":
            token = self.peek()
            if token.kind == "line":
                self.take()
                defined = DEFINE.fullmatch(token.text)
                if defined:
                    yield Member(defined[1], None, defined[2], self.comment())
                elif not PLAIN.fullmatch(token.text):
                    raise Unknown(f"line {token.line}: {token.text!r}")
            elif token.kind != "comment":
                yield self.declared("")
            elif self.tokens[self.at + 1].line == token.last + 1 and self.tokens[self.at + 1].kind == "word":
                self.take()
                yield self.declared(words_of(token.text))
            else:
                self.take()
                titled = re.fullmatch(r"-+ (.*?) -+\n(.*)", words_of(token.text), re.S)
                yield Section(titled[1], titled[2].strip()) if titled else Section("", words_of(token.text))


def read(path=HEADER):
    with open(path, encoding="utf-8") as file:
        return Header(list(Reader(file.read()).parts()))
