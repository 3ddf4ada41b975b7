"""Scripts in, texts out."""
from __future__ import annotations

import ctypes
import enum
from dataclasses import dataclass
from typing import Any, Callable, List, Tuple, Union

from ._library import library
from .chosen import Error, raise_for
from .codes import Status
from .stated import told

ROOM = 1 << 16
"""The room of each text at first."""


class ScriptRefused(Error):
    """The script or the certificate is refused: the library's words say for what."""


class Outcome(enum.Enum):
    """How a script went that is explained."""

    ALL_WELL = "each call was done, and each domain is chosen"
    NOT_ALL_WELL = "a call was refused, or a domain isn't chosen"
    FAULTY = "the script has a fault"


@dataclass(frozen=True)
class Answer:
    """What a check says of a certificate."""

    is_right: bool
    text: str


@dataclass(frozen=True)
class Explanation:
    """What a script means."""

    outcome: Outcome
    text: str


def filled(number: int, call: Callable[..., Any]) -> Tuple[int, List[bytes]]:
    """Calls with room for so many texts, and again with as much as they need."""
    sizes = [ctypes.c_size_t(ROOM) for _ in range(number)]
    while True:
        texts = [ctypes.create_string_buffer(size.value) if size.value else None for size in sizes]
        words: List[Any] = [it for both in zip(texts, sizes) for it in both]
        status = int(call(*words))
        if status != Status.TOO_SMALL:
            return status, [text.raw[: size.value] if text else b"" for text, size in zip(texts, sizes)]


def given_bytes(call: str, name: str, given: Any, kinds: str = "bytes") -> bytes:
    """What a call is given by this name: of these kinds, it says of others."""
    if isinstance(given, (bytes, bytearray, memoryview)):
        return bytes(given)
    raise TypeError(f"{call}: {name}: {told(given)} is no {kinds}")


def given_text(call: str, name: str, given: Any, kinds: str = "str or bytes (json.dumps makes one)") -> bytes:
    """The same of a text."""
    return given.encode() if isinstance(given, str) else given_bytes(call, name, given, kinds)


def _raise(status: int, call: str, words: bytes) -> None:
    if status == Status.REFUSED:
        raise ScriptRefused(words.decode())
    raise_for(status, call)


def run(script: Union[bytes, str]) -> str:
    """The report of a script, which is one JSON value. Raises ScriptRefused or MemoryError."""
    given = given_text("run", "the script", script)
    status, (text,) = filled(1, lambda text, size: library.mezulobu_run(given, len(given), text, size, None, None))
    _raise(status, "mezulobu_run", text)
    return text.decode()


def run_with_certificate(script: Union[bytes, str]) -> Tuple[str, bytes]:
    """The report of a script, and the certificate of its decisions."""
    given = given_text("run_with_certificate", "the script", script)
    status, (text, proof) = filled(2, lambda *rooms: library.mezulobu_run(given, len(given), *rooms))
    _raise(status, "mezulobu_run", text)
    return text.decode(), proof


def check(script: Union[bytes, str], certificate: bytes) -> Answer:
    """Tests a certificate against a script."""
    given, proof = given_text("check", "the script", script), given_bytes("check", "the certificate", certificate)
    words = (given, len(given), proof, len(proof))
    status, (text,) = filled(1, lambda *room: library.mezulobu_check(*words, *room))
    if status != Status.NO:
        _raise(status, "mezulobu_check", text)
    return Answer(status == Status.DONE, text.decode())


def explain(script: Union[bytes, str], file: str = "script", is_json: bool = False) -> Explanation:
    """Explains a script: where it has a fault, why calls were refused, who is awaited, what decided each value of a choice, and
    who is in the way; with is_json as objects of JSON, one a line. file stands before lines and columns, up to its first 0."""
    given, name = given_text("explain", "the script", script), file.encode(errors="replace")
    call = library.mezulobu_explain_json if is_json else library.mezulobu_explain
    status, (text,) = filled(1, lambda *room: call(given, len(given), name, True, *room))
    outcomes = {Status.DONE: Outcome.ALL_WELL, Status.NO: Outcome.NOT_ALL_WELL, Status.REFUSED: Outcome.FAULTY}
    if status not in outcomes:
        raise_for(status, "mezulobu_explain")
    return Explanation(outcomes[Status(status)], text.decode())
