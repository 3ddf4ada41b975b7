"""Collections that live: handles on the nodes of one collection, each on whatever thread or in whatever task.

Each handle is a context manager. Whoever leaves one that isn't spent closes its node, and its domain fails if it wasn't ready yet: so a driver that ends early
keeps nobody waiting, and an exception that leaves the block fails everybody. To leave without harm call release() first. A handle that is spent (`bind`, `release`, `close`) raises `Spent`. Any thread may call at any time: a call that spends a handle waits
until other calls on it have returned, and ends its waits.
"""
from __future__ import annotations

import asyncio
import ctypes
import dataclasses
import math
import os
import threading
import time
import warnings
from types import TracebackType
from typing import Any, Callable, Generic, List, Optional, Set, SupportsFloat, Tuple, Type, TypeVar, Union

from . import _abi
from ._library import library
from .chosen import Error, Refusal, Refused, Settings, raise_for, refusal_of, said_of, settings_of
from .codes import Kind, Status
from .stated import Participant, Platform, flat_participant, flat_platform, told
from .texts import filled, given_text

# How long one call of the library waits, in milliseconds: who spends a handle waits as long at the most.
SLICE = 50
Self = TypeVar("Self", bound="_Handle")


class CallRefused(Error):
    """A call on the node of a name is refused, and changes nothing: `status` says why. Without a node it is the allocator's."""

    def __init__(self, status: int, call: str, node: Optional[str] = None) -> None:
        super().__init__(f"{said_of(call, node)}: {_meaning(status, call)}")
        self.status = Status(status) if status in Status.__members__.values() else status
        self.call, self.node = call, node


class RecordRefused(Error):
    """A record has a fault: `number` is 1 of S1 and so on, and 0 where it is no JSON; `fault` is its name, as S5 BadUsage; `text` says what it is, where, and what would be right."""

    def __init__(self, number: int, text: str, call: str, node: Optional[str] = None) -> None:
        super().__init__(f"{said_of(call, node)}: {text}")
        self.number, self.text, self.call, self.node = number, text, call, node
        self.fault = str(library.mezulobu_fault_name(number).decode())


class Spent(Error):
    """The handle is spent."""


def _meaning(status: int, call: str) -> str:
    return str(library.mezulobu_status_text(status, call.encode()).decode())


def _done(status: int, call: str, node: Optional[str] = None) -> None:
    if status == Status.NO_MEMORY:
        raise MemoryError(f"{said_of(call, node)}: {_meaning(status, call)}")
    if status != Status.DONE:
        raise CallRefused(status, call, node)


def _seconds(timeout: Any) -> float:
    """How long a wait is."""
    if not isinstance(timeout, SupportsFloat) or math.isnan(timeout):
        raise TypeError(f"wait: timeout: {told(timeout)} is no number")
    return float(timeout)


def _words_of(kind: Kind, record: bytes, number: int) -> str:
    """What is wrong with a record, in words; without memory for these its name alone."""
    status, (text,) = filled(1, lambda *room: library.mezulobu_record_fault(kind, record, len(record), *room))
    words = text if status == Status.DONE else library.mezulobu_fault_name(number)
    return str(words.decode()).rstrip()


class _Handle:
    """A handle that no call has any more once it is spent."""

    _close: Callable[..., Any]
    _name: Optional[Callable[..., Any]] = None

    def __init__(self, at: Optional[int]) -> None:
        self._at = ctypes.c_void_p(at)
        self._turn = threading.Condition()
        self._calls = 0
        self._is_ending = False
        self._ends: Set[Callable[[], None]] = set()

    def _call(self, call: Callable[..., Any], *words: Any) -> int:
        """A call that leaves the handle."""
        with self._turn:
            if self._at.value is None or self._is_ending:
                raise Spent(f"this {type(self).__name__} is spent")
            self._calls += 1
        try:
            return int(call(self._at, *words))
        finally:
            with self._turn:
                self._calls -= 1
                self._turn.notify_all()

    def _done(self, status: int, call: str) -> None:
        """Raises what a status of a call on this handle says that isn't DONE."""
        if status != Status.DONE:
            _done(status, call, self._own_name())

    def _own_name(self) -> Optional[str]:
        """The name of the node; None of what has none any more, and without memory for it."""
        if self._name is None:
            return None
        call: Callable[..., Any] = self._name
        try:
            status, (name,) = filled(1, lambda *room: self._call(call, *room))
        except Spent:
            return None
        return name.decode() if status == Status.DONE else None

    def _spend(self, name: str, call: Callable[..., Any], *words: Any) -> None:
        """A call that spends the handle where it is done."""
        with self._turn:
            if self._at.value is None or self._is_ending:
                raise Spent(f"{name}: this {type(self).__name__} is spent")
            self._is_ending = True
            # Also where the wait is broken off, as by Ctrl-C, the handle can still be spent.
            try:
                self._turn.wait_for(lambda: self._calls == 0)
                status = int(call(ctypes.byref(self._at), *words))
            finally:
                self._is_ending = False
        self._done(status, name)
        for end in list(self._ends):
            end()

    @property
    def is_spent(self) -> bool:
        return self._at.value is None

    def close(self) -> None:
        """Closes the node, whose domain fails if it wasn't ready yet; what is spent stays so."""
        if not self.is_spent:
            self._spend("close", self._close)

    def __enter__(self: Self) -> Self:
        return self

    def __exit__(self, kind: Optional[Type[BaseException]], error: Optional[BaseException], trace: Optional[TracebackType]) -> None:
        self.close()

    def __del__(self) -> None:
        if getattr(self, "_at", None) and not self.is_spent:
            warnings.warn(f"unclosed {type(self).__name__}", ResourceWarning, source=self)
            self.close()

    def __repr__(self) -> str:
        end = "(spent)" if self.is_spent else self._own_name()
        return f"<{type(self).__name__}{f' {end}' if end else ''}>"


class _Node(_Handle):
    _name: Callable[..., Any]
    _release: Callable[..., Any]
    _set_name: Callable[..., Any]

    def _made(self, name: str, call: Callable[..., Any]) -> Optional[int]:
        made = ctypes.c_void_p()
        self._done(self._call(call, ctypes.byref(made)), name)
        return made.value

    @property
    def name(self) -> str:
        """The name of the node: what set_name gave it, else root, or n with its number."""
        status, (name,) = filled(1, lambda *room: self._call(self._name, *room))
        _done(status, "name")
        return name.decode()

    def release(self) -> None:
        """Gives the node up, without harm to the others."""
        self._spend("release", self._release)

    def set_name(self, name: str) -> None:
        """Names the node, in scripts and explanations: 1 to 32 letters, digits, _ or -, but for root and n with digits (REFUSED), and what
        another node of the collection has (NO). The first node is always root (MISUSED)."""
        text = name.encode()
        self._done(Status.REFUSED if b"\0" in text else self._call(self._set_name, text), "set_name")


class Token(_Node):
    """The right to take part: an open token. `with` closes it, which fails everybody who isn't told yet: to leave without harm call release() first."""

    _close = library.mezulobu_token_close
    _release = library.mezulobu_token_release
    _set_name = library.mezulobu_token_set_name
    _name = library.mezulobu_token_name

    def duplicate(self) -> Token:
        """A further token, below this one."""
        return Token(self._made("duplicate", library.mezulobu_token_duplicate))

    def create_group(self) -> Group:
        """A group of alternatives, below this token."""
        return Group(self._made("create_group", library.mezulobu_token_create_group))

    def bind(self) -> Collection:
        """Takes part: the token becomes a collection, and is spent."""
        made = ctypes.c_void_p()
        self._spend("bind", library.mezulobu_token_bind, ctypes.byref(made))
        return Collection(made.value)


class Group(_Node):
    """Alternatives, of which one is selected. `with` closes it, which fails everybody who isn't told yet: to leave without harm call release() first."""

    _close = library.mezulobu_group_close
    _release = library.mezulobu_group_release
    _set_name = library.mezulobu_group_set_name
    _name = library.mezulobu_group_name

    def create_child(self) -> Token:
        """The next alternative: of two that can be had, the one that was made first is selected."""
        return Token(self._made("create_child", library.mezulobu_group_create_child))

    def all_children_present(self) -> None:
        """There are no further children. Only then a group can be released."""
        self._done(self._call(library.mezulobu_group_all_children_present), "all_children_present")


class Collection(_Node):
    """A participant. `with` closes it, which fails everybody who isn't told yet: to leave without harm call release() first."""

    _close = library.mezulobu_collection_close
    _release = library.mezulobu_collection_release
    _set_name = library.mezulobu_collection_set_name
    _name = library.mezulobu_collection_name

    def set_constraints(self, asked: Optional[Participant]) -> None:
        """Says once what the participant asks for: None for nothing. Raises Refused where that can't be meant."""
        refusal = _abi.mezulobu_refusal(ctypes.sizeof(_abi.mezulobu_refusal))
        flat = None if asked is None else flat_participant(asked)
        status = self._call(library.mezulobu_collection_set_constraints, flat, refusal)
        if status == Status.REFUSED:
            # It is the only one here.
            raise Refused(dataclasses.replace(refusal_of(refusal), who=None), "set_constraints", self._own_name())
        self._done(status, "set_constraints")

    def set_constraints_record(self, record: Union[bytes, str]) -> None:
        """The same by the JSON of constraints, as scripts have it. Raises RecordRefused."""
        code, call = ctypes.c_uint32(), "set_constraints_record"
        given = given_text(call, "the record", record)
        status = self._call(library.mezulobu_collection_set_constraints_record, given, len(given), code)
        if status == Status.REFUSED:
            raise RecordRefused(code.value, _words_of(Kind.PARTICIPANT, given, code.value), call, self._own_name())
        self._done(status, call)

    def attach_token(self) -> Token:
        """A token for a participant who comes later."""
        return Token(self._made("attach_token", library.mezulobu_collection_attach_token))

    def check(self) -> Optional[Settings]:
        """What was decided: None where nothing is yet. Raises CallRefused where there are no settings."""
        settings = _abi.mezulobu_settings(ctypes.sizeof(_abi.mezulobu_settings))
        status = self._call(library.mezulobu_collection_check, settings)
        if status == Status.PENDING:
            return None
        self._done(status, "check")
        return settings_of(settings)

    def wait(self, timeout: Optional[float] = None) -> Settings:
        """The settings as soon as they are decided. Raises TimeoutError after so many seconds, and CallRefused where there are none."""
        settings = _abi.mezulobu_settings(ctypes.sizeof(_abi.mezulobu_settings))
        ends = None if timeout is None else time.monotonic() + _seconds(timeout)
        while True:
            left = SLICE if ends is None else max(0.0, min(SLICE, (ends - time.monotonic()) * 1000))
            status = self._call(library.mezulobu_collection_wait, int(left + 0.999), settings)
            if status != Status.NO:
                self._done(status, "wait")
                return settings_of(settings)
            if ends is not None and time.monotonic() >= ends:
                raise TimeoutError("nothing was decided in that time; explain says who is awaited")

    async def chosen(self) -> Settings:
        """The settings as soon as they are decided, for a task: it doesn't take a thread, and may be cancelled. Raises as wait does."""
        own = self._call(self._own_descriptor)
        if own < 0:
            return await asyncio.get_running_loop().run_in_executor(None, self.wait)
        try:
            await self._readable(own)
        finally:
            os.close(own)
        settings = self.check()
        if settings is None:
            raise CallRefused(Status.STRANGE, "chosen", self._own_name())
        return settings

    @staticmethod
    def _own_descriptor(at: ctypes.c_void_p) -> int:
        """A descriptor like the collection's, which stays when the handle is spent; below 0 where there is none."""
        descriptor = int(library.mezulobu_collection_fd(at))
        return os.dup(descriptor) if descriptor >= 0 else descriptor

    async def _readable(self, descriptor: int) -> None:
        """Waits until a descriptor is readable, or the handle is spent."""
        loop = asyncio.get_running_loop()
        ready: asyncio.Future[None] = loop.create_future()

        def is_ready() -> None:
            if not ready.done():
                ready.set_result(None)

        def end() -> None:
            loop.call_soon_threadsafe(is_ready)

        self._ends.add(end)
        loop.add_reader(descriptor, is_ready)
        # Who spent it before `end` was there has told nobody.
        if self.is_spent:
            is_ready()
        try:
            await ready
        finally:
            loop.remove_reader(descriptor)
            self._ends.discard(end)

    def fileno(self) -> int:
        """A file descriptor that polls as readable as soon as check isn't None, and stays so: for select and poll. It is closed where the handle is spent."""
        descriptor = self._call(library.mezulobu_collection_fd)
        if descriptor < 0:
            raise OSError("the system gives no descriptor")
        return descriptor

    @property
    def node(self) -> int:
        """The number of the node: 0 is the first token of all, and each call that makes one takes the next."""
        node = ctypes.c_uint32()
        self._done(self._call(library.mezulobu_collection_node, node), "node")
        return node.value

    def name_of(self, node: int) -> str:
        """The name of the node of a number."""
        if not 0 <= node < 1 << 32:
            raise OverflowError(f"node: {node} doesn't fit 32 bits")
        return self._texts("name_of", 1, library.mezulobu_collection_name_of, node)[0].decode()

    def selection(self) -> Tuple[int, ...]:
        """Which alternatives were chosen: of each group that is selected itself, in the order of the tree, the number of its child, counted from 0."""
        size = ctypes.c_size_t(128)
        choices = (ctypes.c_uint8 * size.value)()
        self._done(self._call(library.mezulobu_collection_selection, choices, size), "selection")
        return tuple(choices[: size.value])

    def refusal(self) -> Optional[Refusal]:
        """Who is in the way, where check is refused by INTERSECTION_EMPTY in a domain without groups that isn't attached: `who` is the number of a
        node then. None where it isn't so: explain tells more."""
        refusal = _abi.mezulobu_refusal(ctypes.sizeof(_abi.mezulobu_refusal))
        status = self._call(library.mezulobu_collection_refusal, refusal)
        if status == Status.NO:
            return None
        self._done(status, "refusal")
        return refusal_of(refusal)

    def _texts(self, name: str, number: int, call: Callable[..., Any], *words: Any) -> List[bytes]:
        status, texts = filled(number, lambda *rooms: self._call(call, *words, *rooms))
        self._done(status, name)
        return texts

    def script(self) -> str:
        """All calls of the whole collection that were done so far, as a script. Raises CallRefused, as what follows does, where there is none: it would be
        longer than a script may be."""
        return self._texts("script", 1, lambda at, *room: library.mezulobu_collection_script(at, *room, None, None))[0].decode()

    def script_with_certificate(self) -> Tuple[str, bytes]:
        """The same, and what proves its decisions. Both are of one moment."""
        text, proof = self._texts("script", 2, library.mezulobu_collection_script)
        return text.decode(), proof

    def explain(self, is_json: bool = False) -> str:
        """The explanation of the script: who is awaited, what decided each value, who is in the way and which changes help; with is_json as objects of
        JSON, one a line."""
        call = library.mezulobu_collection_explain_json if is_json else library.mezulobu_collection_explain
        return self._texts("explain", 1, call)[0].decode()


class Allocator(_Handle):
    """Makes collections, which are decided for one platform, and live on without it. A platform may be the JSON that scripts have."""

    def __init__(self, platform: Union[Platform, bytes, str]) -> None:
        super().__init__(None)
        if isinstance(platform, Platform):
            refusal = _abi.mezulobu_refusal(ctypes.sizeof(_abi.mezulobu_refusal))
            status = library.mezulobu_allocator_new(flat_platform(platform), ctypes.byref(self._at), refusal)
            raise_for(status, "mezulobu_allocator_new", refusal)
        else:
            code = ctypes.c_uint32()
            given = given_text("Allocator", "the platform", platform, "Platform, str or bytes (json.dumps makes one)")
            status = library.mezulobu_allocator_new_record(given, len(given), ctypes.byref(self._at), code)
            if status == Status.REFUSED:
                raise RecordRefused(code.value, _words_of(Kind.PLATFORM, given, code.value), "Allocator")
            _done(status, "Allocator")

    @staticmethod
    def _close(at: Any) -> int:
        """Frees it: that isn't refused."""
        library.mezulobu_allocator_free(at._obj)
        at._obj.value = None
        return int(Status.DONE)

    def allocate_shared(self) -> Token:
        """A new collection, by the token of its root."""
        made = ctypes.c_void_p()
        self._done(self._call(library.mezulobu_allocate_shared, ctypes.byref(made)), "allocate_shared")
        return Token(made.value)

    def allocate_shared_limited(self, most: int) -> Token:
        """The same for a host that lets strangers in: each child of the root has at most so many nodes below it, whoever makes them."""
        if not 0 <= most < 1 << 32:
            raise OverflowError(f"allocate_shared_limited: {most} doesn't fit 32 bits")
        made = ctypes.c_void_p()
        self._done(self._call(library.mezulobu_allocate_shared_limited, most, ctypes.byref(made)), "allocate_shared_limited")
        return Token(made.value)
