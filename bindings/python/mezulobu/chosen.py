"""What the library answers: settings, and why there are none."""
from __future__ import annotations

from dataclasses import dataclass
from typing import Optional, Tuple, Type, TypeVar, Union

from . import _abi
from ._library import library
from .codes import Coherency, Color, Field, Kind, Status
from .stated import FourCC

Code = TypeVar("Code", Coherency, Field, Kind)


@dataclass(frozen=True)
class Plane:
    """A plane of an image: from the buffer's start to its first row, how many rows, and the bytes of a row."""

    offset: int
    rows: int
    pitch: int


@dataclass(frozen=True)
class Layout:
    """Where an image lies in a buffer: no plane ends after its bytes, and the planes stand in the order of DRM."""

    bytes: int
    planes: Tuple[Plane, ...]


@dataclass(frozen=True)
class Image:
    """The smallest image that everybody allows."""

    format: int
    modifier: int
    color: Color
    width: int
    height: int
    layout: Layout


@dataclass(frozen=True)
class Settings:
    """What all share: how many buffers, the size of each, the heap's index, and the image, which is None where there is none."""

    count: int
    bytes: int
    heap: int
    coherency: Coherency
    image: Optional[Image]


@dataclass(frozen=True)
class Refusal:
    """Why there are no settings: what struct mezulobu_refusal says. What says nothing there is None here."""

    kind: Union[Kind, int]
    field: Union[Field, int]
    who: Optional[int]
    index: int
    alone: bool
    heap: Optional[int]
    coherency: Optional[Coherency]
    format: Optional[int]
    modifier: Optional[int]
    color: Optional[Color]

    @property
    def field_name(self) -> str:
        """The name of the field in a script's records, as max_size."""
        return str(library.mezulobu_field_name(self.field).decode())


class Error(Exception):
    """A call isn't done: what the library answered."""


def said_of(call: str, node: Optional[str]) -> str:
    """Which call it is, and of a live collection on which node."""
    return f"{call} of {node}" if node else call


class NegotiationError(Error):
    """There are no settings; `refusal` says why, and of a live collection `call` and `node` which call it is, on the node of which name."""

    def __init__(self, refusal: Refusal, call: str = "", node: Optional[str] = None) -> None:
        super().__init__(refusal)
        self.refusal, self.call, self.node = refusal, call, node

    def __str__(self) -> str:
        return f"{said_of(self.call, self.node)}: {self._said()}" if self.call else self._said()

    def _said(self) -> str:
        it = self.refusal
        if it.who is not None:
            whose = f"participant {it.who}"
        else:
            whose = "the platform" if it.kind == Kind.PLATFORM else "the participant" if it.kind == Kind.PARTICIPANT else "all"
        return f"{whose}: {it.field_name}{', even alone' if it.alone else ''}"


class NoSettings(NegotiationError):
    """No settings meet everybody: `refusal.who` is the first participant with whom there are none."""


class Refused(NegotiationError):
    """A platform or a participant states nothing that could be meant."""


class OtherVersion(Error):
    """The library doesn't know these structs: it is of another version than this package."""


def _known(kind: Type[Code], number: int) -> Union[Code, int]:
    """The name of a number; the number where a later library has one that isn't known here."""
    try:
        return kind(number)
    except ValueError:
        return number


def layout_of(flat: _abi.mezulobu_layout) -> Layout:
    planes = flat.planes[: flat.n_planes]
    return Layout(flat.bytes, tuple(Plane(it.offset, it.rows, it.pitch) for it in planes))


def settings_of(flat: _abi.mezulobu_settings) -> Settings:
    it = flat.image
    image = None
    if it.format:
        image = Image(FourCC(it.format), it.modifier, Color(it.color), it.width, it.height, layout_of(it.layout))
    return Settings(flat.count, flat.bytes, flat.heap, Coherency(flat.coherency), image)


def refusal_of(flat: _abi.mezulobu_refusal) -> Refusal:
    has_place, has_offer = flat.coherency != 0, flat.format != 0
    is_of_nobody = flat.who == _abi.NOBODY or flat.kind == Kind.PLATFORM
    return Refusal(
        kind=_known(Kind, flat.kind),
        field=_known(Field, flat.field),
        who=None if is_of_nobody else flat.who,
        index=flat.index,
        alone=bool(flat.alone),
        heap=flat.heap if has_place else None,
        coherency=Coherency(flat.coherency) if has_place else None,
        format=FourCC(flat.format) if has_offer else None,
        modifier=flat.modifier if has_offer else None,
        color=Color(flat.color) if has_offer else None,
    )


def raise_for(status: int, call: str, refusal: Optional[_abi.mezulobu_refusal] = None) -> None:
    """Raises what a status says that isn't DONE."""
    if status == Status.NO_MEMORY:
        raise MemoryError(call)
    if refusal is not None and status == Status.NO:
        raise NoSettings(refusal_of(refusal))
    if refusal is not None and status == Status.REFUSED:
        raise Refused(refusal_of(refusal))
    if status != Status.DONE:
        raise OtherVersion(f"{call}: status {status}")
