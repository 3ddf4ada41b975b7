"""What the caller states: the platform, and what each participant asks for. A number that is 0 says nothing, as in mezulobu.h."""
from __future__ import annotations

import collections.abc
import ctypes
import operator
from dataclasses import dataclass, fields
from typing import Any, Iterable, NamedTuple, Optional, Sequence, Type, TypeVar, Union

from . import _abi
from .codes import Color, Usage

Kind = TypeVar("Kind")
Format = Union[int, str]
"""A DRM format: its number, or its four letters, as "NV12"."""


class FourCC(int):
    """The number of a DRM format, which prints as its four letters."""

    def __repr__(self) -> str:
        letters = self.to_bytes(4, "little")
        return letters.decode() if all(32 <= it < 127 for it in letters) else hex(self)

    __str__ = __repr__


class Size(NamedTuple):
    """A width and a height in pixels."""

    width: int = 0
    height: int = 0


@dataclass(frozen=True)
class Heap:
    """A heap, which is named by its index on the platform. At least one of the three coherency domains is true."""

    contiguous: bool = False
    secure: bool = False
    cpu: bool = False
    ram: bool = False
    inaccessible: bool = False


@dataclass(frozen=True)
class Pair:
    """A format in a modifier, DRM_FORMAT_MOD_*, of which 0 is linear."""

    format: Format
    modifier: int = 0


@dataclass(frozen=True)
class Platform:
    """What the allocator offers. Each list is in the order of preference, isn't empty, and has no item twice."""

    heaps: Sequence[Heap]
    pairs: Sequence[Pair]
    colors: Sequence[Color]


@dataclass(frozen=True)
class Entry:
    """One image format that a participant takes, and its bounds on such images. A format or a modifier that is None is any.

    max_size bounds the image with all that alignments add, those of others too: who has one mode alone states it as min_size.

    Scripts, refusals and explanations have other names for some: rows_end_at_pixels is require_bytes_per_row_at_pixel_boundary; min_pitch, max_pitch,
    pitch_divisor and offset_divisor are min_bytes_per_row, max_bytes_per_row, bytes_per_row_divisor and start_offset_divisor; max_pixels is
    max_width_times_height.
    """

    format: Optional[Format]
    colors: Color
    modifier: Optional[int] = 0
    rows_end_at_pixels: bool = False
    min_size: Size = Size()
    max_size: Size = Size()
    size_alignment: Size = Size()
    min_pitch: int = 0
    max_pitch: int = 0
    pitch_divisor: int = 0
    offset_divisor: int = 0
    display_rect_alignment: Size = Size()
    required_min_size: Size = Size()
    required_max_size: Size = Size()
    max_pixels: int = 0


@dataclass(frozen=True)
class Participant:
    """What a participant asks for. Without entries it takes every offer. Bit i of heaps permits heap i; 0 permits each.

    Of the coherency domains cpu, ram and inaccessible it takes those that are true, and no other; where none is, cpu. A script's record takes cpu too, unless
    it says no.

    Scripts, refusals and explanations have longer names: contiguous and secure are physically_contiguous_required and secure_required, a domain as cpu
    cpu_domain_supported; camping is min_buffer_count_for_camping, and so are the slacks; min_count and max_count are min_buffer_count and max_buffer_count,
    min_bytes and max_bytes min_size_bytes and max_size_bytes, heaps permitted_heaps, and entries image_format_constraints.
    """

    usage: Usage
    contiguous: bool = False
    secure: bool = False
    cpu: bool = False
    ram: bool = False
    inaccessible: bool = False
    camping: int = 0
    dedicated_slack: int = 0
    shared_slack: int = 0
    min_count: int = 0
    max_count: int = 0
    min_bytes: int = 0
    max_bytes: int = 0
    heaps: int = 0
    entries: Sequence[Entry] = ()


def fourcc(format: Format) -> int:
    """The number of a format."""
    if isinstance(format, int):
        return format
    if not isinstance(format, str):
        raise TypeError(f"format: {told(format)} is neither a number nor four letters")
    if len(format) != 4 or not format.isascii():
        raise ValueError(f"a DRM format has four letters: {format!r}")
    return int.from_bytes(format.encode(), "little")


def told(value: Any) -> str:
    """A wrong value, or of a long one what it is."""
    return repr(value) if len(repr(value)) <= 40 else f"a {type(value).__name__}"


def number(name: str, value: Any, bits: int) -> int:
    """A number that fits, since ctypes would cut it silently."""
    try:
        made = operator.index(value)
    except TypeError:
        raise TypeError(f"{name}: {told(value)} is no integer") from None
    if not 0 <= made < 1 << bits:
        raise OverflowError(f"{name}: {value} doesn't fit {bits} bits")
    return made


def a(kind: Type[Kind], name: str, value: Any) -> Kind:
    """What has to be of a kind."""
    if not isinstance(value, kind):
        raise TypeError(f"{name}: {told(value)} is no {kind.__name__}")
    return value


def listed(kind: Type[Kind], name: str, values: Any) -> Sequence[Kind]:
    """A list of what has to be of a kind."""
    if not isinstance(values, collections.abc.Sequence):
        raise TypeError(f"{name}: {told(values)} is no list of {kind.__name__}")
    return [a(kind, name, it) for it in values]


def _array(kind: Any, items: Iterable[Any]) -> Any:
    """An array of C."""
    made = list(items)
    return (kind * len(made))(*made)


def put(flat: ctypes.Structure, name: str, value: Any) -> None:
    """Puts a value into a member of a struct, as wide as the member is."""
    kind = dict(flat._fields_)[name]
    if kind is _abi.mezulobu_size:
        if not isinstance(value, (tuple, list)) or len(value) != 2:
            raise TypeError(f"{name}: {told(value)} is no Size")
        value = kind(*(number(name, it, 32) for it in value))
    elif kind is ctypes.c_bool:
        a(bool, name, value)
    else:
        value = number(name, value, 8 * ctypes.sizeof(kind))
    setattr(flat, name, value)


def put_all(flat: ctypes.Structure, stated: Any, *apart: str) -> None:
    """Puts each field of a dataclass into the member of the same name, but for those that are put apart."""
    for it in fields(stated):
        if it.name not in apart:
            put(flat, it.name, getattr(stated, it.name))


def flat_heap(heap: Heap) -> _abi.mezulobu_heap:
    flat = _abi.mezulobu_heap()
    put_all(flat, heap)
    return flat


def flat_pair(pair: Pair) -> _abi.mezulobu_pair:
    flat = _abi.mezulobu_pair()
    put(flat, "format", fourcc(pair.format))
    put(flat, "modifier", pair.modifier)
    return flat


def flat_entry(entry: Entry) -> _abi.mezulobu_entry:
    flat = _abi.mezulobu_entry(ctypes.sizeof(_abi.mezulobu_entry))
    put_all(flat, entry, "format", "modifier")
    put(flat, "format", 0 if entry.format is None else fourcc(entry.format))
    put(flat, "modifier", 0 if entry.modifier is None else entry.modifier)
    flat.any_format, flat.any_modifier = entry.format is None, entry.modifier is None
    return flat


def flat_participant(stated: Participant) -> _abi.mezulobu_participant:
    a(Participant, "a participant", stated)
    flat = _abi.mezulobu_participant(ctypes.sizeof(_abi.mezulobu_participant))
    put_all(flat, stated, "entries")
    entries = _array(_abi.mezulobu_entry, map(flat_entry, listed(Entry, "entries", stated.entries)))
    # What is assigned is kept alive by the struct.
    flat.entries, flat.n_entries = entries, len(entries)
    return flat


def flat_platform(stated: Platform) -> _abi.mezulobu_platform:
    a(Platform, "the platform", stated)
    heaps = _array(_abi.mezulobu_heap, map(flat_heap, listed(Heap, "heaps", stated.heaps)))
    pairs = _array(_abi.mezulobu_pair, map(flat_pair, listed(Pair, "pairs", stated.pairs)))
    colors = _array(ctypes.c_uint32, (number("colors", it, 32) for it in listed(int, "colors", stated.colors)))
    flat = _abi.mezulobu_platform(ctypes.sizeof(_abi.mezulobu_platform))
    flat.heaps, flat.n_heaps = heaps, len(heaps)
    flat.pairs, flat.n_pairs = pairs, len(pairs)
    flat.colors, flat.n_colors = ctypes.cast(colors, ctypes.POINTER(ctypes.c_uint32)), len(colors)
    return flat
