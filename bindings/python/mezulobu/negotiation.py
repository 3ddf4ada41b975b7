"""A negotiation of participants without a script."""
from __future__ import annotations

import ctypes
from typing import Optional, Sequence, Tuple

from . import _abi
from ._library import library
from .chosen import Layout, Settings, layout_of, raise_for, settings_of
from .codes import Status
from .stated import Format, Participant, Platform, flat_participant, flat_platform, fourcc, listed, number


def negotiate(platform: Platform, participants: Sequence[Participant]) -> Settings:
    """The best settings for participants on a platform. Their order is a ranking: those that can be done without stand last.

    Raises NoSettings, Refused, MemoryError, and OverflowError where a number doesn't fit its width.
    """
    each = listed(Participant, "participants", participants)
    flat = (_abi.mezulobu_participant * len(each))(*map(flat_participant, each))
    settings = _abi.mezulobu_settings(ctypes.sizeof(_abi.mezulobu_settings))
    refusal = _abi.mezulobu_refusal(ctypes.sizeof(_abi.mezulobu_refusal))
    status = library.mezulobu_negotiate(flat_platform(platform), flat, len(flat), settings, refusal)
    raise_for(status, "mezulobu_negotiate", refusal)
    return settings_of(settings)


def planes(format: Format, modifier: int, pitch: int, height: int) -> Optional[Layout]:
    """The layout of an image whose first plane has rows of pitch bytes, its height in pixels: None where there is no such format
    or modifier here, where tiles don't go with the format, or where the bytes don't fit 64 bits."""
    layout = _abi.mezulobu_layout()
    words = (number("format", fourcc(format), 32), number("modifier", modifier, 64), number("pitch", pitch, 32), number("height", height, 32))
    status = library.mezulobu_planes(*words, layout)
    return layout_of(layout) if status == Status.DONE else None


def version() -> Tuple[int, int]:
    """The version of the library: major and minor number."""
    return divmod(int(library.mezulobu_version()), 1 << 16)
