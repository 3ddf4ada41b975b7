"""Buffers that camera, codec, GPU and display drivers share: how many, in which memory, and holding which image.

A platform says what there is, each participant what it takes; `negotiate` gives the best settings that all of them allow, or raises
`NoSettings`, whose refusal says who is in the way, and in which field. Any thread may call at any time.
"""
from .chosen import Error, Image, Layout, NegotiationError, NoSettings, OtherVersion, Plane, Refusal, Refused, Settings
from .codes import Coherency, Color, Field, Kind, Status, Usage
from .negotiation import negotiate, planes, version
from .stated import Entry, Format, Heap, Pair, Participant, Platform, Size
from .texts import Answer, Explanation, Outcome, ScriptRefused, check, explain, run, run_with_certificate

__all__ = [
    "Answer", "Coherency", "Color", "Entry", "Error", "Explanation", "Field", "Format", "Heap", "Image", "Kind", "Layout",
    "NegotiationError", "NoSettings", "OtherVersion", "Outcome", "Pair", "Participant", "Plane", "Platform", "Refusal", "Refused",
    "ScriptRefused", "Settings", "Size", "Status", "Usage", "check", "explain", "negotiate", "planes", "run", "run_with_certificate",
    "version",
]

if version()[0] != 1:
    raise ImportError(f"libmezulobu has another major number: {version()}")
