"""The package beside values that were worked out by hand, the repository's examples, and the header.

    python3 -m unittest discover bindings/python/tests

LAYOUT names the program of bindings/layout.c, built over the installed header, and EXAMPLES the folder of examples.
"""
import ctypes
import dataclasses
import enum
import os
import subprocess
import sys
import unittest
from typing import Any

import mezulobu
from mezulobu import Coherency, Color, Entry, Field, Heap, Kind, Outcome, Pair, Participant, Plane, Platform, Size, Usage, _abi, codes, stated

BOTH = (Heap(cpu=True, ram=True), Heap(contiguous=True, cpu=True, ram=True))
PLATFORM = Platform(BOTH, (Pair("AB24"), Pair("NV12")), (Color.SRGB, Color.REC709))
CAPTURED = Entry("NV12", Color.REC709, min_size=Size(1440, 1080), pitch_divisor=64)
CAMERA = Participant(Usage.VIDEO, contiguous=True, cpu=True, ram=True, camping=4, entries=(CAPTURED,))
ENCODED = Entry("NV12", Color.REC709, max_size=Size(4096, 2304), size_alignment=Size(16, 16))
ENCODER = Participant(Usage.VIDEO, ram=True, camping=3, dedicated_slack=1, entries=(ENCODED,))
SHOWN = (Entry("AB24", Color.SRGB), Entry("NV12", Color.REC709 | Color.REC2020))
DISPLAY = Participant(Usage.DISPLAY, cpu=True, ram=True, camping=2, entries=SHOWN)
WIDTHS: "dict[object, int]" = {ctypes.c_uint8: 8, ctypes.c_uint32: 32, ctypes.c_uint64: 64}
# The members of structs that the package fills in itself.
OWN = {"struct_size", "reserved", "any_format", "any_modifier", "n_entries", "n_heaps", "n_pairs", "n_colors"}


def content(name: str) -> bytes:
    with open(os.path.join(os.environ["EXAMPLES"], name), "rb") as file:
        return file.read()


def told_by_ctypes() -> "list[str]":
    """What bindings/layout.c prints, as ctypes has it."""
    lines = []
    for name, struct in vars(_abi).items():
        if isinstance(struct, type) and issubclass(struct, ctypes.Structure):
            lines.append(f"{name} {ctypes.sizeof(struct)} {ctypes.alignment(struct)}")
            for member, *_ in struct._fields_:
                place = getattr(struct, member)
                lines.append(f"{name}.{member} {place.offset} {place.size}")
    return lines


class Layouts(unittest.TestCase):
    def test_structs_are_those_of_c(self) -> None:
        in_c = subprocess.run([os.environ["LAYOUT"]], stdout=subprocess.PIPE, text=True, check=True).stdout.splitlines()
        self.assertEqual(told_by_ctypes(), [line for line in in_c if not line.startswith("MEZULOBU_")])
        numbers = {name: int(value) for name, value in (line.split() for line in in_c if line.startswith("MEZULOBU_"))}
        kinds: "tuple[type[enum.Enum], ...]" = (codes.Status, codes.Usage, codes.Color, codes.Coherency, codes.Kind, codes.Field)
        for kind in kinds:
            for it in kind.__members__.values():
                names = [f"MEZULOBU_{begins}{it.name}" for begins in ("", "USE_", "COLOR_", "COHERENT_", "KIND_", "FIELD_")]
                values = [numbers.pop(name) for name in names if numbers.get(name) == it.value]
                self.assertEqual(len(values), 1, it)
        self.assertEqual(numbers, {"MEZULOBU_VERSION": _abi.VERSION, "MEZULOBU_NOBODY": _abi.NOBODY})

    def test_dataclasses_have_the_members(self) -> None:
        for name in ("Heap", "Pair", "Platform", "Entry", "Participant"):
            members = {member for member, *_ in getattr(_abi, f"mezulobu_{name.lower()}")._fields_} - OWN
            self.assertEqual({it.name for it in dataclasses.fields(getattr(mezulobu, name))}, members, name)


class Library(unittest.TestCase):
    def test_a_folder_without_it_is_told(self) -> None:
        env = {**os.environ, "MEZULOBU_LIB_DIR": os.path.dirname(os.path.abspath(__file__))}
        done = subprocess.run([sys.executable, "-c", "import mezulobu"], env=env, stderr=subprocess.PIPE, text=True)
        self.assertEqual(done.returncode, 1)
        self.assertRegex(done.stderr.splitlines()[-1], r"ImportError: .*tests/libmezulobu\.so\.1.*: set MEZULOBU_LIB_DIR to the folder")


class Widths(unittest.TestCase):
    """ctypes would cut what doesn't fit."""

    def refused(self, **numbers: Any) -> None:
        with self.assertRaises(OverflowError):
            mezulobu.negotiate(PLATFORM, [dataclasses.replace(CAMERA, **numbers)])

    def test_each_number_of_a_participant(self) -> None:
        for name, kind in _abi.mezulobu_participant._fields_:
            bits = WIDTHS.get(kind)
            if bits and name not in OWN:
                self.refused(**{name: 1 << bits})
                self.refused(**{name: -1})

    def test_each_number_of_an_entry(self) -> None:
        for name, kind in _abi.mezulobu_entry._fields_:
            bits = WIDTHS.get(kind)
            if kind is _abi.mezulobu_size:
                self.refused(entries=[dataclasses.replace(CAPTURED, **{name: Size(1 << 32, 1)})])
                self.refused(entries=[dataclasses.replace(CAPTURED, **{name: Size(1, -1)})])
            elif bits and name not in OWN:
                self.refused(entries=[dataclasses.replace(CAPTURED, **{name: 1 << bits})])

    def test_what_is_of_another_kind(self) -> None:
        """ctypes would take some of it for a number, and else say nothing of whose it is."""
        wrong: Any
        for name, wrong, said in (
            ("camping", 2.7, "camping: 2.7 is no integer"),
            ("camping", "7", "camping: '7' is no integer"),
            ("camping", None, "camping: None is no integer"),
            ("usage", "video", "usage: 'video' is no integer"),
            ("ram", "no", "ram: 'no' is no bool"),
            ("entries", CAPTURED, "entries: a Entry is no list of Entry"),
            ("entries", ["NV12"], "entries: 'NV12' is no Entry"),
            ("entries", [dataclasses.replace(CAPTURED, min_size=1920)], "min_size: 1920 is no Size"),
            ("entries", [dataclasses.replace(CAPTURED, min_size=(1.5, 2))], "min_size: 1.5 is no integer"),
            ("entries", [dataclasses.replace(CAPTURED, format=1.5)], "format: 1.5 is neither a number nor four letters"),
        ):
            with self.assertRaises(TypeError) as caught:
                mezulobu.negotiate(PLATFORM, [dataclasses.replace(CAMERA, **{name: wrong})])
            self.assertEqual(str(caught.exception), said)
        for platform, participants, said in (
            (PLATFORM, CAMERA, "participants: a Participant is no list of Participant"),
            (PLATFORM, [{}], "participants: {} is no Participant"),
            ({}, [CAMERA], "the platform: {} is no Platform"),
            (Platform([{}], (), ()), [CAMERA], "heaps: {} is no Heap"),  # type: ignore[list-item]
        ):
            with self.assertRaises(TypeError) as caught:
                mezulobu.negotiate(platform, participants)  # type: ignore[arg-type]
            self.assertEqual(str(caught.exception), said)

    def test_a_format_prints_as_its_letters(self) -> None:
        image = mezulobu.negotiate(PLATFORM, [CAMERA]).image
        assert image is not None
        self.assertEqual((image.format, f"{image.format}", repr(image.format)), (0x3231564E, "NV12", "NV12"))
        self.assertEqual((str(stated.FourCC(0)), f"{stated.FourCC(1):x}"), ("0x0", "1"))

    def test_a_number_that_just_fits(self) -> None:
        flat = stated.flat_participant(dataclasses.replace(CAMERA, max_bytes=2**64 - 1, max_count=2**32 - 1))
        self.assertEqual((flat.max_bytes, flat.max_count), (2**64 - 1, 2**32 - 1))

    def test_pairs_colours_and_planes(self) -> None:
        for pairs, colors in (((Pair("NV12", 1 << 64),), (Color.SRGB,)), ((Pair("NV12"),), (1 << 32,))):
            with self.assertRaises(OverflowError):
                mezulobu.negotiate(Platform(BOTH, pairs, colors), [])  # type: ignore[arg-type]
        for words in (("NV12", 1 << 64, 64, 64), ("NV12", 0, 1 << 32, 64), ("NV12", 0, 64, -1)):
            with self.assertRaises(OverflowError):
                mezulobu.planes(*words)
        with self.assertRaises(ValueError):
            mezulobu.planes("NV123", 0, 64, 64)


class Negotiations(unittest.TestCase):
    def test_camera_encoder_and_display(self) -> None:
        """4 + 3 + 1 + 2 buffers in the contiguous heap; 1080 rises to 1088, and a row of 1440 bytes to 1472."""
        found = mezulobu.negotiate(PLATFORM, [CAMERA, ENCODER, DISPLAY])
        self.assertEqual((found.count, found.bytes, found.heap, found.coherency), (10, 2402304, 1, Coherency.RAM))
        image = found.image
        assert image is not None
        self.assertEqual((image.width, image.height, image.color, image.modifier), (1440, 1088, Color.REC709, 0))
        self.assertEqual(image.layout.planes, (Plane(0, 1088, 1472), Plane(1601536, 544, 1472)))
        self.assertEqual(mezulobu.planes("NV12", 0, 1472, 1088), image.layout)
        self.assertIsNone(mezulobu.planes(0, 0, 64, 64))

    def test_nobody_gets_one_buffer_of_one_byte(self) -> None:
        self.assertEqual(mezulobu.negotiate(PLATFORM, []), mezulobu.Settings(1, 1, 0, Coherency.CPU, None))

    def test_an_encoder_of_small_images_is_in_the_way(self) -> None:
        small = dataclasses.replace(ENCODER, entries=[dataclasses.replace(ENCODED, max_size=Size(640, 480))])
        with self.assertRaises(mezulobu.NoSettings) as caught:
            mezulobu.negotiate(PLATFORM, [CAMERA, small])
        why = caught.exception.refusal
        self.assertEqual((why.who, why.field, why.kind, why.alone), (1, Field.MAX_SIZE, Kind.OFFERS, False))
        self.assertEqual((why.format, why.color, why.heap), (stated.fourcc("NV12"), Color.REC709, 1))
        self.assertEqual(str(caught.exception), "participant 1: max_size")

    def test_what_is_not_offered_is_in_the_way_alone(self) -> None:
        other = dataclasses.replace(ENCODER, entries=[Entry("YV12", Color.REC709)])
        with self.assertRaisesRegex(mezulobu.NoSettings, "participant 0: pixel_format, even alone"):
            mezulobu.negotiate(PLATFORM, [other])

    def test_what_cannot_be_meant_is_refused(self) -> None:
        with self.assertRaises(mezulobu.Refused) as caught:
            mezulobu.negotiate(PLATFORM, [CAMERA, Participant(Usage(0))])
        self.assertEqual((caught.exception.refusal.who, caught.exception.refusal.field), (1, Field.USAGE))
        with self.assertRaisesRegex(mezulobu.Refused, "the platform: heaps"):
            mezulobu.negotiate(Platform((), PLATFORM.pairs, PLATFORM.colors), [])
        with self.assertRaises(mezulobu.Refused) as caught:
            mezulobu.negotiate(PLATFORM, [Participant(Usage.CPU)] * 1025)
        self.assertEqual(caught.exception.refusal.kind, Kind.TOO_MANY)

    def test_any_format_is_left_to_the_others(self) -> None:
        found = mezulobu.negotiate(PLATFORM, [dataclasses.replace(ENCODER, entries=[Entry(None, Color.REC709, modifier=None)]), CAMERA])
        assert found.image is not None
        self.assertEqual(found.image.format, stated.fourcc("NV12"))


class Texts(unittest.TestCase):
    def test_a_script_has_its_report_and_its_certificate(self) -> None:
        for name in ("camera_nv12_stride_64", "late_screen_recorder", "secure_video"):
            script, report, proof = (content(f"{name}.{kind}") for kind in ("json", "out", "proof"))
            self.assertEqual(mezulobu.run(script), report.decode())
            self.assertEqual(mezulobu.run_with_certificate(script.decode()), (report.decode(), proof))
            answer = mezulobu.check(script, proof)
            self.assertTrue(answer.is_right and answer.text.startswith("yes "))

    def test_a_certificate_of_another_script_is_not_right(self) -> None:
        answer = mezulobu.check(content("secure_video.json"), content("one_participant.proof"))
        self.assertFalse(answer.is_right)
        self.assertTrue(answer.text.startswith("no "))
        with self.assertRaisesRegex(mezulobu.ScriptRefused, "proof refused"):
            mezulobu.check(content("secure_video.json"), b"{")

    def test_a_script_that_is_none_is_refused(self) -> None:
        with self.assertRaisesRegex(mezulobu.ScriptRefused, "script refused: Q2"):
            mezulobu.run(b"{")

    def test_explanations_say_how_a_script_went(self) -> None:
        cases = (("one_participant", Outcome.ALL_WELL), ("camera_too_wide_for_encoder", Outcome.NOT_ALL_WELL))
        for name, outcome in cases:
            self.assertIs(mezulobu.explain(content(name + ".json"), "file.json").outcome, outcome)
        faulty = mezulobu.explain("{", "broken.json")
        self.assertIs(faulty.outcome, Outcome.FAULTY)
        self.assertIn("broken.json:1", faulty.text)
        objects = mezulobu.explain(content("one_participant.json"), is_json=True).text.splitlines()
        self.assertTrue(all(line.startswith("{") for line in objects))

    def test_what_is_no_script_is_told(self) -> None:
        wrong: Any
        is_none = "is no str or bytes (json.dumps makes one)"
        for name, call in (("run", mezulobu.run), ("run_with_certificate", mezulobu.run_with_certificate), ("explain", mezulobu.explain)):
            for wrong in (5, None, {"calls": []}, [123, 125]):
                with self.assertRaises(TypeError) as caught:
                    call(wrong)  # type: ignore[operator]
                self.assertEqual(str(caught.exception), f"{name}: the script: {wrong!r} {is_none}")
        for script, certificate, said in (
            ({}, b"", f"the script: {{}} {is_none}"),
            ("{}", 5, "the certificate: 5 is no bytes"),
            ("{}", "{}", "the certificate: '{}' is no bytes"),
        ):
            with self.assertRaises(TypeError) as caught:
                mezulobu.check(script, certificate)  # type: ignore[arg-type]
            self.assertEqual(str(caught.exception), f"check: {said}")
        given, proof = content("secure_video.json"), content("secure_video.proof")
        self.assertTrue(mezulobu.check(bytearray(given), memoryview(proof)).is_right)

    def test_a_long_report_is_whole(self) -> None:
        checks = ',{"call":"check","on":"root"}' * 4094
        report = mezulobu.run(content("one_participant.json").decode().rstrip().replace("}]}", "}" + checks + "]}"))
        self.assertGreater(len(report), 1 << 16)
        self.assertEqual(len(report.splitlines()), 4096 + 1)


if __name__ == "__main__":
    unittest.main()
