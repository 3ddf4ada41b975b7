"""Collections that live, beside what a run of the script that they write decides."""
import asyncio
import dataclasses
import fractions
import gc
import json
import math
import select
import threading
import unittest
import warnings
from typing import Any

import mezulobu
from mezulobu import Color, Entry, Field, Heap, Kind, Pair, Participant, Platform, Size, Status, Usage, live

PLATFORM = Platform([Heap(cpu=True, ram=True)], [Pair("NV12")], [Color.REC709])
RECORD = b'{"heaps":[{"heap_type":"ram","domains":["cpu"]}],"pairs":[{"pixel_format":"NV12"}],"color_spaces":["REC709"]}'

NO_JSON = """no JSON
 --> record:1:2
  |
1 | {
  |  ^ expected a key, found the end
  = the text ends here; still open: the { of line 1, column 1"""
NO_USAGE = """S5 usage
 --> record:1:10: usage
  |
1 | {"usage":[]}
  |          ^^ the list is empty
  = allowed: a list of none alone, or of one or more of cpu, vulkan, display and video"""


def asked(camping: int, max_size: Size = Size(), min_count: int = 0) -> Participant:
    entry = Entry("NV12", Color.REC709, min_size=Size(64, 64), max_size=max_size)
    return Participant(Usage.VIDEO, camping=camping, min_count=min_count, entries=[entry])


def both() -> "list[live.Collection]":
    """Two collections of one that is made, and whose root is released."""
    with live.Allocator(PLATFORM) as allocator, allocator.allocate_shared() as root:
        tokens = [root.duplicate(), root.duplicate()]
        root.release()
    return [token.bind() for token in tokens]


# What statuses say, by the names that reports have.
WORDS = {
    Status.MISUSED: "misused: ",
    Status.REFUSED: "refused: ",
    Status.WRONG_STATE: "E2 WrongState: ",
    Status.TOO_MANY_NODES: "E3 TooManyNodes: ",
    Status.NO_CHILDREN: "E4 NoChildren: ",
    Status.NOT_SELECTED: "E5 NotSelected: ",
    Status.DOMAIN_FAILED: "E6 DomainFailed: ",
    Status.INTERSECTION_EMPTY: "E7 ConstraintsIntersectionEmpty: ",
}


class Live(unittest.TestCase):
    def refused(self, status: Status, call: "object", *words: "object") -> live.CallRefused:
        """A bound method, which names its call and, by its handle, its node."""
        with self.assertRaises(live.CallRefused) as caught:
            call(*words)  # type: ignore[operator]
        why = caught.exception
        name, node = call.__name__, call.__self__.name  # type: ignore[attr-defined]
        self.assertEqual((why.status, why.call, why.node), (status, name, node))
        self.assertTrue(str(why).startswith(f"{name} of {node}: {WORDS[status]}"), str(why))
        return why

    def is_written(self, of: live.Collection, decision: str) -> None:
        """What is written is run to the same decision, and the certificate is right for it."""
        script, certificate = of.script_with_certificate()
        self.assertEqual(of.script(), script)
        self.assertIn(decision, mezulobu.run(script))
        self.assertTrue(mezulobu.check(script, certificate).is_right)

    def test_a_thread_waits_for_the_other(self) -> None:
        camera, encoder = both()
        found: "list[mezulobu.Settings]" = []
        with camera, encoder:
            camera.set_name("camera")
            camera.set_constraints(asked(2))
            self.assertIsNone(camera.check())
            with self.assertRaises(TimeoutError):
                camera.wait(0.01)
            waiting = threading.Thread(target=lambda: found.append(camera.wait()), daemon=True)
            waiting.start()
            encoder.set_constraints(asked(3))
            waiting.join(10)
            self.assertEqual((found[0].count, found[0].bytes), (5, 64 * 64 * 3 // 2))
            self.assertEqual((camera.check(), encoder.wait(0)), (found[0], found[0]))
            self.is_written(camera, "domain / chosen - count 5 ")
            self.assertEqual((camera.node, camera.name_of(1), camera.selection()), (1, "camera", ()))
            self.assertIn("camera", camera.explain())
            self.assertTrue(camera.explain(is_json=True).startswith("{"))
            self.assertEqual(select.select([camera], [], [], 0)[0], [camera])
            self.assertEqual((camera.name, encoder.name), ("camera", "n2"))
            why = self.refused(Status.MISUSED, camera.name_of, 9)
            self.assertEqual(str(why), "name_of of camera: misused: there is no node of that number")
            for name in ("root", "n7", "", "a\0b"):
                self.refused(Status.REFUSED, camera.set_name, name)

    def test_who_leaves_too_early_fails_the_domain(self) -> None:
        camera, encoder = both()
        with camera:
            with encoder:
                pass
            self.refused(Status.DOMAIN_FAILED, camera.check)
            self.refused(Status.DOMAIN_FAILED, camera.set_constraints, None)

    def test_a_spent_handle_is_told(self) -> None:
        camera, encoder = both()
        camera.close()
        camera.close()
        encoder.release()
        self.assertTrue(camera.is_spent and encoder.is_spent)
        self.assertEqual(repr(camera), "<Collection (spent)>")
        for call in (camera.check, camera.release, camera.script, encoder.release, encoder.fileno):
            with self.assertRaises(live.Spent):
                call()

    def test_who_spends_a_handle_ends_its_waits(self) -> None:
        camera, encoder = both()
        ended = threading.Event()

        def wait() -> None:
            try:
                camera.wait()
            except live.Spent:
                ended.set()

        waiting = threading.Thread(target=wait, daemon=True)
        with encoder:
            waiting.start()
            camera.release()
            self.assertTrue(ended.wait(10))

    def test_what_is_forgotten_is_closed_and_told(self) -> None:
        camera, encoder = both()
        with camera, warnings.catch_warnings(record=True) as said:
            warnings.simplefilter("always")
            del encoder
            gc.collect()
            self.assertEqual([str(it.message) for it in said], ["unclosed Collection"])
            self.refused(Status.DOMAIN_FAILED, camera.check)

    def test_who_is_in_the_way_is_told_by_its_node(self) -> None:
        camera, encoder = both()
        with camera, encoder:
            camera.set_constraints(asked(1))
            encoder.set_constraints(asked(1, Size(32, 32)))
            empty = self.refused(Status.INTERSECTION_EMPTY, camera.check)
            self.assertEqual(str(empty), "check of n1: E7 ConstraintsIntersectionEmpty: no settings meet everybody; explain says who is in the way")
            undecided = self.refused(Status.DOMAIN_FAILED, camera.attach_token)
            self.assertTrue(str(undecided).endswith(", or no settings were chosen; explain says which"))
            why = encoder.refusal()
            assert why is not None
            self.assertEqual((why.who, why.field, why.kind, why.alone), (encoder.node, Field.MAX_SIZE, Kind.OFFERS, True))
            self.is_written(camera, "domain / empty")

    def test_what_cannot_be_meant_is_refused(self) -> None:
        camera, encoder = both()
        with camera, encoder:
            with self.assertRaises(mezulobu.Refused) as caught:
                camera.set_constraints(Participant(Usage(0)))
            self.assertEqual((caught.exception.refusal.field, caught.exception.node), (Field.USAGE, "n1"))
            self.assertEqual(str(caught.exception), "set_constraints of n1: the participant: usage")
            camera.set_name("camera")
            for record, number, name, told in ((b"{", 0, "no JSON", NO_JSON), (b'{"usage":[]}', 5, "S5 BadUsage", NO_USAGE)):
                with self.assertRaises(live.RecordRefused) as fault:
                    camera.set_constraints_record(record)
                known = fault.exception
                self.assertEqual((known.number, known.call, known.node), (number, "set_constraints_record", "camera"))
                self.assertEqual((str(known), known.fault, known.text), (f"set_constraints_record of camera: {told}", name, told))
            camera.set_constraints_record(b'{"usage":["cpu"]}')
            self.refused(Status.WRONG_STATE, camera.set_constraints, None)
            encoder.set_constraints(None)
            self.assertEqual(camera.wait().count, 1)
            self.assertIsNone(camera.refusal())
        with self.assertRaisesRegex(live.RecordRefused, r"^Allocator: S3 heaps\n --> record:1:1: the record\n"):
            live.Allocator(b"{}")
        with self.assertRaises(mezulobu.Refused):
            live.Allocator(Platform([], [], []))

    def test_what_is_of_another_kind_is_told(self) -> None:
        camera, encoder = both()
        wrong: Any
        with camera, encoder:
            for wrong, told in (({"usage": ["video"]}, "{'usage': ['video']}"), (5, "5"), (None, "None"), ([123], "[123]"), ({1: "a" * 40}, "a dict")):
                with self.assertRaises(TypeError) as caught:
                    camera.set_constraints_record(wrong)
                self.assertEqual(str(caught.exception), f"set_constraints_record: the record: {told} is no str or bytes (json.dumps makes one)")
                with self.assertRaises(TypeError) as caught:
                    live.Allocator(wrong)
                self.assertEqual(str(caught.exception), f"Allocator: the platform: {told} is no Platform, str or bytes (json.dumps makes one)")
            for wrong in ("1", b"1", [1], math.nan):
                with self.assertRaises(TypeError) as caught:
                    camera.wait(wrong)
                self.assertEqual(str(caught.exception), f"wait: timeout: {wrong!r} is no number")
            self.assertIsNone(camera.check())
            for timeout in (0, 0.0, fractions.Fraction(1, 1000)):
                with self.assertRaises(TimeoutError):
                    camera.wait(timeout)  # type: ignore[arg-type]
            camera.set_constraints_record(bytearray(b'{"usage":["cpu"]}'))
            encoder.set_constraints(None)
            self.assertEqual(camera.wait(math.inf).count, 1)

    def test_a_handle_is_shown_by_its_name(self) -> None:
        with live.Allocator(PLATFORM) as allocator, allocator.allocate_shared() as root, root.duplicate() as token, root.create_group() as group:
            token.set_name("camera")
            self.assertEqual([repr(it) for it in (allocator, root, token, group)], ["<Allocator>", "<Token root>", "<Token camera>", "<Group n2>"])
            with token.bind() as camera:
                self.assertEqual([repr(token), repr(camera)], ["<Token (spent)>", "<Collection camera>"])

    def test_an_exception_that_leaves_fails_the_others_unless_it_was_released(self) -> None:
        for is_released, status in ((False, Status.DOMAIN_FAILED), (True, None)):
            camera, encoder = both()
            with camera:
                with self.assertRaises(KeyError), encoder:
                    if is_released:
                        encoder.release()
                    raise KeyError
                if status:
                    self.refused(status, camera.check)
                else:
                    camera.set_constraints(asked(2))
                    self.assertEqual(camera.wait(10).count, 2)

    def test_the_first_alternative_that_can_be_had_is_selected(self) -> None:
        with live.Allocator(PLATFORM) as allocator, allocator.allocate_shared() as root:
            with root.create_group() as group:
                group.set_name("either")
                self.refused(Status.NO_CHILDREN, group.all_children_present)
                first, second = (group.create_child().bind() for _ in range(2))
                why = self.refused(Status.WRONG_STATE, group.release)
                self.assertEqual(str(why), "release of either: E2 WrongState: a group is released after all_children_present")
                group.all_children_present()
                group.release()
            root.release()
        with first, second:
            first.set_constraints(asked(1, Size(32, 32)))
            second.set_constraints(asked(1))
            self.assertEqual((second.wait().count, second.selection()), (1, (1,)))
            self.refused(Status.NOT_SELECTED, first.check)

    def test_a_client_makes_no_more_than_its_host_allows(self) -> None:
        with live.Allocator(PLATFORM) as allocator, allocator.allocate_shared_limited(1) as root, root.duplicate() as client, root.duplicate() as other:
            self.assertRaises(OverflowError, allocator.allocate_shared_limited, -1)
            with client.duplicate() as friend:
                for maker in (client, friend):
                    self.refused(Status.TOO_MANY_NODES, maker.create_group)
                other.create_group().close()

    def test_the_token_of_a_group_is_awaited_too(self) -> None:
        for is_bound, stated, count in ((False, None, 2), (True, None, 2), (True, asked(0, min_count=7), 7)):
            with live.Allocator(PLATFORM) as allocator:
                camera = allocator.allocate_shared()
            with camera.create_group() as group:
                children = [group.create_child().bind() for _ in range(2)]
                group.all_children_present()
                group.release()
            for child in children:
                child.set_constraints(asked(2))
            self.assertIsNone(children[0].check())
            self.assertIn("awaits root /, a token", children[0].explain())
            if is_bound:
                bound = camera.bind()
                bound.set_constraints(stated)
                settings = bound.check()
                assert settings is not None
                self.assertEqual(settings.count, count)
                bound.release()
            else:
                camera.release()
            self.assertEqual((children[0].wait(10).count, children[0].selection()), (count, (0,)))
            self.refused(Status.NOT_SELECTED, children[1].check)
            for child in children:
                child.release()

    def test_a_struct_platform_has_its_heaps_by_their_index_in_records(self) -> None:
        heaps = [Heap(cpu=True), Heap(contiguous=True, cpu=True)]
        with live.Allocator(Platform(heaps, PLATFORM.pairs, PLATFORM.colors)) as allocator:
            for index in range(2):
                with allocator.allocate_shared().bind() as camera:
                    permitted = {"heap_type": "heap", "id": index}
                    camera.set_constraints_record(json.dumps({"usage": ["cpu"], "buffer_memory_constraints": {"permitted_heaps": [permitted]}}))
                    self.assertEqual(camera.wait(10).heap, index)

    def test_no_two_entries_have_one_pair(self) -> None:
        entry = Entry("NV12", Color.REC709)
        for either in (entry, dataclasses.replace(entry, format=None), dataclasses.replace(entry, modifier=None)):
            camera, encoder = both()
            with camera, encoder, self.assertRaises(mezulobu.Refused) as caught:
                camera.set_constraints(Participant(Usage.VIDEO, entries=[either, either]))
            self.assertEqual(caught.exception.refusal.field, Field.IMAGE_FORMAT_CONSTRAINTS)

    def test_a_late_participant_accepts_the_settings(self) -> None:
        with live.Allocator(RECORD) as allocator:
            camera = allocator.allocate_shared().bind()
        with camera:
            camera.set_constraints(asked(1, min_count=3))
            with camera.attach_token().bind() as late:
                late.set_constraints(asked(1))
                self.assertEqual(late.wait(), camera.check())


class Tasks(unittest.IsolatedAsyncioTestCase):
    async def test_a_task_waits_for_the_other(self) -> None:
        camera, encoder = both()
        with camera, encoder:
            camera.set_constraints(asked(2))
            waiting = asyncio.create_task(camera.chosen())
            await asyncio.sleep(0)
            encoder.set_constraints(asked(3))
            self.assertEqual((await waiting).count, 5)
            self.assertEqual(await encoder.chosen(), await camera.chosen())

    async def test_a_task_is_cancelled_and_told_of_refusals(self) -> None:
        camera, encoder = both()
        with camera:
            with self.assertRaises(asyncio.TimeoutError):
                await asyncio.wait_for(camera.chosen(), 0.01)
            waiting = asyncio.create_task(camera.chosen())
            await asyncio.sleep(0)
            encoder.close()
            with self.assertRaises(live.CallRefused):
                await waiting

    async def test_who_spends_a_handle_ends_its_tasks(self) -> None:
        camera, encoder = both()
        with encoder:
            waiting = asyncio.create_task(camera.chosen())
            await asyncio.sleep(0)
            camera.release()
            with self.assertRaises(live.Spent):
                await asyncio.wait_for(waiting, 10)


if __name__ == "__main__":
    unittest.main()
