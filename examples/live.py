#!/usr/bin/env python3
"""live.c in Python: a compositor whose event loop is asyncio's, a camera and an encoder on threads, a recorder that comes late, and an encoder that is in the way.

It needs the package of bindings/python, and finds the library as that page says.
"""
import asyncio
import threading

from mezulobu import Color, Entry, Heap, Pair, Participant, Platform, Size, Usage, run
from mezulobu.live import Allocator, CallRefused

PLATFORM = Platform([Heap(cpu=True, ram=True), Heap(contiguous=True, cpu=True, ram=True)], [Pair("NV12")], [Color.REC709])


def asking(usage, camping, least=Size(), most=Size(), blocks=1, **more):
    """A participant that takes images of NV12 from one size to another, in blocks of so many pixels."""
    images = Entry("NV12", Color.REC709, min_size=least, max_size=most, size_alignment=Size(blocks, blocks))
    return Participant(usage, ram=True, camping=camping, entries=[images], **more)


def bound(token, name):
    """The collection of a token, under this name."""
    token.set_name(name)
    return token.bind()


def take_part(token, name, asked, outcomes):
    """A participant on a thread of its own."""
    with bound(token, name) as mine:
        try:
            mine.set_constraints(asked)
            mine.wait()
            outcomes[name] = "DONE"
        except CallRefused as why:
            outcomes[name] = why.status.name


async def is_told(name, collection):
    """Tells what was decided for a collection, once it is, and whether there are settings."""
    try:
        settings = await collection.chosen()
    except CallRefused as why:
        print(f"{name}: {why.status.name}")
        return False
    image = settings.image
    print(f"{name}: {settings.count} buffers of {settings.bytes} bytes in heap {settings.heap}, {image.width}x{image.height}, pitch {image.layout.planes[0].pitch}")
    return True


def explain(collection):
    """Who is in the way, the explanation, and what the script says when it is run again."""
    if why := collection.refusal():
        print(f"the {collection.name_of(why.who)} is in the way by {why.field_name}")
    print(collection.explain(), end="")
    report = run(collection.script().encode())
    print("replayed:", next(line for line in report.splitlines() if line.startswith("domain")))


async def share(allocator, most):
    """One collection of buffers, with an encoder of images that are at most so large."""
    outcomes, threads = {}, []
    asked = {"camera": asking(Usage.VIDEO, 3, least=Size(1920, 1080)), "encoder": asking(Usage.VIDEO, 2, most=most, blocks=16)}
    with allocator.allocate_shared() as root, bound(root.duplicate(), "display") as display:
        for name, participant in asked.items():
            threads.append(threading.Thread(target=take_part, args=(root.duplicate(), name, participant, outcomes)))
            threads[-1].start()
        root.release()
        # It leaves room for one who comes later.
        display.set_constraints(asking(Usage.DISPLAY, 2, contiguous=True, min_count=8))
        if await is_told("display", display):
            with bound(display.attach_token(), "recorder") as recorder:
                recorder.set_constraints(Participant(Usage.VIDEO, ram=True, camping=1))
                await is_told("recorder", recorder)
        else:
            explain(display)
        for thread in threads:
            thread.join()
    print(", ".join(f"{name}: {outcomes[name]}" for name in asked))


def main():
    with Allocator(PLATFORM) as allocator:
        for most in (Size(), Size(1280, 720)):
            asyncio.run(share(allocator, most))


main()
