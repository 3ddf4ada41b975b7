#!/usr/bin/env python3
"""alternatives.c in Python: a camera that makes NV12 or YUY2, and likes NV12 better, with an encoder that takes YUY2 alone, and then with one that takes any format.

It needs the package mezulobu, as its wheel has it.
"""
from mezulobu import Color, Entry, Heap, Pair, Participant, Platform, Size, Usage
from mezulobu.live import Allocator, CallRefused

PLATFORM = Platform([Heap(cpu=True)], [Pair("NV12"), Pair("YUYV")], [Color.REC709])


def taking_part(token, name, camping, drm):
    """The token takes part under this name, and asks for images of one format, or of any, for None."""
    token.set_name(name)
    mine = token.bind()
    mine.set_constraints(Participant(Usage.VIDEO, camping=camping, entries=[Entry(drm, Color.REC709, min_size=Size(1280, 720))]))
    return mine


def offer(camera):
    """The camera's alternatives, a child for each, the one that it likes best first."""
    either = camera.create_group()
    nv12, yuy2 = either.create_child(), either.create_child()
    either.all_children_present()
    either.release()
    made = taking_part(nv12, "nv12", 3, "NV12"), taking_part(yuy2, "yuy2", 3, "YUYV")
    # The camera's own token is awaited too, until it is given up.
    camera.release()
    return made


def tell(collection):
    try:
        settings = collection.check()
        print(f"{collection.name}: {settings.count} buffers of {settings.bytes} bytes")
    except CallRefused as why:
        print(f"{collection.name}: {why.status.name}")


def share(allocator, encoded):
    root = allocator.allocate_shared()
    nv12, yuy2 = offer(root.duplicate())
    encoder = root.duplicate()
    root.release()
    with nv12, yuy2, taking_part(encoder, "encoder", 2, encoded) as encoder:
        for it in (nv12, yuy2, encoder):
            tell(it)
        print(f"alternative {encoder.selection()[0]} was chosen")


with Allocator(PLATFORM) as allocator:
    share(allocator, "YUYV")
    share(allocator, None)
