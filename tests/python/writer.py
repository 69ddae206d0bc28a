"""Stores frames of one byte, that of their number, in a ring, as fast as it can, until its input
ends: writer.py STORE WIDTH HEIGHT SEGMENTS SLOTS. Each write is made in pieces, as a disk may."""
import os
import select
import sys

import conftest  # noqa: F401
import layout

PIECE = 4096


def store(ring, write):
    """Appends a frame of one byte, whose value is its number."""
    slots, size = ring.geometry.slots, ring.geometry.size
    ring.write = write
    if ring.next % slots == 0:
        assert ring.begin()
    index, slot = ring.blocks.index(ring.next // slots), ring.next % slots
    head = layout.head(ring.next, ring.next, ring.next * 40000, size)
    write(ring.geometry.slot_at(index, slot), head + bytes([ring.next % 251]) * size)
    write(ring.geometry.segment_at(index) + layout.GATES_AT + slot, bytes([layout.OPEN]))
    ring.next += 1


def main():
    """Writes."""
    path, *numbers = sys.argv[1:]
    width, height, segments, slots = map(int, numbers)
    ring = layout.Ring(width, height, b"GREY", segments, slots)
    with open(path, "wb") as file:
        file.write(ring.image)
    file = os.open(path, os.O_RDWR)

    def write(at, data):
        for place in range(0, len(data), PIECE):
            os.pwrite(file, data[place : place + PIECE], at + place)

    store(ring, write)
    print("ready", flush=True)
    while not select.select([0], [], [], 0)[0]:
        for _ in range(8):
            store(ring, write)
    print(ring.next, flush=True)


if __name__ == "__main__":
    main()
