"""The layout of a store, for the checks, the benchmarks and the tests: what the module `lapyrei`
reads of it (python/lapyrei/layout.py), and here what is written, what an image in memory reads as,
and what `list` and `export` answer of it. It was written from docs/layout.md, docs/recovery.md,
docs/order-of-writes.md and docs/y4m.md, and not from the program: the checks compare the two.
`python3 tools/layout.py FILE` says what a file reads as, as `loop_cli list` prints it."""
import os
import struct
import sys
from collections import namedtuple

# An installed one has the module beside it.
sys.path.insert(1, os.path.join(os.path.dirname(os.path.realpath(__file__)), "..", "python"))
from lapyrei.layout import (  # noqa: E402,F401
    BITS_AT,
    BLOCK_AT,
    CLIPS,
    CLOSED,
    COLOURS,
    DIVIDED,
    ENTRY,
    FRONT,
    GATES_AT,
    HEAD,
    HEADER,
    MAGIC,
    MONOTONIC,
    NUMBERS_END,
    OPEN,
    SLOT_HEAD,
    SUPER,
    SUPERBLOCK,
    TRIES,
    U64_END,
    VERSION_AT,
    Frame,
    Geometry,
    Refused,
    Segment,
    Store,
    Unsteady,
    bits_of,
    check_clips,
    check_segments,
    clips_in,
    frame_bytes,
    longest_step,
    meets,
    next_number,
    planes_of,
    read_frames,
    read_geometry,
    read_heads,
    read_once,
    read_slots,
    read_store,
    runs_of,
    same_blocks,
    segments_of,
    text_front,
    victim,
)


def geometry_of(width, height, form, num, den, segments, slots):
    """A geometry with its frame's bytes."""
    return Geometry(
        width, height, form, num, den, segments, slots, frame_bytes(width, height, form)
    )


# -----------------------------------------------------------------------------------------------
# what is written


def superblock(geometry, version=2):
    """The first 512 bytes of a store."""
    front = (
        bytes([OPEN])
        + MAGIC
        + SUPERBLOCK.pack(1, *geometry)
        + bytes([OPEN if version == 2 else CLOSED])
    )
    return front.ljust(SUPER, b"\0")


def fresh(geometry, version=2):
    """An empty store."""
    return superblock(geometry, version).ljust(geometry.disk_size(), b"\0")


def header(block, whole=0):
    """The header of an open segment, with the gates of so many frames open."""
    front = bytes([OPEN]).ljust(BLOCK_AT, b"\0") + struct.pack("<Q", block)
    return (front.ljust(GATES_AT, b"\0") + bytes([OPEN]) * whole).ljust(HEADER, b"\0")


def head(number, sequence, moment, size, bits=0):
    """The head of a slot, whose frame's samples have so many bits where they are more than 8."""
    return SLOT_HEAD.pack(number, sequence, MONOTONIC | bits << BITS_AT, moment, size, 0)


def entry_at(index):
    """Where the entry of a clip begins."""
    return SUPER + ENTRY * index


def entry(first, last, tag):
    """The open entry of a clip."""
    return bytes([OPEN]).ljust(8, b"\0") + struct.pack("<QQQ", first, last, tag)


def write_store(file, geometry, count, pixels=None, version=1):
    """Writes a store of the first so many frames into a file that is open. `pixels` makes the bytes
    of a number's frame; without it they stay as the file has them. Each frame comes a period after
    the one before it."""
    period = 1_000_000 * geometry.den // geometry.num
    file.truncate(geometry.disk_size())
    file.seek(0)
    file.write(superblock(geometry, version).ljust(FRONT, b"\0"))
    for block in range(-(-count // geometry.slots)):
        whole = min(geometry.slots, count - block * geometry.slots)
        file.seek(geometry.segment_at(block))
        file.write(header(block, whole))
        for slot in range(whole):
            number = block * geometry.slots + slot
            file.seek(geometry.slot_at(block, slot))
            file.write(
                head(number, number, number * period, geometry.size)
                + (pixels(number) if pixels else b"")
            )


class Ring:
    """A ring whose calls are made on an image, a write at a time, in the recorder's order."""

    def __init__(self, width, height, form, segments, slots, write=None, version=2):
        self.geometry, self.version = (
            geometry_of(width, height, form, 25, 1, segments, slots),
            version,
        )
        self.image = bytearray(fresh(self.geometry, version))
        self.write = write or self.put
        self.blocks: list = [None] * segments
        self.clips = {}
        self.next = 0
        self.sequence = 0
        # The time of the frame before the first one, and of each frame that was ever stored.
        self.time = -40000
        self.times = {}

    def put(self, at, data):
        """A write into the image."""
        self.image[at : at + len(data)] = data

    def begin(self):
        """Makes room for the block of the next number. Answers whether there is some."""
        slots = self.geometry.slots
        if None not in self.blocks:
            removed = victim(self.blocks, self.clips.values(), slots)
            if removed is None:
                return False
            index = self.blocks.index(removed)
            self.write(self.geometry.segment_at(index), bytes([CLOSED]))
            self.blocks[index] = None
        index, block = self.blocks.index(None), self.next // slots
        self.write(self.geometry.segment_at(index) + 1, header(block)[1:])
        self.write(self.geometry.segment_at(index), bytes([OPEN]))
        self.blocks[index] = block
        return True

    def store(self, step=1, wait=40000):
        """Appends a frame, whose sequence and time are so far after the last one's. Answers whether
        it was stored."""
        slots, size = self.geometry.slots, self.geometry.size
        if self.next % slots == 0 and not self.begin():
            return False
        index, slot = self.blocks.index(self.next // slots), self.next % slots
        self.sequence = (self.sequence + step) % (1 << 32)
        self.time += wait
        self.times[self.next] = self.time
        pixels = bytes((self.next + i) % 256 for i in range(size))
        self.write(
            self.geometry.slot_at(index, slot),
            head(self.next, self.sequence, self.time, size) + pixels,
        )
        self.write(self.geometry.segment_at(index) + GATES_AT + slot, bytes([OPEN]))
        self.next += 1
        return True

    def held(self):
        """The held numbers."""
        slots, blocks = self.geometry.slots, [it for it in self.blocks if it is not None]
        return [n for b in blocks for n in range(b * slots, min((b + 1) * slots, self.next))]

    def lock(self, first, last, tag):
        """Locks frames that are held, under the least free id. In version 1 the tag is 0."""
        index = min(i for i in range(CLIPS + 1) if i not in self.clips)
        if index < CLIPS:
            self.write(entry_at(index) + 1, entry(first, last, tag if self.version == 2 else 0)[1:])
            self.write(entry_at(index), bytes([OPEN]))
            self.clips[index] = (first, last)

    def unlock(self, index):
        """Takes a clip away."""
        self.write(entry_at(index), bytes([CLOSED]))
        del self.clips[index]


# -----------------------------------------------------------------------------------------------
# what is read

Recording = namedtuple("Recording", "geometry version next frames clips")


def headers(image, geometry):
    """The block of each open segment and how many of its frames are whole, by segment."""
    segments = segments_of(read_heads(lambda at, count: image[at : at + count], geometry), geometry)
    return {segment.place: (segment.block, segment.whole) for segment in segments if segment.open}


def read(image):
    """What an image reads as: a recording with its pixels, or why it is refused."""
    try:
        store = read_once(lambda at, count: image[at : at + count], len(image))
    except Refused as refused:
        return refused
    geometry, frames = store.geometry, {}
    for segment in store.segments:
        for slot in range(segment.whole if segment.open else 0):
            at = geometry.slot_at(segment.place, slot) + HEAD
            frames[segment.block * geometry.slots + slot] = image[at : at + geometry.size]
    return Recording(geometry, store.version, store.next, frames, store.clips)


# -----------------------------------------------------------------------------------------------
# what is answered


def listed(recording):
    """A recording as `list` prints it."""
    lines = [f"next {recording.next}"] + [
        f"frames {first}..{last}" for first, last in runs_of(sorted(recording.frames))
    ]
    lines += [
        f"clip {index} {first}..{last}" + (f" tag {tag}" if tag else "")
        for index, first, last, tag in recording.clips
    ]
    return "\n".join(lines) + "\n"


def answer(found):
    """The status, the output and the other output of `list` for what an image reads as."""
    return (1, "", found.text + "\n") if isinstance(found, Refused) else (0, listed(found), "")


def text_of(recording, first, last):
    """The frames of an export from one number to another, as docs/y4m.md has them: a header and a
    line `FRAME` before each."""
    return text_front(recording.geometry) + b"".join(
        b"FRAME\n" + recording.frames[number]
        for number in sorted(recording.frames)
        if first <= number <= last
    )


def main():
    """Says what a file reads as."""
    with open(sys.argv[1], "rb") as file:
        status, printed, told = answer(read(file.read()))
    sys.stdout.write(printed)
    sys.stderr.write(told)
    return status


if __name__ == "__main__":
    sys.exit(main())
