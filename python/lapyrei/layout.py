"""The layout of a store: its places, how its bytes read, and which block is removed next. It was
written from docs/layout.md, docs/recovery.md and docs/y4m.md, and not from the program: the checks
compare the two. It needs nothing but Python. tools/layout.py has what is written besides."""
from __future__ import annotations

import os
import stat
import struct
import time
from collections import namedtuple
from collections.abc import Callable, Iterable, Sequence
from operator import attrgetter
from typing import NamedTuple

from .errors import CannotOpen, Damaged, NotFormatted, Refused, Unsettled

OPEN, CLOSED, MAGIC = 0xA5, 0, b"LOOPREC"
# The bytes of the superblock, of it with the clip table, of a segment's header, of a slot's head
# and of a clip's entry.
SUPER, FRONT, HEADER, HEAD, ENTRY = 512, 2560, 512, 32, 32
# Where the version's gate is in the superblock, and a segment's block and frame gates in its
# header; how many clips there are.
VERSION_AT, BLOCK_AT, GATES_AT, CLIPS = 44, 8, 256, 64
NUMBERS_END, U64_END = 2**62, 2**64
SUPERBLOCK, SLOT_HEAD = struct.Struct("<III4sIIIII"), struct.Struct("<QIIQII")
MONOTONIC = 0x2000
# Where a frame's flags say the bits of its samples, 0 for 8, and which there are.
BITS_AT, BITS_MASK, DEEP = 24, 31, range(9, 17)
# What stands in the flags of a frame that came while the station's program stood still.
LATE = 1 << 29
# How each format divides the planes of its colours, across and down, and what YUV4MPEG2 calls it.
DIVIDED: dict[bytes, tuple[int, int] | None] = {
    b"GREY": None,
    b"YM12": (2, 2),
    b"YM16": (2, 1),
    b"YM24": (1, 1),
}
COLOURS = {b"GREY": "mono", b"YM12": "420jpeg", b"YM16": "422", b"YM24": "444"}
# The same of more than 8 bits, which follow it.
DEEP_COLOURS = {b"GREY": "mono", b"YM12": "420p", b"YM16": "422p", b"YM24": "444p"}
# How often a store that changes meanwhile is read again.
TRIES = 200

ReadAt = Callable[[int, int], bytes]


def planes_of(width: int, height: int, form: bytes) -> list[int]:
    """The bytes of each plane of a frame: those of the colours round up."""
    divided = DIVIDED[form]
    colour = -(-width // divided[0]) * -(-height // divided[1]) if divided else 0
    return [width * height] + ([colour, colour] if divided else [])


def frame_bytes(width: int, height: int, form: bytes) -> int | None:
    """The bytes of a frame, or nothing for a format that isn't one."""
    return sum(planes_of(width, height, form)) if form in DIVIDED else None


def bits_of(flags: int) -> int:
    """The bits of a frame's samples, by its flags: 8, or 9 to 16 of a deep one, whose samples have
    two bytes each. Another number is answered as it stands there, and no frame has it."""
    return flags >> BITS_AT & BITS_MASK or 8


def is_late(flags: int) -> bool:
    """Whether a frame came while the station's program stood still, so that its time is late."""
    return flags & LATE != 0


class Geometry(namedtuple("Geometry", "width height format num den segments slots size")):
    """What a superblock says: `num` over `den` frames a second, and `size` bytes a frame."""

    __slots__ = ()

    def is_good(self) -> bool:
        """Whether it is within its limits, and says its frame's bytes right."""
        return bool(
            1 <= self.width <= 16384
            and 1 <= self.height <= 16384
            and self.num >= 1
            and self.den >= 1
            and 2 <= self.segments <= 64
            and 1 <= self.slots <= 256
            and 1 <= self.size <= 16777216
            and self.size == frame_bytes(self.width, self.height, self.format)
        )

    def rate(self) -> float:
        """Frames a second."""
        return float(self.num / self.den)

    def period(self) -> int:
        """Microseconds from a frame to the next, rounded down."""
        return int(1_000_000 * self.den // self.num)

    def segment_at(self, index: int) -> int:
        """Where a segment begins."""
        return int(FRONT + index * (HEADER + self.slots * (HEAD + self.size)))

    def slot_at(self, index: int, slot: int) -> int:
        """Where a slot of a segment begins."""
        return int(self.segment_at(index) + HEADER + slot * (HEAD + self.size))

    def disk_size(self) -> int:
        """The bytes of the whole disk."""
        return self.segment_at(self.segments)


def longest_step(geometry: Geometry) -> int:
    """A longer time between two frames is a hole, in microseconds: more than three frame periods,
    and than one and 0.2 s."""
    return max(3 * geometry.period(), geometry.period() + 200_000)


def meets(clips: Iterable[tuple[int, int]], block: int, slots: int) -> bool:
    """Whether a clip, each with its first and last number, has a number of a block."""
    return any(first // slots <= block <= last // slots for first, last in clips)


def victim(blocks: Iterable[int], clips: Iterable[tuple[int, int]], slots: int) -> int | None:
    """The block that is removed when room is needed, or nothing: the least one that isn't the
    newest and has no number of a clip."""
    spans = list(clips)
    return next((block for block in sorted(blocks)[:-1] if not meets(spans, block, slots)), None)


def text_front(geometry: Geometry, bits: int = 8) -> bytes:
    """The header of an export, as docs/y4m.md has it; of frames of more than 8 bits that of a save,
    whose width is in samples."""
    it, wide, colour = geometry, geometry.width, COLOURS[geometry.format]
    if bits > 8:
        wide, colour = wide // 2, f"{DEEP_COLOURS[it.format]}{bits}"
    return f"YUV4MPEG2 W{wide} H{it.height} F{it.num}:{it.den} Ip A0:0 C{colour}\n".encode()


# ------------------------------------------------------------------------------- what is read


class Unsteady(Exception):
    """What was read is of more than one moment."""


class Segment:
    """What a segment's header says: whether it is open, its block, how many of its frames are
    whole, and its place in the file."""

    def __init__(self, place: int, head_bytes: bytes, slots: int) -> None:
        self.place = place
        self.open = head_bytes[0] == OPEN
        self.block: int = struct.unpack_from("<Q", head_bytes, BLOCK_AT)[0]
        self.gates = [byte == OPEN for byte in head_bytes[GATES_AT : GATES_AT + slots]]
        self.whole = self.gates.index(False) if False in self.gates else slots

    def strays(self) -> list[int]:
        """The slots of the open gates after the first closed one."""
        return [slot for slot in range(self.whole, len(self.gates)) if self.gates[slot]]


class Frame(NamedTuple):
    """What a slot's head says: number, sequence and flags, the time in microseconds, and the
    frame's bytes."""

    number: int
    sequence: int
    flags: int
    time: int
    length: int


class Store:
    """A recording, as its bytes read, without pixels: the segments by place, the frames by number,
    clips by id as (id, first, last, tag), and the next number."""

    def __init__(
        self,
        geometry: Geometry,
        version: int,
        segments: list[Segment],
        frames: Iterable[Frame],
        clips: list[tuple[int, int, int, int]],
    ) -> None:
        self.geometry, self.version, self.segments, self.clips = geometry, version, segments, clips
        self.frames = sorted(frames, key=attrgetter("number"))
        self.numbers = runs_of([frame.number for frame in self.frames])
        self.times = {frame.number: frame.time for frame in self.frames}
        self.next = next_number(geometry, segments)

    def time_of(self, number: int) -> int:
        """The time of a held frame."""
        return self.times[number]

    def with_frames(self) -> list[Segment]:
        """The open segments that have a frame, by rising block."""
        return sorted((s for s in self.segments if s.open and s.whole), key=lambda s: s.block)

    def victim(self) -> Segment | None:
        """The segment that is removed when room is needed, or nothing."""
        spans = [(first, last) for _, first, last, _ in self.clips]
        removed = victim([s.block for s in self.with_frames()], spans, self.geometry.slots)
        return next((s for s in self.with_frames() if s.block == removed), None)


def next_number(geometry: Geometry, segments: Iterable[Segment]) -> int:
    """The number of the next frame."""
    newest = max((s for s in segments if s.open), key=lambda s: s.block, default=None)
    return 0 if newest is None else int(newest.block * geometry.slots + newest.whole)


def runs_of(numbers: Sequence[int]) -> list[tuple[int, int]]:
    """The longest runs of numbers that follow one another, of a list that rises, as
    (first, last)."""
    pairs = enumerate(zip(numbers, numbers[1:]), 1)
    breaks = [place for place, (old, new) in pairs if new != old + 1]
    spans = zip([0, *breaks], [*breaks, len(numbers)])
    return [(numbers[start], numbers[end - 1]) for start, end in spans if start < end]


def clips_in(table: bytes, version: int) -> list[tuple[int, int, int, int]]:
    """The open entries of a clip table, as (id, first, last, tag). Version 1 of the layout has no
    tags, and each clip the tag 0."""
    clips = []
    for index in range(CLIPS):
        entry = table[ENTRY * index : ENTRY * (index + 1)]
        if entry[:1] == bytes([OPEN]):
            first, last, tag = struct.unpack("<QQQ", entry[8:32])
            clips.append((index, first, last, tag if version == 2 else 0))
    return clips


def check_segments(geometry: Geometry, segments: Iterable[Segment]) -> None:
    """Refuses what headers can't say, in the layout's order."""
    open_ones = [s for s in segments if s.open]
    blocks = [s.block for s in open_ones]
    if any((block + 1) * geometry.slots > NUMBERS_END for block in blocks):
        raise Damaged(6)
    if len(set(blocks)) < len(blocks):
        raise Damaged(3)
    if any(s.whole < geometry.slots and s.block != max(blocks) for s in open_ones):
        raise Damaged(4)


def check_clips(
    clips: Iterable[tuple[int, int, int, int]], runs: Sequence[tuple[int, int]]
) -> None:
    """Refuses a clip that is empty or has a number that isn't held."""
    for _, first, last, _ in clips:
        if first > last or not any(begin <= first and last <= end for begin, end in runs):
            raise Damaged(7)


def read_geometry(top: bytes, size: int) -> tuple[Geometry, int]:
    """Geometry and version, by the first bytes of a disk of that size."""
    if len(top) < SUPER or top[0] != OPEN or top[1:8] != MAGIC:
        raise NotFormatted
    one, *numbers = SUPERBLOCK.unpack_from(top, 8)
    geometry = Geometry(*numbers)
    if one != 1 or not geometry.is_good() or any(top[VERSION_AT + 1 : SUPER]):
        raise Damaged(2)
    if size != geometry.disk_size():
        raise Damaged(1)
    return geometry, 2 if top[VERSION_AT] == OPEN else 1


def read_slots(
    read_at: ReadAt, geometry: Geometry, segment: Segment, first: int = 0
) -> list[Frame]:
    """The heads of a segment's frames before its first closed gate, from a slot on."""
    frames = []
    for slot in range(first, segment.whole if segment.open else 0):
        head = read_at(geometry.slot_at(segment.place, slot), HEAD)
        frame = Frame(*SLOT_HEAD.unpack(head)[:5])
        wanted = segment.block * geometry.slots + slot
        if frame.number != wanted or frame.length != geometry.size:
            raise Damaged(5)
        frames.append(frame)
    return frames


def read_frames(read_at: ReadAt, geometry: Geometry, segments: Iterable[Segment]) -> list[Frame]:
    """The heads of the frames before the first closed gate of each open segment."""
    return [frame for segment in segments for frame in read_slots(read_at, geometry, segment)]


def read_heads(read_at: ReadAt, geometry: Geometry) -> list[bytes]:
    """The headers of all segments."""
    return [read_at(geometry.segment_at(index), HEADER) for index in range(geometry.segments)]


def segments_of(heads: Iterable[bytes], geometry: Geometry) -> list[Segment]:
    """The segments, by their headers."""
    return [Segment(place, it, geometry.slots) for place, it in enumerate(heads)]


def same_blocks(old: Iterable[bytes], new: Iterable[bytes]) -> bool:
    """Whether each segment still has the block that it had: then the slots that were read are that
    block's."""
    pairs = zip(old, new)
    return all((a[0] == OPEN, a[8:16]) == (b[0] == OPEN, b[8:16]) for a, b in pairs)


FramesOf = Callable[[ReadAt, Geometry, "list[Segment]"], "list[Frame]"]


def read_once(read_at: ReadAt, size: int, frames_of: FramesOf = read_frames) -> Store:
    """The store of so many bytes, which `read_at` reads from a place on; Unsteady where something
    that it looked at was changed meanwhile. `frames_of` may be another reader of the frames' heads,
    which remembers those that it has read.

    The headers are read before the slots and after them, the clip table before all and after all.
    Where each segment keeps its block, the frames that were whole at first are still there,
    whatever came after them. A fault is believed only where no byte of all that has changed."""
    top = read_at(0, FRONT)
    geometry, version = read_geometry(top, size)
    heads = read_heads(read_at, geometry)
    segments = segments_of(heads, geometry)
    clips = clips_in(top[SUPER:], version)
    fault: Refused | None = None
    store = None
    try:
        check_segments(geometry, segments)
        store = Store(geometry, version, segments, frames_of(read_at, geometry, segments), clips)
        check_clips(clips, store.numbers)
    except Refused as refused:
        fault = refused
    again = read_heads(read_at, geometry)
    if read_at(0, FRONT) != top or not same_blocks(heads, again):
        raise Unsteady
    if fault is not None:
        if heads != again:
            raise Unsteady
        raise fault
    assert store is not None
    return store


def read_store(path: str) -> Store:
    """The store in the file of a path, without pixels, read again as long as it changes
    meanwhile."""
    try:
        file = os.open(path, os.O_RDONLY | os.O_NONBLOCK)
    except OSError:
        raise CannotOpen(f"cannot open {path}") from None
    try:
        if not stat.S_ISREG(os.fstat(file).st_mode):
            raise CannotOpen(f"cannot open {path}")
        for _ in range(TRIES):
            try:
                return read_once(
                    lambda at, count: os.pread(file, count, at), os.fstat(file).st_size
                )
            except Unsteady:
                time.sleep(0.002)
        raise Unsettled
    finally:
        os.close(file)
