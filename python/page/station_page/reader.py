"""Stores as they are now. The layout, how a store that changes meanwhile is read, and how a frame
is known to be whole are the module lapyrei's; here stands what the page makes of a reading."""
import asyncio
import copy
import operator
import os
import threading
from array import array
from bisect import bisect_left, bisect_right
from collections.abc import Sequence
from dataclasses import dataclass
from itertools import islice
from typing import NamedTuple, overload

from lapyrei import layout
from lapyrei.errors import Gone
from lapyrei.files import Known, read_steadily
from lapyrei.files import StoreFile as OpenStore
from lapyrei.losses import Hole, holes_in

from .workers import Workers

# The frames by which the rate is reckoned.
RATE_FRAMES = 50


class Run(NamedTuple):
    """Frames of a clip that follow one another: the times of the first and the last one, their
    sequences and numbers, and how many were lost between them."""

    since: int
    until: int
    sequences: tuple[int, int]
    numbers: tuple[int, int]
    lost: int
    store: int | None


@dataclass(frozen=True)
class Clip:
    """A clip: its id, its numbers and its tag, and the times of its first and last frame in
    microseconds since 1970."""

    id: int
    first: int
    last: int
    tag: int
    since: int
    until: int
    # Whether it was seen in its store: the station tells times in milliseconds.
    is_seen: bool = True
    # One, or several where its camera has several stores and others have frames between.
    runs: tuple[Run, ...] = ()

    def lost(self) -> int:
        """How many frames were lost within it."""
        return sum(run.lost for run in self.runs)

    def count(self) -> int:
        """How many frames it has."""
        return self.last - self.first + 1

    def is_beside(self, id_: int) -> bool:
        """Whether the clip of an id is in the same store: then their frames' numbers tell which
        come first."""
        return store_of(self.id) == store_of(id_)


@dataclass(frozen=True)
class Piece:
    """Frames that follow one another without a hole in time, as (number, number, time, time); of
    a camera with several stores also which has its first frame, and which its last one."""

    first: int
    last: int
    since: int
    until: int
    store: int | None = None
    ends: int | None = None


class Placed(NamedTuple):
    """A frame of a camera with several stores: what its head says, and its store's number."""

    number: int
    sequence: int
    flags: int
    time: int
    length: int
    store: int


Frame = layout.Frame | Placed


def store_of(id_: int) -> int:
    """The number of the store of a clip, by the id that the station prints
    (crates/loop_station_core/src/sets.rt); 0 where its camera has one store."""
    return id_ // layout.CLIPS


def store_in(frame: Frame) -> int | None:
    """The number of a frame's store; none where its camera has one."""
    return getattr(frame, "store", None)


class Packed(Sequence):
    """Frames in a tenth of the memory that a list of them takes: a camera may have 256 stores."""

    def __init__(self, frames: Sequence[layout.Frame]) -> None:
        columns = list(zip(*frames)) or [()] * 5
        self.columns = [array(kind, column) for kind, column in zip("QIIQI", columns)]

    def __len__(self) -> int:
        return len(self.columns[0])

    @overload
    def __getitem__(self, place: int) -> layout.Frame:
        ...

    @overload
    def __getitem__(self, place: slice) -> list[layout.Frame]:
        ...

    def __getitem__(self, place):
        found = (column[place] for column in self.columns)
        if isinstance(place, slice):
            return [layout.Frame(*it) for it in zip(*found)]
        return layout.Frame(*found)


class ByTime:
    """A store's frames by their times. A clock may be set back: then times aren't in the order of
    numbers."""

    def __init__(self, reading: "Reading") -> None:
        self.reading, frames = reading, reading.frames
        packed = isinstance(frames, Packed)
        times = frames.columns[3] if packed else array("Q", [frame.time for frame in frames])
        self.places: list[int] | None = None
        if not all(map(operator.le, times, islice(times, 1, None))):
            self.places = sorted(range(len(times)), key=lambda it: (times[it], frames[it].number))
            times = array("Q", [times[it] for it in self.places])
        self.times = times

    def frame(self, place: int) -> Frame:
        """The frame of a place in this order."""
        return self.reading.told(self.reading.frames[self.places[place] if self.places else place])

    def at(self, moment: int) -> Frame | None:
        """The last frame that isn't after a moment."""
        place = bisect_right(self.times, moment)
        return self.frame(place - 1) if place else None

    def beside(self, moment: int, by: int) -> int | None:
        """The time of the first frame after a moment, or of the last one before it."""
        if by > 0:
            place = bisect_right(self.times, moment)
            return self.times[place] if place < len(self.times) else None
        place = bisect_left(self.times, moment)
        return self.times[place - 1] if place else None


class Held:
    """What a store holds at a moment, or several that are one ring (`rings.Ring`)."""

    geometry: layout.Geometry
    clips: list[Clip]

    def each(self) -> list["Reading"]:
        """Its stores."""
        raise NotImplementedError

    def newest_frames(self, count: int) -> list[layout.Frame]:
        """So many frames, the newest."""
        raise NotImplementedError

    def pieces(self) -> list[Piece]:
        """The held frames, divided where a number or time is missing."""
        raise NotImplementedError

    def holes(self) -> list[Hole]:
        """Where frames were lost, by time."""
        raise NotImplementedError

    def clip(self, id_: int) -> Clip | None:
        """The clip of an id."""
        return next((clip for clip in self.clips if clip.id == id_), None)

    def clip_of(self, id_: int, first: int, last: int) -> Clip | None:
        """The clip of an id that has these frames: ids are used again."""
        found = self.clip(id_)
        return found if found and (found.first, found.last) == (first, last) else None

    def rate(self) -> float | None:
        """Frames a second, by the newest ones."""
        newest = self.newest_frames(RATE_FRAMES)
        took = newest[-1].time - newest[0].time if len(newest) > 1 else 0
        return (len(newest) - 1) * 1_000_000 / took if took > 0 else None

    def seconds(self) -> float:
        """How long the ring holds now: the time of all pieces together."""
        period = 1 / self.geometry.rate()
        return sum((piece.until - piece.since) / 1_000_000 + period for piece in self.pieces())

    def count(self) -> int:
        """How many frames it holds."""
        return sum(len(part.frames) for part in self.each())

    def newest(self) -> Frame | None:
        """The newest frame."""
        found = [part.told(part.frames[-1]) for part in self.each() if part.frames]
        return max(found, key=lambda frame: frame.time, default=None)

    def oldest(self) -> Frame | None:
        """The oldest frame."""
        found = [part.told(part.frames[0]) for part in self.each() if part.frames]
        return min(found, key=lambda frame: frame.time, default=None)

    def at(self, moment: int) -> Frame | None:
        """The frame that was the newest at a time, or the oldest one where none was there yet."""
        found = [it for part in self.each() if (it := part.by_time().at(moment))]
        return max(found, key=lambda frame: frame.time) if found else self.oldest()


class Reading(Held):
    """A store at a moment."""

    # How many stores of its camera are read, and how many are there: of several alone.
    stores: tuple[int, int] | None = None

    def __init__(self, store: layout.Store, among: int | None = None) -> None:
        """`among` is its number where its camera has several."""
        self.store, self.geometry, self.frames, self.next = (
            store,
            store.geometry,
            store.frames,
            store.next,
        )
        self.among, base = among, layout.CLIPS * (among or 0)
        self.clips = [
            Clip(
                base + id_,
                first,
                last,
                tag,
                store.times[first],
                store.times[last],
                runs=tuple(self.runs_of(first, last)),
            )
            for id_, first, last, tag in store.clips
        ]
        self.ordered: ByTime | None = None

    def runs_of(self, first: int, last: int) -> list[Run]:
        """The runs of a clip with these numbers."""
        ends = [(first, last)]
        if self.among is not None:
            # Where time is missing, another store may have the frames.
            ends = [(max(it.first, first), min(it.last, last)) for it in self.pieces()]
        return [self.run(self.place(one), self.place(two)) for one, two in ends if one <= two]

    def place(self, number: int) -> int:
        """Where the frame of a number is among those that are held."""
        return bisect_left(self.frames, number, key=lambda frame: frame.number)

    def run(self, start: int, end: int) -> Run:
        """The frames from a place to another one."""
        one, two = self.frames[start], self.frames[end]
        lost = sum(hole.lost for hole in holes_in(self.frames, start, end))
        sequences, numbers = (one.sequence, two.sequence), (one.number, two.number)
        return Run(one.time, two.time, sequences, numbers, lost, self.among)

    def each(self) -> list["Reading"]:
        """Its stores."""
        return [self]

    def faults(self) -> dict[str, str]:
        """Which of several stores can't be used, by path, and why."""
        return {}

    def active(self) -> "Reading":
        """The store with the newest frame."""
        return self

    def part(self, id_: int) -> "Reading":
        """The store of the clip of an id."""
        return self

    def are_beside(self, one: int, other: int) -> bool:
        """Whether the clips of two ids are in one store."""
        return True

    def told(self, frame: layout.Frame) -> Frame:
        """A frame, with its store where there are several."""
        return frame if self.among is None else Placed(*frame, self.among)

    def by_time(self) -> ByTime:
        """Its frames by their times."""
        if self.ordered is None:
            self.ordered = ByTime(self)
        return self.ordered

    def time_of(self, number: int) -> int:
        """The time of a frame that is held."""
        if not isinstance(self.frames, Packed):
            return self.store.times[number]
        numbers, _, _, times, _ = self.frames.columns
        return times[bisect_left(numbers, number)]

    def packed(self) -> "Reading":
        """The same in less memory."""
        if isinstance(self.frames, Packed):
            return self
        self.pieces(), self.holes()
        found = copy.copy(self)
        found.frames, found.store, found.ordered = Packed(self.frames), copy.copy(self.store), None
        found.store.frames, found.store.times = [], {}
        return found

    def newest(self) -> Frame | None:
        """The newest frame: that of the last number."""
        return self.told(self.frames[-1]) if self.frames else None

    def oldest(self) -> Frame | None:
        """The oldest frame."""
        return self.told(self.frames[0]) if self.frames else None

    def newest_frames(self, count: int) -> list[layout.Frame]:
        """So many frames, the newest."""
        return self.frames[-count:]

    def is_all_locked(self) -> bool:
        """Whether no block is left into which further frames could come."""
        return (
            self.removed_next() is None and len(self.store.with_frames()) == self.geometry.segments
        )

    def bits(self, number: int | None = None) -> int:
        """The bits of the samples of a frame that is held, or of the newest one."""
        frame = self.near(number, 0) if number is not None else self.frames and self.frames[-1]
        return layout.bits_of(frame.flags) if frame else 8

    def locked(self) -> float:
        """Which part of the room is locked, from 0 to 1."""
        slots, spans = self.geometry.slots, [(clip.first, clip.last) for clip in self.clips]
        blocks = [segment.block for segment in self.store.with_frames()]
        return sum(layout.meets(spans, block, slots) for block in blocks) / self.geometry.segments

    def removed_next(self) -> tuple[int, int] | None:
        """The first and the last number of the block that is removed next, or nothing where there
        is room or none may be removed."""
        free = self.geometry.segments - len(self.store.with_frames())
        victim = None if free else self.store.victim()
        return victim and (
            victim.block * self.geometry.slots,
            (victim.block + 1) * self.geometry.slots - 1,
        )

    def pieces(self) -> list[Piece]:
        """The held frames, divided where a number or time is missing."""
        if not hasattr(self, "divided"):
            self.divided = self.divide()
        return self.divided

    def divide(self) -> list[Piece]:
        """The pieces, reckoned."""
        frames, longest = self.frames, layout.longest_step(self.geometry)
        # A frame as a tuple, since this is done for each frame, often: its number is the first, and
        # its time the fourth.
        breaks = [
            place
            for place, (old, new) in enumerate(zip(frames, frames[1:]), 1)
            if new[0] != old[0] + 1 or not 0 <= new[3] - old[3] <= longest
        ]
        spans = zip([0, *breaks], [*breaks, len(frames)])
        return [
            Piece(
                frames[start].number,
                frames[end - 1].number,
                frames[start].time,
                frames[end - 1].time,
                self.among,
                self.among,
            )
            for start, end in spans
            if start < end
        ]

    def holes(self) -> list[Hole]:
        """Where frames were lost; of one of several stores, within its pieces alone, since another
        one may have what is between."""
        if not hasattr(self, "missed"):
            spans = [(0, len(self.frames) - 1)]
            if self.among is not None:
                spans = [(self.place(it.first), self.place(it.last)) for it in self.pieces()]
            self.missed = [it for span in spans for it in holes_in(self.frames, *span)]
        return self.missed

    def near(self, number: int, by: int, store: int | None = None) -> Frame | None:
        """The held frame that is so many held frames after a number, or the last one on that
        side; none of a store that its camera hasn't."""
        if not self.frames or store != self.among:
            return None
        place = self.place(number)
        return self.told(self.frames[min(max(place + by, 0), len(self.frames) - 1)])

    def frames_of(self, clip: Clip) -> list:
        """The frames of a clip."""
        start = self.place(clip.first)
        return self.frames[start : start + clip.count()]


class Source:
    """The frames of a reading, to be fetched: the open file, and where each block is."""

    def __init__(self, opened: OpenStore, reading: Reading, reads: Workers | None = None) -> None:
        self.opened, self.geometry, self.reads = opened, reading.geometry, reads
        self.places = {segment.block: segment.place for segment in reading.store.with_frames()}

    def of(self, store: int | None) -> "Source":
        """The frames of the store of a number, of several; of this one for none."""
        if store is not None:
            raise Gone(f"store {store} isn't there")
        return self

    def newest(self, place: object) -> tuple[Frame, int] | None:
        """The newest frame of the file, and the place of its segment, where it is looked for
        first; else a place is one of several stores, which were there before."""
        known = place if isinstance(place, int) else None
        return newest_in(self.opened, self.geometry, known)

    def placed(self, number: int, place: int | None) -> int | None:
        """The place of the segment of a frame, also of one that came after the reading: then that
        of the newest frame."""
        return self.places.get(number // self.geometry.slots, place)

    def part(self, number: int, at: int, count: int) -> bytes:
        """A part of the bytes of a frame; Gone where it isn't held any more."""
        block = number // self.geometry.slots
        if block not in self.places:
            raise Gone(f"frame {number} isn't held")
        try:
            return self.opened.part(self.geometry, self.places[block], number, at, count)
        except (layout.Unsteady, layout.Refused) as fault:
            raise Gone(f"frame {number} can't be read: {fault}") from None

    def frame(self, number: int) -> bytes:
        """All bytes of a frame."""
        return self.part(number, 0, self.geometry.size)

    async def do(self, work, *words, seconds: float | None = None):
        """Does what reads the store, in the threads of its camera."""
        if self.reads is None:
            return await asyncio.to_thread(work, *words)
        return await self.reads.do(work, *words, seconds=seconds)


def newest_in(opened: OpenStore, geometry: layout.Geometry, place: int | None) -> tuple | None:
    """The newest whole frame of a store and the place of its segment, by the headers alone. It is
    looked for first in the segment that had it last."""
    segment = None
    if place is not None:
        header = opened.read_at(geometry.segment_at(place), layout.HEADER)
        segment = layout.Segment(place, header, geometry.slots)
    if segment is None or not segment.open or not 0 < segment.whole < geometry.slots:
        heads = layout.read_heads(opened.read_at, geometry)
        found = [it for it in layout.segments_of(heads, geometry) if it.open and it.whole]
        segment = max(found, key=lambda it: it.block, default=None)
    if segment is None:
        return None
    slot = segment.whole - 1
    head = opened.read_at(geometry.slot_at(segment.place, slot), layout.HEAD)
    frame = layout.Frame(*layout.SLOT_HEAD.unpack(head)[:5])
    if frame.number != segment.block * geometry.slots + slot:
        raise layout.Unsteady
    return frame, segment.place


class Reader:
    """A store in the file of a path, read again and again. Readings are made one at a time, from
    any thread."""

    def __init__(
        self, path: str, reads: Workers | None = None, among: int | None = None
    ) -> None:
        """`reads` are the threads in which its frames are read, and `among` its number where its
        camera has several stores."""
        self.path, self.lock, self.reads, self.among = path, threading.Lock(), reads, among
        self.opened: OpenStore | None = None
        self.known = Known()

    def read(self) -> tuple[Reading, Source]:
        """The store as it is now; Refused where it isn't one."""
        with self.lock:
            try:
                self.open_again()
                return self.steady()
            except layout.Refused:
                self.opened, self.known = None, Known()
                raise

    def open_again(self) -> None:
        """Opens the file, or the one that has taken its place."""
        try:
            found = os.stat(self.path)
            identity = (found.st_dev, found.st_ino)
        except OSError:
            identity = None
        if self.opened is None or self.opened.identity != identity:
            self.opened, self.known = OpenStore(self.path), Known()

    def steady(self) -> tuple[Reading, Source]:
        """A reading of one moment."""
        opened = self.opened
        assert opened is not None
        reading = Reading(read_steadily(opened, self.known), self.among)
        return reading, Source(opened, reading, self.reads)
