"""The files of a store, as arrays: how a frame's samples lie in one, and a file that is open, whose
pixels are read. A reader travels to another process, or is copied, by what says which store it is:
its path, the file's identity and the superblock. There it opens the file anew."""
from __future__ import annotations

import contextlib
import os
from collections.abc import Iterator, Sequence
from typing import Any, NamedTuple, Union

import numpy as np
from numpy.typing import NDArray

from . import layout
from .errors import CannotOpen, Changed, Gone, Refused, UnknownDepth
from .files import Known, StoreFile, read_steadily

Array = NDArray[Any]

# What a frame's head says: its number, the camera's own count, V4L2's flags, the time in
# microseconds, and its bytes.
HEADS = np.dtype(
    [
        ("number", "<u8"),
        ("sequence", "<u4"),
        ("flags", "<u4"),
        ("time", "<u8"),
        ("length", "<u4"),
    ]
)


class Planes(NamedTuple):
    """A picture in colour, or many: luma and the two colour differences, each an array
    (height, width), or (frames, height, width). Those of the colours are smaller by the format."""

    y: Array
    cb: Array
    cr: Array


Picture = Union[Array, Planes]


class Form(NamedTuple):
    """How a frame's samples lie: bits a sample, the type of a sample, and the shape of each plane
    as (height, width)."""

    bits: int
    dtype: np.dtype[Any]
    planes: tuple[tuple[int, int], ...]

    def starts(self) -> list[int]:
        """Where each plane begins in a frame's bytes."""
        sizes = [height * width * self.dtype.itemsize for height, width in self.planes]
        return [sum(sizes[:index]) for index in range(len(sizes))]


def form_of(geometry: layout.Geometry, bits: int) -> Form:
    """How the samples of frames of so many bits lie. A deep sample (9 to 16 bits) has two bytes, so
    its rows have half as many samples as the store's geometry has bytes."""
    divided = layout.DIVIDED[geometry.format]
    planes = [(geometry.height, geometry.width)]
    if divided:
        across, down = divided
        planes += [(-(-geometry.height // down), -(-geometry.width // across))] * 2
    if bits == 8:
        return Form(8, np.dtype(np.uint8), tuple(planes))
    if bits not in layout.DEEP:
        raise UnknownDepth(
            f"a frame says that its samples have {bits} bits, and none has such ones"
        )
    if any(width % 2 for _, width in planes):
        raise UnknownDepth(
            f"a frame says that its samples have {bits} bits, and its rows of "
            f"{geometry.width} bytes hold no whole samples"
        )
    return Form(bits, np.dtype("<u2"), tuple((height, width // 2) for height, width in planes))


# Bytes of a frame, and where in it they go: a place in the frame, and an array in one piece.
Piece = tuple[int, Array]


class Part:
    """A file of a store: its path, its geometry, the version of its layout, the number of the next
    frame, and where each block lies. Most stores have one. One that was pickled or copied is as it
    was, opens the file anew, and raises Changed where that is another one by then."""

    def __init__(self, path: str, was: Seen | None = None) -> None:
        self.path, self.known = path, Known()
        with of_path(path):
            if was is None:
                self.file = StoreFile(path)
                self.reading = read_steadily(self.file, self.known)
            else:
                self.file, self.reading = found_again(path, was), was.reading()
        self.places = places_of(self.reading)

    def __reduce__(self) -> tuple[Any, ...]:
        if self.file.file < 0:
            raise CannotOpen("it was closed", self.path)
        it = self.reading
        heads = self.heads()
        seen = Seen(self.file.identity, it.geometry, it.version, it.segments, heads, it.clips)
        return Part, (self.file.whole_path, seen)

    @property
    def geometry(self) -> layout.Geometry:
        """Width and height of the luma in bytes, format, rate, segments, slots and frame bytes."""
        return self.reading.geometry

    @property
    def version(self) -> int:
        """The version of its layout, 1 or 2."""
        return self.reading.version

    @property
    def next(self) -> int:
        """The number of the next frame."""
        return self.reading.next

    def heads(self) -> Array:
        """The heads of its frames, by rising number."""
        return np.array([tuple(frame) for frame in self.reading.frames], HEADS)

    def read_again(self) -> layout.Store:
        """The file as it is now; Changed where it isn't the same recording any more."""
        check_identity(self.path, self.file.identity)
        with of_path(self.path):
            new = read_steadily(self.file, self.known)
        old = self.reading
        if new.geometry != old.geometry or new.next < old.next or not goes_on(old, new):
            raise Changed(f"{self.path} was formatted anew: open it again")
        return new

    def pixels(self, number: int, pieces: Sequence[Piece], head: Any = None) -> None:
        """Fills arrays with bytes of a frame. What is left in them where it raises is anything.
        `head` is what the frame's head said when the store was read: where it isn't that any more,
        it is Changed."""
        block = number // self.geometry.slots
        place = self.places.get(block)
        if place is None:
            raise Gone(f"frame {number} isn't held any more", number, self.path)
        found = np.empty(1, HEADS)
        runs = runs_of([(-layout.HEAD, found.view(np.uint8)), (-4, np.empty(4, np.uint8)), *pieces])
        with of_path(self.path):
            self.file.whole(self.geometry, place, number, lambda at: self.fill(at, runs))
        if head is not None and found[0] != head:
            raise Changed(f"{self.path} was formatted anew: open it again")

    def fill(self, at: int, runs: Sequence[tuple[int, list[Array]]]) -> None:
        """Fills arrays from a place in the file on."""
        for start, arrays in runs:
            self.file.read_into(at + start, arrays)


def runs_of(pieces: Sequence[Piece]) -> list[tuple[int, list[Array]]]:
    """The arrays whose bytes follow one another in the frame, each run with its place."""
    runs: list[tuple[int, list[Array]]] = []
    end = None
    for at, array in pieces:
        flat = array.reshape(-1).view(np.uint8)
        if at != end:
            runs.append((at, []))
        runs[-1][1].append(flat)
        end = at + flat.nbytes
    return runs


class Seen(NamedTuple):
    """A file as it was read, for another process: which file it is, and what it held."""

    identity: tuple[int, int]
    geometry: layout.Geometry
    version: int
    segments: list[layout.Segment]
    heads: Array
    clips: list[tuple[int, int, int, int]]

    def reading(self) -> layout.Store:
        """What it held."""
        frames = [layout.Frame(*it) for it in self.heads.tolist()]
        return layout.Store(self.geometry, self.version, self.segments, frames, self.clips)


def check_identity(path: str, identity: tuple[int, int]) -> None:
    """Changed where a path has no file, or another one."""
    try:
        found = os.stat(path)
    except OSError:
        raise Changed(f"{path} isn't there any more") from None
    if (found.st_dev, found.st_ino) != identity:
        raise Changed(f"{path} is another file now: open it again")


def found_again(path: str, was: Seen) -> StoreFile:
    """The file of a store that was read elsewhere; Changed where it is another one now."""
    check_identity(path, was.identity)
    file = StoreFile(path)
    top = file.read_at(0, layout.VERSION_AT)
    if file.identity != was.identity:
        raise Changed(f"{path} is another file now: open it again")
    if top != bytes([layout.OPEN]) + layout.MAGIC + layout.SUPERBLOCK.pack(1, *was.geometry):
        raise Changed(f"{path} was formatted anew, or cut: open it again")
    return file


def places_of(reading: layout.Store) -> dict[int, int]:
    """The place of each block that has a frame."""
    return {segment.block: segment.place for segment in reading.with_frames()}


def goes_on(old: layout.Store, new: layout.Store) -> bool:
    """Whether the blocks that two readings have in common begin with the same frame."""
    slots = old.geometry.slots
    first = {frame.number: frame for frame in old.frames if frame.number % slots == 0}
    return all(first.get(frame.number, frame) == frame for frame in new.frames)


@contextlib.contextmanager
def of_path(path: str) -> Iterator[None]:
    """Whatever is refused inside is told with the path. A file that is too short was cut."""
    try:
        yield
    except (Refused, Gone) as fault:
        fault.path = path
        raise
    except layout.Unsteady:
        raise Changed(f"{path} was cut: open it again") from None
