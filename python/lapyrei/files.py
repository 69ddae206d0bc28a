"""The file of a store, read beside whatever writes to it. It needs nothing but Python: the module's
arrays, the page and the tools all read by this.

Bytes are read by pread, and never through a map of the file. A map ends the process by SIGBUS where
the file is cut, and no check beforehand helps, since the cut may come between the check and the
look. A read has an answer instead: fewer bytes. It costs one copy, which the system makes from its
cache straight to the array that the caller gets."""
from __future__ import annotations

import contextlib
import os
import re
import stat
import time
from collections.abc import Callable, Sequence
from typing import Any, TypeVar, Union

from . import layout
from .errors import CannotOpen, Gone, Unlike, Unsettled

T = TypeVar("T")
Path = Union[str, "os.PathLike[str]"]
# One of several stores of a camera: left.000.loop. There are at most so many.
NUMBERED = re.compile(r"(.*)\.[0-9]{3}", re.DOTALL)
MOST_STORES = 256


class StoreFile:
    """An open file of a store, from which frames are read. It stays open for all who use it.
    `path` is its path, `whole_path` that from the root on, `identity` says which file it was."""

    def __init__(self, path: str) -> None:
        try:
            self.file = os.open(path, os.O_RDONLY | os.O_NONBLOCK | os.O_CLOEXEC)
        except FileNotFoundError:
            raise CannotOpen("missing") from None
        except OSError as fault:
            raise CannotOpen(f"cannot open: {fault.strerror}") from None
        # By its whole path another process finds it, whose working folder is another one.
        self.path, self.whole_path = path, os.path.abspath(path)
        found = os.fstat(self.file)
        self.identity = (found.st_dev, found.st_ino)
        if not stat.S_ISREG(found.st_mode):
            self.close()
            raise CannotOpen("not a file")

    def size(self) -> int:
        """How many bytes it has now."""
        try:
            return os.fstat(self.file).st_size
        except OSError as fault:
            raise self.fault(fault) from None

    def fault(self, fault: OSError) -> CannotOpen:
        """Why it can't be read."""
        return CannotOpen("it was closed" if self.file < 0 else f"cannot read: {fault.strerror}")

    def read_at(self, at: int, count: int) -> bytes:
        """Bytes from a place on. A file that is cut meanwhile has fewer than asked for: Unsteady.
        One that is too short for a store is judged by its first bytes."""
        try:
            data = os.pread(self.file, count, at)
        except OSError as fault:
            raise self.fault(fault) from None
        if len(data) < count and at:
            raise layout.Unsteady
        return data

    def read_into(self, at: int, buffers: Sequence[Any]) -> None:
        """Fills buffers with the bytes from a place on, one after the other. Unsteady where the
        file has fewer."""
        left = [memoryview(buffer).cast("B") for buffer in buffers]
        while left:
            try:
                count = os.preadv(self.file, left, at)
            except OSError as fault:
                raise self.fault(fault) from None
            if count == 0:
                raise layout.Unsteady
            at += count
            # A read may stop early, as where a signal came.
            while left and count >= len(left[0]):
                count -= len(left.pop(0))
            if count:
                left[0] = left[0][count:]

    def look(self, geometry: layout.Geometry, place: int, number: int) -> tuple[bytes, ...]:
        """What says that a slot has a frame: the superblock's geometry, its segment's gate and
        block, and its head. Gone where they don't say so."""
        block, slot = divmod(number, geometry.slots)
        top = self.read_at(0, layout.VERSION_AT)
        segment_bytes = self.read_at(geometry.segment_at(place), layout.HEADER)
        segment = layout.Segment(place, segment_bytes, geometry.slots)
        head = self.read_at(geometry.slot_at(place, slot), layout.HEAD)
        frame = layout.Frame(*layout.SLOT_HEAD.unpack(head)[:5])
        if (
            top[:1] != bytes([layout.OPEN])
            or top[8:] != layout.SUPERBLOCK.pack(1, *geometry)
            or not segment.open
            or segment.block != block
            or slot >= segment.whole
            or frame.number != number
            or frame.length != geometry.size
        ):
            raise Gone(f"frame {number} isn't held any more", number)
        return top, segment_bytes[: layout.GATES_AT], head

    def whole(
        self, geometry: layout.Geometry, place: int, number: int, read: Callable[[int], T]
    ) -> T:
        """What `read` answers of the pixels of a frame, which begin at the place in the file that
        it gets. They are that frame's, and not another's, by what stands around them before and
        after: a block's slots are written to only while its gates are closed. Gone where the block
        was removed meanwhile."""
        before = self.look(geometry, place, number)
        found = read(geometry.slot_at(place, number % geometry.slots) + layout.HEAD)
        if self.look(geometry, place, number) != before:
            raise Gone(f"frame {number} isn't held any more", number)
        return found

    def part(
        self, geometry: layout.Geometry, place: int, number: int, at: int, count: int
    ) -> bytes:
        """A part of the bytes of a frame, which stands in the segment of a place."""
        return self.whole(geometry, place, number, lambda pixels: self.read_at(pixels + at, count))

    def close(self) -> None:
        """Closes the file."""
        file, self.file = self.file, -1
        if file >= 0:
            os.close(file)

    def __del__(self) -> None:
        if hasattr(self, "file"):
            self.close()


class Known:
    """The heads of frames that were read before, by the segment's place: a block's frames stay as
    they are as long as it is there, so that a reading costs the heads of the new frames alone."""

    def __init__(self) -> None:
        self.blocks: dict[int, tuple[int, list[layout.Frame]]] = {}

    def frames_of(
        self, read_at: layout.ReadAt, geometry: layout.Geometry, segments: list[layout.Segment]
    ) -> list[layout.Frame]:
        """The frames' heads. The first one of each block is read again, so that a store that was
        formatted anew is seen."""
        frames: list[layout.Frame] = []
        for segment in segments:
            if not segment.open:
                self.blocks.pop(segment.place, None)
                continue
            block, heads = self.blocks.get(segment.place, (-1, []))
            if heads and (
                block != segment.block
                or len(heads) > segment.whole
                or heads[:1] != layout.read_slots(read_at, geometry, first_slot(segment))
            ):
                heads = []
            new = layout.read_slots(read_at, geometry, segment, len(heads))
            # Another list, so that readings made before keep theirs.
            heads = heads + new if new else heads
            self.blocks[segment.place] = (segment.block, heads)
            frames += heads
        return frames


def first_slot(segment: layout.Segment) -> layout.Segment:
    """A segment as if it had one frame."""
    short = layout.Segment.__new__(layout.Segment)
    short.place, short.open, short.block = segment.place, segment.open, segment.block
    short.gates, short.whole = segment.gates, min(1, segment.whole)
    return short


def read_steadily(opened: StoreFile, known: Known) -> layout.Store:
    """A store as it is at one moment, read again as long as it changes meanwhile."""
    for _ in range(layout.TRIES):
        try:
            return layout.read_once(opened.read_at, opened.size(), known.frames_of)
        except layout.Unsteady:
            time.sleep(0.002)
    raise Unsettled


def camera_of(path: str) -> str:
    """The name of the camera of a file."""
    stem = os.path.basename(path).removesuffix(".loop")
    numbered = NUMBERED.fullmatch(stem)
    return numbered[1] if numbered else stem


def numbered_of(path: str) -> list[tuple[int, str]]:
    """The files of a camera that has several stores, by the path that its configuration names, each
    with its number: of `left.loop` they are `left.000.loop` and those that follow, and of `left`
    `left.000`. None where a file has that path itself: then it is the camera's only store."""
    if os.path.lexists(path):
        return []
    folder, name = os.path.split(path)
    stem, ending = name.removesuffix(".loop"), ".loop" * name.endswith(".loop")
    wanted = re.compile(re.escape(stem) + r"\.([0-9]{3})" + re.escape(ending))
    names: list[str] = []
    with contextlib.suppress(OSError):
        names = sorted(os.listdir(folder or "."))
    found = [(int(it[1]), os.path.join(folder, it[0])) for it in map(wanted.fullmatch, names) if it]
    return [it for it in found if it[0] < MOST_STORES]


def files_of(where: Path | Sequence[Path]) -> list[str]:
    """The files of a path: itself; all stores of a folder; or, of `left.loop` where that isn't
    there, `left.000.loop` and those that follow, and so `left.000` of `left`. Those of several
    paths, one after the other."""
    if not isinstance(where, (str, os.PathLike)):
        found = [path for it in where for path in files_of(it)]
        if not found:
            raise CannotOpen("no store is named")
        return found
    path = os.fspath(where)
    if os.path.isdir(path):
        names = sorted(it for it in os.listdir(path) if it.endswith(".loop"))
        found = [os.path.join(path, it) for it in names]
        cameras = sorted({camera_of(it) for it in found})
        if not found:
            raise CannotOpen("the folder has no store (*.loop)", path)
        if len(cameras) > 1:
            raise Unlike(f"the folder has stores of several cameras: {', '.join(cameras)}", path)
        return found
    return [it for _, it in numbered_of(path)] or [path]
