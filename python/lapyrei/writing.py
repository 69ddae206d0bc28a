"""Stores that are written: made, appended to, locked. The C library does that, after the proved
code of `crates/lapyrei`; here arrays become its frames, and its refusals exceptions."""
from __future__ import annotations

import contextlib
import errno
import functools
import math
import operator
import os
import threading
import time
from collections.abc import Callable, Iterator, Sequence
from fractions import Fraction
from numbers import Rational
from typing import Any, Union, cast

import numpy as np
from numpy.typing import NDArray

from . import layout, library
from .errors import (
    BadGeometry,
    BadTime,
    CannotOpen,
    ClipEmpty,
    Exists,
    Gone,
    InUse,
    NoSuchClip,
    NotDone,
    Refused,
    UnknownDepth,
    WrongSize,
)
from .files import Path, files_of
from .moments import Time, vector_of
from .parts import Array, Form, Picture, Planes, form_of
from .store import Clip, Frames, Store

# Frames of a second: 25, 29.97, Fraction(30000, 1001), "30000:1001".
Rate = Union[int, float, str, Fraction]
# Several times: numbers of microseconds, datetime64, or a list of what `Time` may be.
Times = Union[Time, Sequence[Time], NDArray[Any]]
Numbers = NDArray[np.int64]

# The same as library.Head, of which an array is given to the library.
HEADS = np.dtype(
    [("number", "=u8"), ("timestamp", "=u8"), ("sequence", "=u4"), ("flags", "=u4")], align=True
)
U32, U64 = 2**32 - 1, 2**64 - 1
# Where `minutes` says how long a store is: the usual slots of a segment, and those where frames
# have at most so many bytes and the ring then has at least so many segments.
SLOTS, SMALL, LEAST_SEGMENTS = 64, ((256, 16384), (128, 65536)), 16
# The most segments and slots.
MOST_SEGMENTS, MOST_SLOTS = 64, 256


# ------------------------------------------------------------------------------- making


def create(
    path: Path,
    shape: tuple[int, int],
    rate: Rate,
    format: str = "GREY",
    *,
    segments: int | None = None,
    slots: int | None = None,
    minutes: float | None = None,
    bits: int = 8,
    overwrite: bool = False,
    version: int = 2,
) -> Writable:
    """Makes a store and opens it to write. Once it answers, the store is on the disk, with all its
    room.

    `shape` is (height, width) of a picture in samples, `rate` the frames a second that it is made
    for (25, 29.97, "30000:1001", a Fraction), and `format` GREY, YM12 (4:2:0), YM16 (4:2:2) or
    YM24 (4:4:4). It has `segments` (2 to 64) of `slots` frames each (1 to 256); or give `minutes`,
    and it has room for the newest frames of that time, by the station's rule. `bits` says the bits
    a sample, 8, or 9 to 16. A file that is there is left alone, unless `overwrite` is true: then
    all that it held is lost. `version` 1 makes the old layout.

    Raises BadGeometry, Exists where a file is there, CannotMake (`detail` is the errno), InUse,
    CannotOpen, NoMemory, DiskFault, TooMany, NoLibrary."""
    name = os.fspath(path)
    made = shape_of(shape, fraction_of(rate), format, bits, version)
    made.segments, made.slots = ring_of(made, segments, slots, minutes)
    library.library()
    is_new = False if overwrite else take(name)
    try:
        handle = library.formatted(name, made, overwrite)
    except Refused as fault:
        # What another program has begun there meanwhile is its own.
        if is_new and not isinstance(fault, (InUse, Exists)):
            os.unlink(name)
        raise
    return opened(handle, bits)


def take(path: str) -> bool:
    """Makes an empty file where none is."""
    try:
        os.close(os.open(path, os.O_WRONLY | os.O_CREAT | os.O_EXCL | os.O_CLOEXEC, 0o666))
    except FileExistsError:
        why = "a file is there; overwrite=True erases it"
        raise Exists(why, errno.EEXIST, path) from None
    except OSError as fault:
        raise CannotOpen(library.why_not(fault.errno or 0), path) from None
    return True


def fraction_of(rate: Rate) -> Fraction:
    """Frames a second, as two numbers."""
    with contextlib.suppress(ValueError, ZeroDivisionError, OverflowError):
        if isinstance(rate, str):
            return Fraction(rate.replace(":", "/"))
        if isinstance(rate, (Rational, np.integer)):
            return Fraction(int(rate)) if isinstance(rate, np.integer) else Fraction(rate)
        # What is written as 29.97 is meant so.
        return Fraction(repr(float(rate)))
    raise BadGeometry(f"a rate is frames a second, as 25 or 30000:1001, not {rate!r}")


def shape_of(
    shape: tuple[int, int], rate: Fraction, form: str, bits: int, version: int
) -> library.Shape:
    """What the library makes a store of, but for its segments and slots."""
    if form not in library.FORMATS:
        raise BadGeometry(f"a format is one of {', '.join(library.FORMATS)}, not {form!r}")
    if bits != 8 and bits not in layout.DEEP:
        raise BadGeometry(f"samples have 8 bits, or 9 to 16, not {bits!r}")
    if version not in (1, 2):
        raise BadGeometry(f"the layout has the versions 1 and 2, not {version!r}")
    height, width = (whole(it, "a side of a picture", U32) for it in shape)
    if bits != 8 and form in ("YM12", "YM16") and width % 2:
        raise BadGeometry(f"{form} of more than 8 bits has an even width, not {width}")
    # A deep sample has two bytes.
    wide = width if bits == 8 else 2 * width
    sides = (wide, height, rate.numerator, rate.denominator)
    if not all(0 < it <= U32 for it in sides):
        raise BadGeometry(f"a store can't have pictures of {height}x{width}, {rate} a second")
    return library.Shape(
        wide, height, library.FORMATS.index(form), *sides[2:], 0, 0, version
    )


def ring_of(
    made: library.Shape, segments: int | None, slots: int | None, minutes: float | None
) -> tuple[int, int]:
    """The segments and slots of a store."""
    if minutes is None:
        if segments is None or slots is None:
            raise BadGeometry("say the segments and the slots of a store, or its minutes")
        return whole(segments, "segments", U32), whole(slots, "slots", U32)
    if segments is not None or slots is not None:
        raise BadGeometry("say the segments and the slots of a store, or its minutes, not both")
    if not 0 < minutes < math.inf:
        raise BadGeometry(f"{minutes!r} is no time in minutes")
    seconds = math.ceil(Fraction(minutes) * 60)
    form = library.FORMATS[made.format].encode()
    size = layout.frame_bytes(made.width, made.height, form) or 0
    return ring_for(-(-seconds * made.rate_num // made.rate_den), size)


def ring_for(frames: int, size: int) -> tuple[int, int]:
    """The segments and slots of the least ring that always holds so many of the newest frames, of
    `size` bytes, while nothing is locked, as the station chooses them: the usual slots a segment,
    and more with 64 segments alone."""
    before = max(frames - 1, 0)
    usual = usual_slots(before, size)
    segments = -(-before // usual) + 1
    if segments <= MOST_SEGMENTS:
        return max(segments, 2), usual
    slots = -(-before // (MOST_SEGMENTS - 1))
    if slots > MOST_SLOTS:
        most = (MOST_SEGMENTS - 1) * MOST_SLOTS + 1
        raise BadGeometry(f"a store always holds {most} frames at most, and not {frames}")
    return MOST_SEGMENTS, slots


def usual_slots(before: int, size: int) -> int:
    """The usual slots of a segment, for so many frames and one more: small frames have more, where
    their ring then has 16 segments."""
    for slots, largest in SMALL:
        if size <= largest and -(-before // slots) + 1 >= LEAST_SEGMENTS:
            return slots
    return SLOTS


def whole(value: Any, what: str, most: int) -> int:
    """A whole number from 0 on."""
    number = operator.index(value)
    if not 0 <= number <= most:
        raise ValueError(f"{what}: {number} isn't 0 to {most}")
    return number


def edit(where: Path | Sequence[Path], keep: int = 1) -> Writable:
    """Opens a store to write: a file, and not several. `lapyrei.open(path, "r+")` is this."""
    library.library()
    paths = files_of(where)
    if len(paths) > 1:
        raise CannotOpen(f"to write, one file is opened, and these are {len(paths)}", paths[0])
    return opened(library.opened(paths[0], whole(keep, "keep", U32)))


def opened(handle: library.Handle, bits: int | None = None) -> Writable:
    """The store of a handle, which is closed where it can't be read."""
    try:
        return Writable(handle, bits)
    except BaseException:
        handle.close()
        raise


# ------------------------------------------------------------------------------- arrays


def stacks_of(frames: Any, form: Form) -> list[Array]:
    """The planes of one picture or of several, each as an array (frames, height, width) of the
    samples' type. WrongSize where the shapes aren't the store's; TypeError where the types
    aren't."""
    is_coloured = len(form.planes) > 1
    if is_coloured and isinstance(frames, list) and {type(it) for it in frames} <= {tuple, Planes}:
        # Several pictures, each of three planes.
        frames = [np.stack(planes) for planes in zip(*frames)]
    arrays = [np.asarray(it) for it in (frames if is_coloured else [frames])]
    shapes = [(1, *it.shape) if it.ndim == 2 else it.shape for it in arrays]
    if [it[1:] for it in shapes] != list(form.planes) or len({it[0] for it in shapes}) != 1:
        wanted = " and ".join(map(str, form.planes[:2] if is_coloured else form.planes))
        raise WrongSize(
            f"pictures have the shape {wanted}, or one more for several, and these have "
            f"{', '.join(str(it.shape) for it in arrays)}"
        )
    for it in arrays:
        if it.dtype.newbyteorder("=") != form.dtype.newbyteorder("="):
            raise TypeError(f"samples are {form.dtype}, and these are {it.dtype}")
    return [it.astype(form.dtype, copy=False).reshape(at) for it, at in zip(arrays, shapes)]


def has_two_bytes(frames: Any) -> bool:
    """Whether the samples of pictures, or of their planes, are of two bytes."""
    while isinstance(frames, (list, tuple)) and frames:
        frames = frames[0]
    return np.asarray(frames).dtype.newbyteorder("=") == np.uint16


def check_bits(stacks: list[Array], bits: int) -> None:
    """Refuses samples that need more bits than they are said to have."""
    if bits in (8, 16):
        return
    for stack in stacks:
        if stack.size and (most := int(stack.max())) >> bits:
            raise ValueError(f"a sample is {most}, and {bits} bits hold {2**bits - 1} at most")


def bytes_of(stacks: list[Array], first: int, end: int) -> NDArray[np.uint8]:
    """The bytes of some of the pictures, one after the other, as the file has them. Those of one
    plane that lies in one piece aren't copied."""
    parts = [stack[first:end] for stack in stacks]
    count = end - first
    if len(parts) == 1:
        return np.ascontiguousarray(parts[0]).reshape(-1).view(np.uint8)
    sizes = [part[0].nbytes for part in parts]
    out = np.empty((count, sum(sizes)), np.uint8)
    at = 0
    for part, size in zip(parts, sizes):
        out[:, at : at + size] = np.ascontiguousarray(part).reshape(count, -1).view(np.uint8)
        at += size
    return out.reshape(-1)


# ------------------------------------------------------------------------------- the store


class Writable(Store):
    """A store that is open to write as well. `lapyrei.create` and `lapyrei.open(path, "r+")` make
    it; `with` closes it.

    While it is open no other program can write to the store, and each can read it. **What a call
    answers is on the disk**: a loss of power or a kill leaves what all calls before gave, and the
    one under way as a whole or not at all, or of an `append` its first frames. What it wrote is
    seen by all that reads here; frames and clips that were taken from it before stay as they were.

    Any thread may use it; one call is made after the other. In a process that was forked from its
    own, what writes raises BadHandle, and what reads goes on. A refusal is a `NotDone`, of a class
    for each. After DiskFault it has to be closed and opened again."""

    def __init__(self, handle: library.Handle, bits: int | None = None) -> None:
        self._handle, self._path, self._bits, self._stale = handle, handle.path, bits, False
        self._mutex, self._process = threading.RLock(), os.getpid()
        super().__init__(handle.path)
        heads = self._heads
        self._newest = (int(heads["time"][-1]), int(heads["sequence"][-1])) if len(heads) else None

    @contextlib.contextmanager
    def _alone(self) -> Iterator[None]:
        """One thread at a time. In a forked process a thread that is gone may have had the lock."""
        if self._process != os.getpid():
            self._mutex, self._process = threading.RLock(), os.getpid()
        with self._mutex:
            try:
                yield
            except Refused as fault:
                fault.path = fault.path or self._path
                raise

    @contextlib.contextmanager
    def _writes(self) -> Iterator[None]:
        """The same for a call that writes: BadHandle comes before all else."""
        with self._alone():
            self._handle.check()
            yield

    def _see(self) -> None:
        """Reads what was written since it was read last."""
        if self._stale:
            self._read_again()

    def _read_again(self) -> bool:
        """Reads it; answers whether anything has come."""
        self._stale = False
        try:
            return super().refresh()
        except BaseException:
            self._stale = True
            raise

    @property
    def room(self) -> int:
        """How many frames the next commit may have, 1 to 64: a group ends where its block does."""
        with self._writes():
            return self._handle.room()

    @property
    def form(self) -> Form:
        """How the samples lie; of a store that has no frame yet, as it was made for."""
        return super().form

    def _bits_now(self) -> int:
        if not len(self._heads) and self._bits is not None:
            return self._bits
        return super()._bits_now()

    def __reduce_ex__(self, protocol: Any) -> Any:
        # It travels as its reader: writing stays here.
        with self._alone():
            self._see()
            twin = Store.__new__(Store)
            known = {name: self.__dict__[name] for name in READER}
            twin.__dict__.update(known, _bits_before=self._bits_now())
            return read_only, (twin,)

    # ------------------------------------------------------------------------ frames

    def append(
        self,
        frames: Picture | Frames | Sequence[Any],
        times: Times | None = None,
        *,
        bits: int | None = None,
        sequences: Any = None,
        late: Any = False,
    ) -> Numbers:
        """Stores one picture or several after the newest frame, and answers their numbers.

        `frames` is an array (height, width), or (frames, height, width), of uint8, or of uint16
        where samples have 9 to 16 bits; in colour `Planes` of three such, or a list of pictures.
        Bits are `bits`, or as the store was made for, or as its newest frame has them. Grey that
        lies in one piece (C order) isn't copied. Frames of another store may be given too, as
        `other.events[0]`: they keep bits, counts and times.

        `times` are one for each, which rise: microseconds, datetimes, datetime64 or texts. One
        picture may go without, and is of now. `sequences` are the camera's own counts, by which a
        reader sees what was lost: each one more than the one before, where they are left out.
        `late` marks frames whose time is late.

        Each commit has up to `room` frames, and all are on the disk once it answers. Where one is
        refused, those before it stay, and `stored` of the exception has their numbers.

        Raises WrongSize, BadTime, UnknownDepth, AllLocked, DiskFault, MustReopen, NumbersSpent,
        NoMemory, BadHandle; Moved where the file was removed or renamed; Gone where the other store
        has removed a frame; TypeError for another type of samples, ValueError for one that needs
        more bits."""
        with self._writes():
            if isinstance(frames, Frames):
                return self._copy(frames, times)
            depth = self._depth(frames, bits)
            stacks = stacks_of(frames, form_of(self.geometry, depth))
            check_bits(stacks, depth)
            flags = 0 if depth == 8 else depth << layout.BITS_AT
            heads = self._heads_of(len(stacks[0]), times, sequences, flags, late)
            return self._put(heads, lambda first, end: bytes_of(stacks, first, end))

    def append_raw(
        self, frames: Array, times: Times | None = None, *, sequences: Any = None, flags: Any = 0
    ) -> Numbers:
        """Stores frames by their bytes, as `raw` gives them, without a copy: an array (bytes,) of
        uint8, or (frames, bytes). `flags` are V4L2's, whose bits 24 to 28 say the bits a sample,
        one for all or one for each. Else it is as `append`."""
        with self._writes():
            array = np.asarray(frames)
            size = self.geometry.size
            if array.ndim not in (1, 2) or array.shape[-1] != size:
                raise WrongSize(f"frames have {size} bytes each, and these are {array.shape}")
            if array.dtype != np.uint8:
                raise TypeError(f"bytes are uint8, and these are {array.dtype}")
            stack = array.reshape(-1, size)
            heads = self._heads_of(len(stack), times, sequences, flags, False)
            return self._put(heads, lambda first, end: bytes_of([stack], first, end))

    def _copy(self, frames: Frames, times: Times | None) -> Numbers:
        """Stores frames of another store."""
        old, new = frames._parts[0].geometry, self.geometry
        if old[:3] != new[:3]:
            raise WrongSize(
                f"pictures are {new.width}x{new.height} {new.format.decode()}, and these are "
                f"{old.width}x{old.height} {old.format.decode()} (rows in bytes)"
            )
        heads = self._heads_of(
            len(frames),
            frames.heads["time"] if times is None else times,
            frames.sequences,
            frames.flags,
            False,
        )
        return self._put(
            heads, lambda first, end: np.concatenate([frames.raw(it) for it in range(first, end)])
        )

    def _depth(self, frames: Any, bits: int | None) -> int:
        """The bits of the samples of some pictures."""
        if bits is not None:
            if bits != 8 and bits not in layout.DEEP:
                raise UnknownDepth(f"samples have 8 bits, or 9 to 16, not {bits!r}")
            return operator.index(bits)
        if self._bits is None and self._newest is not None:
            self._bits = layout.bits_of(int(self._heads["flags"][-1]))
        depth = self._bits or 8
        if depth == 8 and has_two_bytes(frames):
            raise UnknownDepth("say how many bits these samples have: bits=9 to bits=16")
        return depth

    def _heads_of(
        self, count: int, times: Times | None, sequences: Any, flags: Any, late: Any
    ) -> Array:
        """What is stored beside the pixels of so many frames."""
        if not count:
            raise WrongSize("there is no frame")
        heads = np.zeros(count, HEADS)
        heads["timestamp"] = self._times_of(count, times)
        heads["sequence"] = self._sequences_of(count, sequences)
        heads["flags"] = spread(flags, count, "flags")
        heads["flags"] |= np.where(spread(late, count, "late") != 0, layout.LATE, 0).astype("u4")
        return heads

    def _times_of(self, count: int, given: Times | None) -> Array:
        """The times of so many frames, which rise from the newest one on."""
        newest = -1 if self._newest is None else self._newest[0]
        if given is None:
            if count > 1:
                raise BadTime(f"{count} frames have {count} times: say them")
            # As the station has it, where a clock was set back.
            return np.array([max(time.time_ns() // 1000, newest + 1)], "u8")
        found = self._moments(given)
        if found.shape != (count,):
            raise BadTime(f"{count} frames have {count} times, and these are {found.shape}")
        if int(found[0]) <= newest:
            raise BadTime(f"times rise: {found[0]} isn't after {newest}, that of the newest frame")
        falls = np.flatnonzero(found[1:] <= found[:-1])
        if len(falls):
            old, new = found[falls[0] : falls[0] + 2]
            raise BadTime(f"times rise: {new} isn't after {old}")
        return found

    def _moments(self, given: Any) -> Array:
        """Times in microseconds."""
        if isinstance(given, np.ndarray) and given.dtype.kind == "M":
            given = vector_of(given).tolist()
        elif isinstance(given, np.ndarray):
            if given.dtype.kind not in "iuOU":
                raise BadTime(f"times are microseconds or datetime64, not {given.dtype}")
            given = given.tolist()
        several = given if isinstance(given, (list, tuple, range)) else [given]
        # Reading again for a text's day isn't needed for a number.
        found = [it if type(it) is int else self.moment(it) for it in several]
        if bad := [it for it in found if not 0 <= it <= U64]:
            raise BadTime(f"a time is 0 to 2^64 - 1 microseconds, not {bad[0]}")
        return np.array(found, "u8")

    def _sequences_of(self, count: int, given: Any) -> Array:
        """The camera's counts of so many frames."""
        if given is None:
            first = 0 if self._newest is None else self._newest[1] + 1
            return (np.arange(first, first + count) % (U32 + 1)).astype("u4")
        return spread(given, count, "sequences")

    def _put(self, heads: Array, bytes_at: Callable[[int, int], Array]) -> Numbers:
        """Stores frames, group by group; answers their numbers."""
        size, done = self.geometry.size, 0
        numbers: list[int] = []
        self._stale = True
        while done < len(heads):
            try:
                # A single frame always has room.
                room = self._handle.room() if len(heads) - done > 1 else 1
                group = heads[done : done + room]
                pixels = bytes_at(done, done + len(group))
                # The library reads as many bytes from there.
                if not pixels.flags.c_contiguous or pixels.nbytes != len(group) * size:
                    raise WrongSize(f"{len(group)} frames have {pixels.nbytes} bytes")
                first = self._handle.append(
                    group.ctypes.data, pixels.ctypes.data, len(group), size
                )
            except (NotDone, Gone) as fault:
                fault.stored = range(numbers[0], numbers[-1] + 1) if numbers else range(0)
                raise
            numbers += range(first, first + len(group))
            done += len(group)
            self._newest = (int(group["timestamp"][-1]), int(group["sequence"][-1]))
            self._bits = layout.bits_of(int(group["flags"][-1]))
        return np.array(numbers, np.int64)

    # ------------------------------------------------------------------------ clips

    def lock(self, first: int, last: int, tag: int = 0) -> Clip:
        """Locks the frames from a number to another, both included, and answers their clip. They
        stay until it is unlocked. A tag is a number of yours.

        Raises ClipEmpty, ClipNotHeld, ClipTableFull (64 are there), OldLayout (a tag in version 1
        of the layout), DiskFault, MustReopen, BadHandle."""
        with self._writes():
            return self.clip(self._lock(first, last, tag))

    def lock_between(self, first: Time, last: Time, tag: int = 0) -> list[Clip]:
        """Locks the held frames from a time to another, both included, and answers their clips: one
        for each run of their numbers, as after a block between them went. All are made, or none.

        Raises ClipEmpty where no frame is of that time, and what `lock` does."""
        with self._writes():
            low, high = (min(max(self.moment(it), 0), U64) for it in (first, last))
            runs = self._handle.frames_of(low, high) if low <= high else []
            if not runs:
                raise ClipEmpty("no frame is held of that time")
            made: list[int] = []
            try:
                for start, end in runs:
                    made.append(self._lock(start, end, tag))
            except NotDone:
                # After a failing disk nothing can be taken back.
                with contextlib.suppress(NotDone):
                    for id_ in made:
                        self._handle.unlock(id_)
                raise
            return [self.clip(id_) for id_ in made]

    def _lock(self, first: int, last: int, tag: int) -> int:
        """Locks, and answers the clip's id."""
        start, end = (whole(it, "a frame's number", U64) for it in (first, last))
        self._stale = True
        return self._handle.lock(start, end, whole(tag, "a tag", U64))

    def unlock(self, clip: Clip | int) -> None:
        """Unlocks a clip, or that of an id: its frames go when their room is needed.

        Raises NoSuchClip, also where the id is another clip's by now; DiskFault, MustReopen,
        BadHandle."""
        with self._writes():
            if isinstance(clip, Clip):
                known = clip.id, clip.first, clip.last, clip.tag
                if known not in self._handle.clips():
                    raise NoSuchClip
                id_ = clip.id
            else:
                id_ = whole(clip, "a clip's id", U32)
            self._stale = True
            self._handle.unlock(id_)

    def upgrade(self) -> bool:
        """Makes version 2 of the layout, which has tags, of version 1; whether it did."""
        with self._writes():
            self._stale = True
            return self._handle.upgrade()

    # ------------------------------------------------------------------------ open and closed

    def refresh(self) -> bool:
        """Whether anything has come since it was read last. It needn't be called: what is written
        here is seen at once, and nobody else writes."""
        with self._alone():
            return self._read_again()

    def close(self) -> None:
        """Closes it: others may write to it. Nothing more can be read from it."""
        with self._alone():
            self._handle.close()
            super().close()

    def __enter__(self) -> Writable:
        return self


def spread(given: Any, count: int, what: str) -> Array:
    """One number for all of so many frames, or one for each, within 32 bits."""
    found = np.asarray(given)
    if found.dtype.kind not in "bui":
        raise TypeError(f"{what} are whole numbers, and these are {found.dtype}")
    if found.shape not in ((), (count,)):
        raise WrongSize(f"{what} are one for each of {count} frames, and these are {found.shape}")
    if found.size and (int(found.min()) < 0 or int(found.max()) > U32):
        raise ValueError(f"{what} are 0 to 2^32 - 1")
    return np.broadcast_to(found.astype("u4"), (count,))


def read_only(store: Store) -> Store:
    """The reader as which a store comes that was open to write elsewhere."""
    return store


def fresh(method: Callable[..., Any]) -> Callable[..., Any]:
    """A method that reads, after what was written here was seen, alone."""

    @functools.wraps(method)
    def call(self: Writable, *words: Any, **named: Any) -> Any:
        with self._alone():
            self._see()
            return method(self, *words, **named)

    return call


# What a reader has of its own (store.Store).
READER = ("_where", "_parts", "_of", "_heads", "_lost", "_clips", "_events")
READING = (
    "__len__ __repr__ __getitem__ __iter__ __array__ heads numbers times when sequences lost flags "
    "bits late form dtype shape take blocks to_dask to_xarray read luma rgb raw array moment "
    "between nearest parts runs clips events clip event index"
)
for _name in READING.split():
    _found = getattr(Writable, _name)
    if isinstance(_found, property):
        _getter = cast(Callable[..., Any], _found.fget)
        setattr(Writable, _name, property(fresh(_getter), doc=_found.__doc__))
    else:
        setattr(Writable, _name, fresh(_found))
