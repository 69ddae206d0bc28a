"""Stores as arrays. What is read is read beside whatever records, takes no lock, and changes
nothing. docs/python.md is for who uses it."""
from __future__ import annotations

import copy
import operator
import os
from collections.abc import Iterator, Sequence
from fractions import Fraction
from typing import Any, overload

import numpy as np
from numpy.typing import NDArray

from . import colour, events, layout, losses, moments, regions, times
from .errors import Gone, MixedDepths, NoSuchEvent, Unlike
from .files import Path, camera_of, files_of
from .losses import Hole
from .moments import Time
from .parts import HEADS, Array, Form, Part, Picture, Planes, form_of, places_of
from .regions import Region

LARGEST = np.iinfo(np.int64).max
# A block of frames has about so many bytes.
BLOCK_BYTES = 1 << 26


class Frames:
    """Frames in time's order, whose pixels are read when they are asked for.

    `frames[n]` is the picture of the n-th of them, from 0 on, or from the end with n below 0. A
    slice, a list of places or a mask gives others, as with an array of numpy: `frames[::10]`,
    `frames[frames.bits == 12]`. With two or three keys it is the pixels of a region, of which those
    rows alone are read: `frames[:, 100:200, 50:90]`. All vectors here have one entry for each
    frame.

    A picture is an array (height, width) of uint8, or of uint16 where samples have 9 to 16 bits,
    which are in the low bits; in colour it is three such, `Planes`. Each was read from the file
    straight into the array, and is yours to change. It is that frame, whole, or `Gone` is raised
    where the ring has removed it meanwhile. Frames of a clip are never removed.

    It may be pickled and copied: to a worker of `multiprocessing`, of torch's DataLoader or of
    dask. There it opens the files anew, and raises Changed where they are others by then."""

    def __init__(
        self, parts: Sequence[Part], of: Array, heads: Array, lost: Array, depth: int = 8
    ) -> None:
        self._parts, self._of, self._heads, self._lost = parts, of, heads, lost
        # The bits of those from which these were chosen.
        self._bits_before = depth

    def __copy__(self) -> Frames:
        return copy.deepcopy(self)

    # ------------------------------------------------------------------------ what is known

    def __len__(self) -> int:
        return len(self._heads)

    def __repr__(self) -> str:
        if not len(self):
            return f"<{type(self).__name__} without a frame>"
        first, last = int(self.times[0]), int(self.times[-1])
        span = " to ".join(times.utc(it) or times.seconds(it) for it in (first, last))
        return f"<{type(self).__name__} of {len(self)} frames, {span}>"

    @property
    def heads(self) -> Array:
        """What the file says of each frame: number, sequence, flags, time and length (`HEADS`)."""
        return self._heads.copy()

    @property
    def numbers(self) -> NDArray[np.int64]:
        """The frames' numbers. They count from 0 in each file."""
        return self._heads["number"].astype(np.int64)

    @property
    def times(self) -> NDArray[np.int64]:
        """The frames' times in microseconds: since 1970, UTC, where a station recorded them. A time
        of 2^63 or more, which no clock gives, is shown as 2^63 - 1; `heads` has it."""
        return np.minimum(self._heads["time"], np.uint64(LARGEST)).astype(np.int64)

    @property
    def when(self) -> NDArray[np.datetime64]:
        """The same times as numpy's `datetime64[us]`, UTC."""
        return self.times.astype("datetime64[us]")

    @property
    def sequences(self) -> NDArray[np.uint32]:
        """The camera's own count, which skips where it lost a frame."""
        return self._heads["sequence"].copy()

    @property
    def lost(self) -> NDArray[np.int64]:
        """How many frames were lost right before each frame, by the camera's own count: those that
        the camera, or what read it, lost. Frames that the ring has removed since aren't among them.
        0 where nothing says it: before the first frame, and where the count began anew."""
        return self._lost.copy()

    @property
    def lost_within(self) -> int:
        """How many frames were lost between the first and the last of these; 0 where they are
        whole. Of chosen frames (`frames[::10]`) it counts what `lost` says of them."""
        return int(self._lost[1:].sum())

    @property
    def holes(self) -> list[Hole]:
        """The places within where frames were lost: the numbers and times of the frames beside
        each, and how many."""
        places = np.flatnonzero(self._lost[1:]) + 1
        numbers, moments = self.numbers, self.times
        return [
            Hole(
                int(numbers[it - 1]),
                int(numbers[it]),
                int(moments[it - 1]),
                int(moments[it]),
                int(self._lost[it]),
            )
            for it in places
        ]

    @property
    def flags(self) -> NDArray[np.uint32]:
        """V4L2's flags. Bits 24 to 28 say the bits a sample, and bit 29 is set of late frames."""
        return self._heads["flags"].copy()

    @property
    def bits(self) -> NDArray[np.uint8]:
        """Bits a sample: 8, or 9 to 16."""
        bits = self._heads["flags"] >> np.uint32(layout.BITS_AT) & np.uint32(layout.BITS_MASK)
        return np.where(bits == 0, 8, bits).astype(np.uint8)

    @property
    def late(self) -> NDArray[np.bool_]:
        """Whether a frame's time is late: it came while the station's program stood still."""
        return np.asarray(self._heads["flags"] & np.uint32(layout.LATE), dtype=np.bool_)

    @property
    def form(self) -> Form:
        """How the samples lie. MixedDepths where the frames don't have the same bits."""
        depths = np.unique(self.bits)
        if len(depths) > 1:
            raise MixedDepths(
                f"these frames have samples of {', '.join(map(str, depths))} bits: "
                "choose those of one, as frames[frames.bits == 8]"
            )
        return form_of(self._parts[0].geometry, int(depths[0]) if len(depths) else self._bits_now())

    def _bits_now(self) -> int:
        """The bits of the newest frame; without one, of those from which these were chosen."""
        return int(self.bits[-1]) if len(self._heads) else self._bits_before

    @property
    def dtype(self) -> np.dtype[Any]:
        """The type of a sample, uint8 or uint16."""
        return self.form.dtype

    @property
    def shape(self) -> tuple[int, int, int]:
        """(frames, height, width), in samples of luma: the shape of `array()`."""
        return len(self._heads), *self.form.planes[0]

    @property
    def ndim(self) -> int:
        """3: frames, rows and columns."""
        return 3

    @property
    def is_grey(self) -> bool:
        """Whether pictures are one array, and not Planes."""
        return layout.DIVIDED[self._parts[0].geometry.format] is None

    # ------------------------------------------------------------------------ pictures

    @overload
    def __getitem__(self, key: int) -> Picture:
        ...

    @overload
    def __getitem__(self, key: slice | list[int] | NDArray[Any]) -> Frames:
        ...

    @overload
    def __getitem__(self, key: tuple[Any, ...]) -> Picture:
        ...

    def __getitem__(self, key: Any) -> Any:
        if isinstance(key, tuple):
            return self._region(*regions.keys_of(key))
        try:
            place = operator.index(key)
        except TypeError:
            return self.take(key)
        return self.read(place)

    def __iter__(self) -> Iterator[Picture]:
        return (self.read(place) for place in range(len(self)))

    def take(self, key: Any) -> Frames:
        """Some of these frames, in time's order or in that of a list of places."""
        if not isinstance(key, slice):
            key = np.asarray(key)
            if key.dtype.kind not in "bui" and key.size:
                raise TypeError(f"frames are chosen by places or a mask, not by {key.dtype}")
            if not key.size:
                key = key.astype(np.int64)
        chosen = self._of[key], self._heads[key], self._lost[key]
        return Frames(self._parts, *chosen, self._bits_now())

    def blocks(self, count: int | None = None) -> Iterator[Frames]:
        """These frames in blocks, for one `array()` after the other: of `count` frames, or of as
        many as have about 64 MB."""
        if count is None:
            count = max(1, BLOCK_BYTES // self._parts[0].geometry.size)
        if operator.index(count) < 1:
            raise ValueError(f"a block has one frame or more, not {count}")
        # Places of a store are others once it is refreshed; those of frames stay.
        whole = self.take(slice(None))
        return (whole.take(slice(it, it + count)) for it in range(0, len(whole), count))

    def _pixels(self, place: int, arrays: Sequence[Array]) -> None:
        """Fills arrays with a frame's pixels, one after the other, from its first byte on."""
        at, pieces = 0, []
        for array in arrays:
            pieces.append((at, array))
            at += array.nbytes
        self._pieces(place, pieces)

    def _pieces(self, place: int, pieces: Sequence[tuple[int, Array]]) -> None:
        part, head = self._parts[int(self._of[place])], self._heads[place]
        part.pixels(int(head["number"]), pieces, head)

    def _region(self, key: Any, rows: Any, columns: Any) -> Picture:
        """The pixels of a region, of one frame or of several."""
        divided = layout.DIVIDED[self._parts[0].geometry.format]
        try:
            place = operator.index(key)
        except TypeError:
            chosen = self.take(key)
            form = chosen.form
            found = regions.regions_of(rows, columns, form.planes, divided)
            stacks = [np.empty((len(chosen), *it.shape()), form.dtype) for it in found]
            for at in range(len(chosen)):
                for stack, plane in zip(stacks, chosen._planes(at, form, found)):
                    stack[at] = plane
            return stacks[0] if len(stacks) == 1 else Planes(*stacks)
        form = self._form_at(place)
        found = regions.regions_of(rows, columns, form.planes, divided)
        planes = self._planes(place, form, found)
        return planes[0] if len(planes) == 1 else Planes(*planes)

    def _planes(
        self, place: int, form: Form, wanted: Sequence[Region], first: int = 0
    ) -> list[Array]:
        """Regions of a frame's planes, from a plane on. Their rows alone are read."""
        starts = form.starts()
        pieces, read = [], []
        for index, region in enumerate(wanted, first):
            width = form.planes[index][1]
            start, end = (0, 0) if region.is_empty() else region.span()
            read.append(np.empty((end - start, width), form.dtype))
            pieces.append((starts[index] + start * width * form.dtype.itemsize, read[-1]))
        self._pieces(place, [it for it in pieces if it[1].size])
        return [
            np.empty(region.shape(), form.dtype) if region.is_empty() else region.of(rows)
            for region, rows in zip(wanted, read)
        ]

    def _form_at(self, place: int) -> Form:
        if not -len(self) <= place < len(self):
            raise IndexError(f"there are {len(self)} frames, and no {place}")
        part = self._parts[int(self._of[place])]
        return form_of(part.geometry, layout.bits_of(int(self._heads["flags"][place])))

    def read(self, place: int, out: Picture | None = None) -> Picture:
        """The picture of a place, as `frames[place]`, read into `out` where that is given: an
        array, or Planes, of the right shapes and type, in one piece (C order)."""
        form = self._form_at(place)
        if out is None:
            arrays = [np.empty(shape, form.dtype) for shape in form.planes]
        else:
            arrays = list(out) if isinstance(out, tuple) else [out]
            good = [it.shape for it in arrays] == list(form.planes)
            if not good or any(
                it.dtype != form.dtype or not it.flags.c_contiguous for it in arrays
            ):
                raise ValueError(f"out has to be in one piece, of {form.dtype} and {form.planes}")
        self._pixels(place, arrays)
        return arrays[0] if len(arrays) == 1 else Planes(*arrays)

    def luma(self, place: int) -> Array:
        """The luma (Y) of a picture alone, or its grey values: an array (height, width). Colour
        isn't read."""
        form = self._form_at(place)
        array = np.empty(form.planes[0], form.dtype)
        self._pixels(place, [array])
        return array

    def rgb(self, place: int, matrix: str = "bt601", full: bool = False) -> Array:
        """A picture as an array (height, width, 3) of red, green and blue, from 0 to
        `2 ** bits - 1`. docs/export.md says what `matrix` and `full` (range) mean."""
        form, picture = self._form_at(place), self.read(place)
        planes = tuple(picture) if isinstance(picture, Planes) else (picture,)
        return colour.rgb_of(planes, form.bits, matrix, full)

    def raw(self, place: int) -> NDArray[np.uint8]:
        """The bytes of a frame as the file has them, whatever its flags say of their depth."""
        self._check_place(place)
        size = self._parts[int(self._of[place])].geometry.size
        array = np.empty(size, np.uint8)
        self._pixels(place, [array])
        return array

    def _check_place(self, place: int) -> None:
        if not -len(self) <= place < len(self):
            raise IndexError(f"there are {len(self)} frames, and no {place}")

    def array(self) -> Picture:
        """All pictures in one array (frames, height, width), or as Planes of three such. Each is
        read straight to its place. MixedDepths where they don't have the same bits."""
        form = self.form
        stacks = [np.empty((len(self), *shape), form.dtype) for shape in form.planes]
        for place in range(len(self)):
            self._pixels(place, [stack[place] for stack in stacks])
        return stacks[0] if len(stacks) == 1 else Planes(*stacks)

    def __array__(self, dtype: Any = None, copy: bool | None = None) -> Array:
        whole = self.array()
        if isinstance(whole, Planes):
            raise TypeError("these frames have colour: take luma, rgb or array(), which has planes")
        return whole if dtype is None else whole.astype(dtype)

    def to_dask(
        self,
        colour: str | None = None,
        *,
        block: int | None = None,
        matrix: str = "bt601",
        full: bool = False,
    ) -> Any:
        """These frames as an array of dask, which reads as far as it is computed, `block` frames at
        once: (frames, height, width). In colour it is `Planes` of three; with `colour` "luma", or
        "rgb" (frames, height, width, 3), it is one. Needs python3-dask."""
        from . import lazy

        return lazy.dask_arrays(self, colour, block, matrix, full)

    def to_xarray(
        self,
        colour: str | None = None,
        *,
        lazy: bool = False,
        matrix: str = "bt601",
        full: bool = False,
    ) -> Any:
        """These frames as a DataArray of xarray, whose `time` is the frames': of UTC, or in seconds
        of another clock. `number`, `sequence`, `lost` and `time_us` stand beside it. In colour it
        is a Dataset of luma, cb and cr; `colour` is as in `to_dask`. With `lazy` dask reads it.
        Needs python3-xarray."""
        from . import lazy as arrays

        return arrays.xarray_of(self, colour, lazy, matrix, full)

    # ------------------------------------------------------------------------ by time

    def moment(self, time: Time) -> int:
        """A time in microseconds. An int is that already. A text is read as store_info reads it:
        seconds, ISO 8601 (of this machine's zone where it names none), or 18:30:05 of the newest
        frame's day. A datetime without a zone is of this machine's; numpy's are UTC. BadTime where
        it is none, as NaT is, or none that 64 bits hold."""
        newest = int(self._heads["time"][-1]) if len(self._heads) else None
        return moments.micros_of(time, newest)

    def between(self, first: Time, last: Time) -> Frames:
        """The frames from a time to another, both included."""
        low, high, at = self.moment(first), self.moment(last), self._heads["time"]
        if high < 0 or low > high:
            return self.take(slice(0))
        return self.take((at >= np.uint64(max(low, 0))) & (at <= np.uint64(high)))

    def nearest(self, given: Any) -> NDArray[np.int64]:
        """The place of the frame that is nearest to each of some times, in microseconds: an array
        of the shape of `given`. Of two that are as near it is the earlier one."""
        if not len(self):
            raise Gone("there are no frames")
        wanted = moments.vector_of(given)
        order = np.argsort(self.times, kind="stable")
        at = self.times[order]
        after = np.clip(np.searchsorted(at, wanted), 0, len(at) - 1)
        before = np.clip(after - 1, 0, None)
        # So no difference is beyond 64 bits.
        inside = np.clip(wanted, at[0], at[-1])
        is_before = inside - at[before] <= at[after] - inside
        found: NDArray[np.int64] = order[np.where(is_before, before, after)]
        return found


class Clip(Frames):
    """The frames of a clip, which stay until it is unlocked: its id (from 0 to 63 in each file),
    its first and last number, its tag, its file's place in `store.parts`, and the times of its
    first and last frame in microseconds."""

    def __init__(self, frames: Frames, span: events.Span) -> None:
        super().__init__(frames._parts, frames._of, frames._heads, frames._lost)
        self.part, self.id, self.tag = span.part, span.id, span.tag
        self.first, self.last = span.first, span.last
        self.since, self.until = int(self.times[0]), int(self.times[-1])


class Event(Frames):
    """The frames of an event: of the clips of one keep (lapyrei.events says how that is told). It
    has `clips`, the tag, the station's `number` of the event or None, the times of its first and
    last frame in microseconds, and a name: the id of its first clip, and in a store of several
    files the file's place before it (`2.0`)."""

    def __init__(self, frames: Frames, clips: list[Clip]) -> None:
        super().__init__(frames._parts, frames._of, frames._heads, frames._lost)
        self.clips, self.tag = clips, clips[0].tag
        self.number = self.tag if self.tag in events.NUMBERS else None
        self.since, self.until = int(self.times[0]), int(self.times[-1])
        first = clips[0]
        self.name = str(first.id) if len(self._parts) == 1 else f"{first.part}.{first.id}"


class Store(Frames):
    """A store as it was when it was opened, or at the last `refresh`: all frames that it held then,
    in time's order, and its clips and events. `lapyrei.open` makes it.

    `parts` are its files. `geometry` is that of the first: its `width` is a row's bytes, while
    `shape` counts samples. `format` is GREY, YM12 (4:2:0), YM16 (4:2:2) or YM24 (4:4:4), and `rate`
    the frames a second that it is made for. Several threads may read from one; `refresh` and
    `close` are for one alone."""

    def __init__(self, where: Path | Sequence[Path]) -> None:
        self._where = where
        parts, none = [Part(path) for path in files_of(where)], np.empty(0, np.int64)
        super().__init__(parts, none, np.empty(0, HEADS), none)
        for part in self._parts[1:]:
            check_alike(self._parts[0], part)
        self._merge()

    def __getstate__(self) -> dict[str, Any]:
        # Another process has another working folder.
        where = self._where
        if isinstance(where, (str, os.PathLike)):
            return {**self.__dict__, "_where": os.path.abspath(where)}
        return {**self.__dict__, "_where": [os.path.abspath(it) for it in where]}

    @property
    def parts(self) -> list[Part]:
        """The files, in the order of their names."""
        return list(self._parts)

    @property
    def geometry(self) -> layout.Geometry:
        """The geometry of the first file."""
        return self._parts[0].geometry

    @property
    def format(self) -> str:
        """GREY, YM12, YM16 or YM24."""
        return str(self.geometry.format.decode())

    @property
    def rate(self) -> Fraction:
        """Frames a second, as the store was made for."""
        return Fraction(self.geometry.num, self.geometry.den)

    @property
    def camera(self) -> str:
        """The camera's name, as its files have it: `left` of left.loop and left.000.loop."""
        return camera_of(self._parts[0].path)

    @property
    def runs(self) -> list[list[tuple[int, int]]]:
        """For each file, the runs of held numbers that follow one another, as (first, last)."""
        return [part.reading.numbers for part in self._parts]

    def _merge(self) -> None:
        """Puts the frames of all files in time's order, and finds clips and events."""
        heads = [part.heads() for part in self._parts]
        of = np.repeat(np.arange(len(heads)), [len(it) for it in heads])
        # Within a file numbers decide, also where a clock was set back.
        keys = [np.maximum.accumulate(it["time"]) for it in heads]
        order = np.argsort(np.concatenate(keys), kind="stable")
        self._of, self._heads = of[order], np.concatenate(heads)[order]
        self._lost = lost_of(self._heads, self._of, self._known())
        self._clips: dict[tuple[int, int], tuple[Array, Clip, events.Span]] = {}
        for index, part in enumerate(self._parts):
            places = np.flatnonzero(self._of == index)
            numbers = self._heads["number"][places]
            for id_, first, last, tag in part.reading.clips:
                start, end = np.searchsorted(numbers, np.array([first, last], "u8"))
                chosen = places[start : end + 1]
                span = events.Span(
                    index, id_, first, last, tag, int(chosen[0]), int(chosen[-1]) + 1
                )
                self._clips[index, id_] = chosen, Clip(self.take(chosen), span), span
        self._events: list[Event] = []
        for spans in events.grouped(span for _, _, span in self._clips.values()):
            # Clips of a number may overlap, while an event grows.
            inside = [self._clips[span.part, span.id][0] for span in spans]
            chosen = np.unique(np.concatenate(inside))
            clips = [self._clips[span.part, span.id][1] for span in spans]
            self._events.append(Event(self.take(chosen), clips))

    def _known(self) -> NDArray[np.bool_]:
        """Before which frames it is known that the ring has removed none since the one before them.
        In one file the numbers say it. Of several, the oldest goes first, so it is known but behind
        a frame of a clip, unless the next one is of that clip's event too."""
        known = np.ones(len(self._heads), np.bool_)
        if len(self._parts) == 1:
            return known
        tags = np.full(len(self._heads), -1, np.int64)
        for index, part in enumerate(self._parts):
            places = np.flatnonzero(self._of == index)
            numbers, slots = self._heads["number"][places], part.geometry.slots
            for _, first, last, tag in part.reading.clips:
                # The ring keeps whole blocks.
                ends = [first // slots * slots, (last // slots + 1) * slots]
                start, end = np.searchsorted(numbers, np.array(ends, "u8"))
                tags[places[start:end]] = tag % (1 << 62)
        known[1:] = (tags[:-1] < 0) | (tags[:-1] == tags[1:])
        return known

    @property
    def clips(self) -> list[Clip]:
        """The clips, by file and id."""
        return [clip for _, clip, _ in self._clips.values()]

    @property
    def events(self) -> list[Event]:
        """The events, in time's order."""
        return list(self._events)

    def clip(self, id: int, part: int = 0) -> Clip:
        """The clip of an id. NoSuchEvent where there is none."""
        found = self._clips.get((part, id))
        if found is None:
            raise NoSuchEvent(
                f"{self._parts[0].path}: no clip {id}" + f" in file {part}" * bool(part)
            )
        return found[1]

    def event(self, name: str | int) -> Event:
        """The event that has a clip of this name: its id, or `PART.ID` in a store of several files;
        or the event of this number of the station. NoSuchEvent where there is none."""
        part, _, id_ = str(name).rpartition(".")
        for event in self._events:
            if event.number is not None and str(event.number) == str(name):
                return event
            if any(str(it.id) == id_ and str(it.part) == (part or "0") for it in event.clips):
                return event
        names = ", ".join(event.name for event in self._events) or "none"
        raise NoSuchEvent(f"{self._parts[0].path}: no event {name}; there are: {names}")

    def index(self, number: int, part: int = 0) -> int:
        """The place of the frame of a number, as `loop_cli list` names it. Gone where it isn't
        held."""
        found = np.empty(0, np.int64)
        if 0 <= number < layout.NUMBERS_END:
            found = np.flatnonzero((self._of == part) & (self.numbers == number))
        if not len(found):
            raise Gone(f"frame {number} isn't held", number, self._parts[0].path)
        return int(found[0])

    def refresh(self) -> bool:
        """Reads what was recorded, locked and removed meanwhile; answers whether anything was. It
        costs the heads of the new frames. Clips, events and frames from before stay as they are,
        and give Gone for what the ring has removed. Where it raises, the store stays as it was."""
        new = [part.read_again() for part in self._parts]
        known = {os.path.realpath(part.path) for part in self._parts}
        more = [Part(it) for it in files_of(self._where) if os.path.realpath(it) not in known]
        for part in more:
            check_alike(self._parts[0], part)
        same = not more and all(
            (it.next, it.clips, it.numbers, it.version)
            == (part.reading.next, part.reading.clips, part.reading.numbers, part.reading.version)
            for part, it in zip(self._parts, new)
        )
        if same:
            return False
        for part, reading in zip(self._parts, new):
            part.reading, part.places = reading, places_of(reading)
        self._parts = [*self._parts, *more]
        self._merge()
        return True

    def close(self) -> None:
        """Closes the files. Nothing more can be read from them, nor from their clips and events."""
        for part in self._parts:
            part.file.close()

    def __enter__(self) -> Store:
        return self

    def __exit__(self, *_: object) -> None:
        self.close()


def check_alike(one: Part, other: Part) -> None:
    """Refuses files whose frames aren't alike."""
    texts = [
        f"{it.width}x{it.height} {it.format.decode()} {it.num}:{it.den}"
        for it in (one.geometry, other.geometry)
    ]
    if texts[0] != texts[1]:
        raise Unlike(f"has frames of {texts[1]}, and {one.path} of {texts[0]}", other.path)


def lost_of(
    heads: Array, of: NDArray[np.int64], known: NDArray[np.bool_]
) -> NDArray[np.int64]:
    """How many frames the camera's count skips right before each frame, in time's order, of files
    `of`. Within a file what its numbers skip was removed by the ring; between two files nothing
    says that but `known`. The count is of 32 bits and goes round; what skips half of it began
    anew."""
    lost = np.zeros(len(heads), np.int64)
    steps = np.diff(heads["sequence"].astype(np.int64))
    numbers = np.diff(heads["number"].astype(np.int64))
    is_turn = np.diff(of) != 0
    skipped = (steps - np.where(is_turn, 1, numbers)) % losses.CYCLE
    lost[1:] = np.where(known[1:] & (skipped < losses.MOST), skipped, 0)
    return lost
