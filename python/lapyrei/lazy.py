"""Frames as arrays that are read where they are needed: of dask, of xarray, and of whatever takes
an object with a shape, a type and slices, as napari does."""
from __future__ import annotations

import importlib
from typing import Any, NamedTuple

import numpy as np
from numpy.typing import NDArray

from . import colour, layout, regions, times
from .errors import MissingPackage
from .files import camera_of
from .parts import Planes
from .store import BLOCK_BYTES, Frames

KINDS = ("planes", "luma", "rgb")
# Times up to here fit numpy's nanoseconds, which xarray has.
NANOSECONDS_END = (2**63 - 1) // 1000


class Lazy:
    """The pictures of frames as one array, which is read as far as it is sliced: luma and grey
    (`plane` 0), a plane of the colours (1 or 2), or red, green and blue (`plane` None)."""

    def __init__(
        self, frames: Frames, plane: int | None = 0, matrix: str = "bt601", full: bool = False
    ) -> None:
        # Places of a store are others once it is refreshed; those of frames stay.
        self.frames, self.plane, self.matrix, self.full = frames[:], plane, matrix, full
        form = frames.form
        self.dtype: np.dtype[Any] = form.dtype
        self.shape: tuple[int, ...] = (len(frames), *form.planes[plane or 0])
        if plane is None:
            self.shape = (*self.shape, 3)
        self.ndim = len(self.shape)

    def __len__(self) -> int:
        return self.shape[0]

    def __dask_tokenize__(self) -> Any:
        whose = [(part.file.whole_path, part.file.identity) for part in self.frames._parts]
        which = (self.frames._of.tobytes(), self.frames._heads.tobytes())
        return ("lapyrei", whose, which, self.plane, self.matrix, self.full)

    def __array__(self, dtype: Any = None, copy: bool | None = None) -> NDArray[Any]:
        whole: NDArray[Any] = self[:]
        return whole if dtype is None else whole.astype(dtype)

    def __getitem__(self, key: Any) -> Any:
        which, *sides = regions.keys_of(key if isinstance(key, tuple) else (key,), self.ndim)
        places, is_one = regions.places_of(which, len(self), "frames")
        height, width = self.shape[1:3]
        region = regions.region_of(sides[0], sides[1], (height, width))
        found = np.empty((len(places), *region.shape(), *self.shape[3:]), self.dtype)
        for at, place in enumerate(places):
            found[at] = self.read(place, region)
        if self.ndim == 4:
            found = found[..., sides[2]]
        return found[0] if is_one else found

    def read(self, place: int, region: regions.Region) -> NDArray[Any]:
        """A region of a picture."""
        form = self.frames.form
        if self.plane is not None:
            return self.frames._planes(place, form, [region], self.plane)[0]
        if region.is_empty():
            return np.empty((*region.shape(), 3), self.dtype)
        whole = regions.Region(range(*region.span()), range(self.shape[2]))
        divided = layout.DIVIDED[self.frames._parts[0].geometry.format]
        rows = slice(whole.rows.start, whole.rows.stop)
        wanted = regions.regions_of(rows, slice(None), form.planes, divided)
        planes = self.frames._planes(place, form, wanted)
        if divided:
            # The samples of the first row stand from an even row on.
            first = whole.rows.start % divided[1]
            planes = [planes[0], *(grown(it, divided, first, planes[0].shape) for it in planes[1:])]
        rgb = colour.rgb_of(tuple(planes), form.bits, self.matrix, self.full)
        start = whole.rows.start
        chosen = rgb[regions.slice_of(region.rows, start), regions.slice_of(region.columns, 0)]
        return chosen.reshape((*region.shape(), 3))


def grown(
    plane: NDArray[Any], divided: tuple[int, int], first: int, shape: tuple[int, ...]
) -> NDArray[Any]:
    """The samples of the colours, each for its pixels: from a row of them on, and so many."""
    across, down = divided
    whole = np.repeat(np.repeat(plane, across, axis=1), down, axis=0)
    return whole[first : first + shape[0], : shape[1]]


def loaded(module: str, package: str) -> Any:
    """A library that isn't needed otherwise."""
    try:
        return importlib.import_module(module)
    except ModuleNotFoundError as fault:
        if fault.name is not None and not module.startswith(fault.name.split(".")[0]):
            raise
        raise MissingPackage(f"lapyrei.{module.split('.')[0]}", package) from None


def lazies(frames: Frames, kind: str | None, matrix: str, full: bool) -> dict[str, Lazy]:
    """The arrays of a kind, by their names."""
    if kind not in (None, *KINDS):
        raise ValueError(f"colour is planes, luma or rgb, not {kind!r}")
    if frames.is_grey or kind == "luma":
        return {"frames": Lazy(frames)}
    if kind == "rgb":
        return {"frames": Lazy(frames, None, matrix, full)}
    return {name: Lazy(frames, plane) for plane, name in enumerate(("luma", "cb", "cr"))}


def dask_of(lazy: Lazy, block: int | None) -> Any:
    """A dask array, in blocks of whole frames."""
    array = loaded("dask.array", "python3-dask")
    size = int(np.prod(lazy.shape[1:])) * lazy.dtype.itemsize
    count = max(1, BLOCK_BYTES // max(1, size)) if block is None else block
    chunks = (min(count, max(1, len(lazy))), *lazy.shape[1:])
    empty = np.empty((0,) * lazy.ndim, lazy.dtype)
    return array.from_array(lazy, chunks=chunks, fancy=False, lock=False, meta=empty)


def dask_arrays(
    frames: Frames, kind: str | None, block: int | None, matrix: str, full: bool
) -> Any:
    """What `Frames.to_dask` gives."""
    made = [dask_of(it, block) for it in lazies(frames, kind, matrix, full).values()]
    return made[0] if len(made) == 1 else Planes(*made)


class Clock(NamedTuple):
    """A coordinate of times: values, and what is said of them."""

    values: NDArray[Any]
    about: dict[str, str]


def clock_of(frames: Frames) -> Clock:
    """The frames' times: as numpy's of UTC where all are times of the day, else in seconds."""
    moments = frames.times
    ends = (int(moments.min(initial=times.DAYS_BEGIN)), int(moments.max(initial=0)))
    if ends[0] >= times.DAYS_BEGIN and ends[1] <= NANOSECONDS_END:
        return Clock(moments.astype("datetime64[us]").astype("datetime64[ns]"), {})
    return Clock(moments / 1e6, {"units": "s"})


def coordinates(frames: Frames) -> dict[str, Any]:
    """What xarray has beside the pictures, along the time."""
    clock = clock_of(frames)
    vectors = {"time_us": frames.times, "number": frames.numbers, "sequence": frames.sequences}
    vectors["lost"] = frames.lost
    return {
        "time": ("time", clock.values, clock.about),
        **{name: ("time", vector) for name, vector in vectors.items()},
    }


def about(frames: Frames) -> dict[str, Any]:
    """What is said of frames: words and numbers alone."""
    part = frames._parts[0]
    it = part.geometry
    return {
        "camera": camera_of(part.path),
        "store": part.file.whole_path,
        "format": it.format.decode(),
        "bits": frames.form.bits,
        "rate": it.num / it.den,
    }


def xarray_of(frames: Frames, kind: str | None, is_lazy: bool, matrix: str, full: bool) -> Any:
    """What `Frames.to_xarray` gives."""
    xarray = loaded("xarray", "python3-xarray")
    sides = {"cb": ("y_colour", "x_colour"), "cr": ("y_colour", "x_colour")}
    along, told = coordinates(frames), about(frames)
    made = {}
    for name, lazy in lazies(frames, kind, matrix, full).items():
        data = dask_of(lazy, None) if is_lazy else lazy[:]
        dims = ("time", *sides.get(name, ("y", "x")), *("colour",) * (lazy.ndim == 4))
        more = {"colour": list("rgb")} if lazy.ndim == 4 else {}
        made[name] = xarray.DataArray(data, {**along, **more}, dims, name, told)
    return made["frames"] if "frames" in made else xarray.Dataset(made, attrs=told)
