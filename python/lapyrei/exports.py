"""Frames as files of science: HDF5, Zarr, TIFF for ImageJ, OME, films, PNG, NPY, YUV4MPEG2 and CSV.

    lapyrei.export(store.events[-1], "h5", "event.h5")

Each file has the frames' numbers and times, and says of which camera and store they are. It is made
under a hidden name, synced, read back where that is asked for (lapyrei.verify), and then named: a
stop leaves nothing of it (lapyrei.place)."""
from __future__ import annotations

import contextlib
import csv
import importlib
import io
import json
import os
from collections.abc import Callable, Iterator
from dataclasses import dataclass
from typing import Any, NamedTuple

import numpy as np
from numpy.typing import NDArray

from . import __version__, films, layout, ome, times, verify, zarr3
from .careful import CarefulFile
from .errors import ExportFault, MissingPackage
from .files import camera_of
from .place import check_room, forget_cached, place_for, sync_all
from .parts import Planes
from .store import Clip, Event, Frames, Store

Array = NDArray[Any]
Done = Callable[[int], None]
# A TIFF that has more bytes is a BigTIFF: ImageJ's own kind has no room for them.
TIFF_BYTES = (1 << 32) - (1 << 26)


@dataclass(frozen=True)
class Options:
    """What is exported of a frame. `colour` is "planes" (Y, Cb and Cr apart, as they were
    recorded), "rgb" or "luma" (Y alone); None takes planes, or RGB where a format has no planes
    (tiff, png, ome-tiff, ome-zarr). `matrix` and `full` are those of `Frames.rgb`. `lossless` is
    for mp4, `compress` for h5, zarr and zarr3. With `force` what stands at the path is replaced.
    `big` makes a BigTIFF of a small one. With `verify` what was written is read back and compared
    before it gets its name: pixels, times and tags."""

    colour: str | None = None
    matrix: str = "bt601"
    full: bool = False
    lossless: bool = False
    compress: bool = False
    force: bool = False
    big: bool = False
    verify: bool = False


class Kind(NamedTuple):
    """A format: its files' ending, its package, what it does with colour, what writes it, and
    whether its size is known beforehand: that of the samples, where they aren't compressed."""

    ending: str
    module: str | None
    package: str | None
    colours: tuple[str, ...]
    write: Callable[[Job, str], None]
    is_plain: bool = False


class Job:
    """An export: the frames, and what it is asked to make of them. `digests` has the checksums of
    the pictures that were handed out, where they are read back."""

    def __init__(self, frames: Frames, options: Options, colour: str, done: Done) -> None:
        self.frames, self.options, self.colour, self.done = frames, options, colour, done
        self.digests: list[dict[str, bytes]] = []
        self.module: Any = None
        self.form, part = frames.form, frames._parts[0]
        self.geometry, self.path = part.geometry, part.path
        self.divided = layout.DIVIDED[self.geometry.format]

    def library(self) -> Any:
        """The library that the format needs."""
        return self.module

    def layers(self) -> dict[str, tuple[int, ...]]:
        """The arrays of a picture, each with its shape: `frames`, or `y`, `cb` and `cr`."""
        if self.colour == "rgb" and self.divided:
            return {"frames": (*self.form.planes[0], 3)}
        if self.colour == "planes" and self.divided:
            return dict(zip(("y", "cb", "cr"), self.form.planes))
        return {"frames": self.form.planes[0]}

    def picture(self, place: int) -> dict[str, Array]:
        """The arrays of a frame."""
        if self.colour == "rgb" and self.divided:
            return {"frames": self.frames.rgb(place, self.options.matrix, self.options.full)}
        if self.colour == "planes" and self.divided:
            picture = self.frames.read(place)
            assert isinstance(picture, Planes)
            return picture._asdict()
        return {"frames": self.frames.luma(place)}

    def pictures(self) -> Iterator[dict[str, Array]]:
        """All of them, one after the other; each is counted once it was used."""
        self.digests = []
        for place in range(len(self.frames)):
            picture = self.picture(place)
            if self.options.verify:
                self.digests.append(verify.digests(picture))
            yield picture
            self.done(place + 1)

    def size(self) -> int:
        """The bytes of all samples."""
        sides = sum(int(np.prod(shape)) for shape in self.layers().values())
        return sides * self.form.dtype.itemsize * len(self.frames)

    def about(self) -> dict[str, Any]:
        """What a file says of itself: words and numbers alone."""
        it, frames = self.geometry, self.frames
        height, width = self.form.planes[0]
        about: dict[str, Any] = {
            "camera": camera_of(self.path),
            "store": os.path.abspath(self.path),
            "format": it.format.decode(),
            "width": width,
            "height": height,
            "bits": self.form.bits,
            "rate": [it.num, it.den],
            "time_unit": "microseconds since 1970-01-01T00:00:00Z, or of another clock",
            "first_time": times.utc(int(frames.times[0])),
            "lost": frames.lost_within,
            "made_by": f"lapyrei {__version__}",
        }
        if self.divided and self.colour == "rgb":
            about[
                "rgb"
            ] = f"{self.options.matrix}, {'full' if self.options.full else 'limited'} range"
        clips = frames.clips if isinstance(frames, (Event, Store)) else []
        clips = [frames] if isinstance(frames, Clip) else clips
        if clips:
            about["clips"] = [f"{it.id} {it.first}..{it.last} tag {it.tag}" for it in clips]
        return about

    def vectors(self) -> dict[str, Array]:
        """What is said of each frame."""
        frames = self.frames
        return {
            "time_us": frames.times,
            "number": frames.numbers,
            "sequence": frames.sequences,
            "lost": frames.lost,
            "bits": frames.bits,
        }

    def table(self) -> str:
        """The same as CSV."""
        out, frames = io.StringIO(newline=""), self.frames
        rows = csv.writer(out)
        rows.writerow(["number", "time_us", "time", "sequence", "bits", "file"])
        names = [os.path.basename(part.path) for part in frames._parts]
        heads = frames.heads
        for head, bits, of in zip(heads.tolist(), frames.bits.tolist(), frames._of.tolist()):
            rows.writerow([head[0], head[3], times.utc(head[3]), head[1], bits, names[of]])
        return out.getvalue()

    def info(self) -> str:
        """What is said of the file, a line for each."""
        return "\n".join(f"{name}: {value}" for name, value in self.about().items())

    def png_name(self, place: int) -> str:
        """The name of a frame's picture: its number and time, and of several files which."""
        number, moment = int(self.frames.numbers[place]), int(self.frames.times[place])
        day = times.utc(moment).replace(":", "-")
        name = f"{number:010}{'_' * bool(day)}{day}.png"
        return name if len(self.frames._parts) == 1 else f"{int(self.frames._of[place]):03}_{name}"

    def label(self, place: int) -> str:
        """A frame's number and time, in words."""
        number, moment = int(self.frames.numbers[place]), int(self.frames.times[place])
        return f"{number} {times.utc(moment) or f'{moment} us'}"


def export(
    frames: Frames,
    kind: str,
    out: str,
    options: Options | None = None,
    done: Done | None = None,
) -> int:
    """Writes frames into the file or folder `out`, which must not be there, and answers how many.

    `kind` is a name of `KINDS`: h5, zarr, zarr3, ome-zarr, tiff, ome-tiff, mkv, mp4, png, npy, y4m
    or csv. `done` is called with the number of frames that are written so far. Raises
    MissingPackage, Gone where the ring removes a frame meanwhile (lock it first), MixedDepths, and
    ExportFault for the rest, as where the disk has no room for it; then nothing is left at `out` or
    beside it."""
    if kind not in KINDS:
        raise ExportFault(f"no format {kind}: there are {', '.join(KINDS)}")
    it, chosen = KINDS[kind], options or Options()
    if not len(frames):
        raise ExportFault("there is no frame to export")
    colour = chosen.colour or it.colours[0]
    if colour not in it.colours:
        raise ExportFault(f"{kind} takes {' or '.join(it.colours)}, and not {colour}")
    if chosen.verify and kind == "mp4" and not chosen.lossless:
        raise ExportFault("mp4 is for the eye, and has other pixels: verify it with lossless")
    job = Job(frames, chosen, colour, done or (lambda count: None))
    if it.module and it.package:
        job.module = load(it.module, kind, it.package)
    if it.is_plain and not chosen.compress:
        check_room(out, job.size())
    with place_for(out, chosen.force) as made:
        with told(out):
            it.write(job, made)
            if chosen.verify:
                sync_all(made)
                forget_cached(made)
                verify.verify(kind, job, made)
    return len(frames)


@contextlib.contextmanager
def told(out: str) -> Iterator[None]:
    """What a library raises is told as an export's fault."""
    try:
        yield
    except (OSError, RuntimeError) as fault:
        if isinstance(fault, MissingPackage):
            raise
        why = getattr(fault, "strerror", None) or fault
        raise ExportFault(f"cannot write {out}: {why}") from fault


def load(module: str, kind: str, package: str) -> Any:
    """A library."""
    try:
        return importlib.import_module(module)
    except ModuleNotFoundError as fault:
        if fault.name != module:
            raise
        raise MissingPackage(kind, package) from None


# ----------------------------------------------------------------------------------- arrays


def write_h5(job: Job, path: str) -> None:
    """HDF5: a data set (frames, height, width) for each plane, in chunks of a frame."""
    more: dict[str, Any] = {}
    if job.options.compress:
        more = {"compression": "gzip", "compression_opts": 1, "shuffle": job.form.bits > 8}
    with contextlib.closing(CarefulFile(path)) as disk:
        with job.library().File(disk, "w") as file:
            sets = {
                name: file.create_dataset(
                    name, (len(job.frames), *shape), job.form.dtype, chunks=(1, *shape), **more
                )
                for name, shape in job.layers().items()
            }
            for place, picture in enumerate(job.pictures()):
                for name, array in picture.items():
                    sets[name][place] = array
                disk.check()
            for name, vector in job.vectors().items():
                file.create_dataset(name, data=vector)
            file["time_us"].attrs["units"] = job.about()["time_unit"]
            file.attrs.update(job.about())
        disk.check()


def write_zarr(job: Job, path: str) -> None:
    """Zarr: a group with an array (frames, height, width) for each plane, in chunks of a frame."""
    group = job.library().open_group(path, mode="w")
    more = {} if job.options.compress else {"compressor": None}
    arrays = {
        name: group.create_dataset(
            name,
            shape=(len(job.frames), *shape),
            chunks=(1, *shape),
            dtype=job.form.dtype,
            fill_value=None,
            **more,
        )
        for name, shape in job.layers().items()
    }
    for place, picture in enumerate(job.pictures()):
        for name, array in picture.items():
            arrays[name][place] = array
    for name, vector in job.vectors().items():
        group.create_dataset(name, data=vector, chunks=False, compressor=None)
    group.attrs.update(job.about())


def write_ome_zarr(job: Job, path: str) -> None:
    """OME-Zarr (NGFF 0.4): an array `0` of (t, c, y, x), in chunks of a frame's plane; the vectors
    beside it."""
    group = job.library().open_group(path, mode="w")
    shape = job.layers()["frames"]
    samples = shape[2] if len(shape) == 3 else 1
    array = group.create_dataset(
        "0",
        shape=(len(job.frames), samples, *shape[:2]),
        chunks=(1, 1, *shape[:2]),
        dtype=job.form.dtype,
        fill_value=None,
        dimension_separator="/",
        **({} if job.options.compress else {"compressor": None}),
    )
    for place, picture in enumerate(job.pictures()):
        plane = picture["frames"]
        array[place] = np.moveaxis(plane, -1, 0) if samples > 1 else plane[np.newaxis]
    for name, vector in job.vectors().items():
        group.create_dataset(name, data=vector, chunks=False, compressor=None)
    group.attrs.update(ome.ngff(job))


def write_zarr3(job: Job, path: str) -> None:
    """Zarr of the third version of its format: the same arrays, by a writer of our own."""
    zarr3.make_group(path, job.about())
    count, packs = len(job.frames), job.options.compress
    arrays = {
        name: zarr3.Store(
            os.path.join(path, name), (count, *shape), (1, *shape), job.form.dtype, packs
        )
        for name, shape in job.layers().items()
    }
    for place, picture in enumerate(job.pictures()):
        for name, array in picture.items():
            arrays[name].put((place, *[0] * array.ndim), array)
    for name, vector in job.vectors().items():
        made = zarr3.Store(os.path.join(path, name), (count,), (count,), vector.dtype, False)
        made.put((0,), vector)


def write_npy(job: Job, path: str) -> None:
    """NPY: a folder with `frames.npy`, or `y.npy`, `cb.npy` and `cr.npy`, each
    (frames, height, width), with vectors beside them and `about.json`. Each can be mapped."""
    os.mkdir(path)
    with contextlib.ExitStack() as stack:
        files = {}
        for name, shape in job.layers().items():
            files[name] = stack.enter_context(open(os.path.join(path, f"{name}.npy"), "wb"))
            # numpy's own header, of an array that takes no memory.
            whole = np.broadcast_to(np.zeros((), job.form.dtype), (len(job.frames), *shape))
            form: Any = np.lib.format
            front = form.header_data_from_array_1_0(whole)
            front["fortran_order"] = False
            form.write_array_header_2_0(files[name], front)
        for picture in job.pictures():
            for name, array in picture.items():
                files[name].write(np.ascontiguousarray(array).data)
    for name, vector in job.vectors().items():
        np.save(os.path.join(path, f"{name}.npy"), vector)
    write_text(os.path.join(path, "about.json"), json.dumps(job.about(), indent=1) + "\n")


def write_text(path: str, text: str) -> None:
    """A file of text, with the line ends that it has."""
    with open(path, "w", encoding="utf-8", newline="") as file:
        file.write(text)


# ----------------------------------------------------------------------------------- pictures


def write_tiff(job: Job, path: str) -> None:
    """A page for each frame: a stack of ImageJ with a label for each slice; or, beyond 4 GB and of
    deep RGB, which ImageJ's own kind doesn't have, a TIFF or BigTIFF whose pages have the label as
    their description."""
    tifffile = job.library()
    shape, count = job.layers()["frames"], len(job.frames)
    size = count * (int(np.prod(shape)) * job.form.dtype.itemsize + 256)
    is_rgb = len(shape) == 3
    is_big = job.options.big or size > TIFF_BYTES
    kind: dict[str, Any] = {"photometric": "rgb" if is_rgb else "minisblack"}
    kind["dtype"] = job.form.dtype
    info = job.info()
    rate = job.geometry.rate()
    if not is_big and not (is_rgb and job.form.bits > 8):
        kind["metadata"] = {
            "axes": "TYXS" if is_rgb else "TYX",
            "fps": rate,
            "finterval": 1 / rate,
            "tunit": "s",
            "Labels": [job.label(place) for place in range(count)],
            "Info": info,
        }
        with tifffile.TiffWriter(path, imagej=True) as file:
            file.write((it["frames"] for it in job.pictures()), shape=(count, *shape), **kind)
        return
    with tifffile.TiffWriter(path, bigtiff=is_big) as file:
        for place, picture in enumerate(job.pictures()):
            text = f"{job.label(place)}\n{info}" if place == 0 else job.label(place)
            file.write(picture["frames"], description=text, metadata=None, **kind)


def write_ome_tiff(job: Job, path: str) -> None:
    """OME-TIFF: a page for each frame, and OME-XML that says bits, channel and times."""
    shape, text = job.layers()["frames"], ome.xml(job)
    size = job.size() + len(text) + len(job.frames) * 256
    kind = {"photometric": "rgb" if len(shape) == 3 else "minisblack", "dtype": job.form.dtype}
    is_big = job.options.big or size > TIFF_BYTES
    with job.library().TiffWriter(path, bigtiff=is_big, byteorder="<") as file:
        for place, picture in enumerate(job.pictures()):
            description = text if place == 0 else None
            file.write(picture["frames"], description=description, metadata=None, **kind)


def write_png(job: Job, path: str) -> None:
    """A folder of PNGs, of 8 or 16 bits, and `frames.csv`. Deep samples keep their values."""
    png = job.library()
    os.mkdir(path)
    (height, width, *more), depth = job.layers()["frames"], job.form.dtype.itemsize * 8
    for place, picture in enumerate(job.pictures()):
        array = picture["frames"]
        rows = array.reshape(height, -1).astype(">u2" if depth == 16 else "u1", copy=False)
        writer = png.Writer(width, height, greyscale=not more, bitdepth=depth, compression=1)
        with open(os.path.join(path, job.png_name(place)), "xb") as file:
            writer.write_packed(file, (row.tobytes() for row in rows))
    write_text(os.path.join(path, "frames.csv"), job.table())


def write_csv(job: Job, path: str) -> None:
    """A line for each frame: number, time, the camera's count, bits and file."""
    write_text(path, job.table())
    job.done(len(job.frames))


def write_y4m(job: Job, path: str) -> None:
    """YUV4MPEG2, byte for byte as `loop_cli export` and a save of the station write it: one text of
    all frames, also of an event whose clips lie in several stores."""
    with open(path, "wb") as file:
        file.write(layout.text_front(job.geometry, job.form.bits))
        for picture in job.pictures():
            file.write(b"FRAME\n")
            for plane in picture.values():
                file.write(plane.tobytes())


# ----------------------------------------------------------------------------------- films


def write_film(job: Job, path: str, words: list[str], given: int) -> None:
    """A film, whose frames are given to ffmpeg as samples of so many bits."""
    frames, it = job.frames, job.geometry
    divided = None if job.colour == "luma" else job.divided
    moments, _ = films.film_times(frames.times, it.period())
    height, width = job.form.planes[0]
    front = films.stream_front(width, height, films.code_of(divided, given), it.den / it.num)
    about = job.about()
    words = [*words, "-metadata", f"comment={json.dumps(about)}"]
    words += ["-metadata", f"title={about['camera']} {about['first_time']}".rstrip()]
    if about["first_time"]:
        words += ["-metadata", f"creation_time={about['first_time']}"]
    planes = (
        (int(moment), list(picture.values())) for moment, picture in zip(moments, job.pictures())
    )
    films.encode(words, path, front, planes)


def write_mkv(job: Job, path: str) -> None:
    """FFV1 in Matroska, without loss, with the table of numbers and times attached."""
    divided = None if job.colour == "luma" else job.divided
    words, given = films.lossless_words(divided, job.form.bits, job.form.planes[0])
    table = os.path.join(os.path.dirname(path), "frames.csv")
    write_text(table, job.table())
    words += ["-attach", table, "-metadata:s:t", "mimetype=text/csv"]
    words += ["-metadata:s:t", "filename=frames.csv", "-f", "matroska"]
    write_film(job, path, words, given)
    os.unlink(table)


def write_mp4(job: Job, path: str) -> None:
    """H.264 in MP4, for the eye; without loss on demand."""
    divided = None if job.colour == "luma" else job.divided
    words, given = films.playable_words(divided, job.form.bits, job.options.lossless)
    write_film(job, path, [*words, "-f", "mp4"], given)


PLANES, ALL, FLAT = ("planes", "luma"), ("planes", "rgb", "luma"), ("rgb", "luma")
KINDS: dict[str, Kind] = {
    "h5": Kind("h5", "h5py", "python3-h5py", ALL, write_h5, True),
    "zarr": Kind("zarr", "zarr", "python3-zarr", ALL, write_zarr, True),
    "zarr3": Kind("zarr", None, None, ALL, write_zarr3, True),
    "ome-zarr": Kind("ome.zarr", "zarr", "python3-zarr", FLAT, write_ome_zarr, True),
    "tiff": Kind("tif", "tifffile", "python3-tifffile", FLAT, write_tiff, True),
    "ome-tiff": Kind("ome.tif", "tifffile", "python3-tifffile", FLAT, write_ome_tiff, True),
    "mkv": Kind("mkv", None, None, PLANES, write_mkv),
    "mp4": Kind("mp4", None, None, PLANES, write_mp4),
    "png": Kind("png", "png", "python3-png", FLAT, write_png),
    "npy": Kind("npy", None, None, ALL, write_npy, True),
    "y4m": Kind("y4m", None, None, ("planes",), write_y4m, True),
    "csv": Kind("csv", None, None, ALL, write_csv),
}
