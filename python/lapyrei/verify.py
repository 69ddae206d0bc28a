"""Exports that prove themselves: each is read back from the disk, and its pixels, times and tags
are compared with what was handed to it. Of each picture that was exported a checksum stays, so that
the ring may go on meanwhile. A film and a table are also compared with what a station's page says
of a clip (lapyrei.sums)."""
from __future__ import annotations

import contextlib
import csv
import hashlib
import json
import os
import subprocess
import tempfile
from collections.abc import Callable, Iterator
from typing import TYPE_CHECKING, Any, NamedTuple, Protocol

import numpy as np
from numpy.typing import NDArray

from . import films, layout, ome, zarr3
from .errors import ExportFault

if TYPE_CHECKING:
    from .exports import Job
    from .parts import Form

Array = NDArray[Any]
Pictures = Iterator[dict[str, Array]]


class Back(NamedTuple):
    """What a file says: its pictures one after the other, its vectors, what it says of itself, and
    texts that have to be the same, each beside the one that is wanted. A table's pictures have no
    pixels."""

    pictures: Pictures
    vectors: dict[str, Any]
    about: Any
    texts: tuple[tuple[str, Any, Any], ...] = ()
    has_pixels: bool = True


class Timed(Protocol):
    """Frames that have times, in microseconds."""

    def __len__(self) -> int:
        ...

    @property
    def times(self) -> Array:
        """Their times."""


class Wanted(Protocol):
    """What has been handed out, as far as films and tables have it: an export's frames, or those of
    a page's clip. `digests` has the checksums of the pictures."""

    geometry: layout.Geometry
    form: Form
    digests: list[dict[str, bytes]]

    @property
    def frames(self) -> Timed:
        """The frames."""

    def layers(self) -> dict[str, tuple[int, ...]]:
        """The arrays of a picture, each with its shape."""

    def vectors(self) -> dict[str, Array]:
        """What is said of each frame."""

    def about(self) -> dict[str, Any]:
        """What a file says of itself."""

    def table(self) -> str:
        """The table of numbers and times."""


def digest(array: Array) -> bytes:
    """A checksum of an array: of its shape, and of its samples as the little end first."""
    dtype = array.dtype.newbyteorder("<")
    found = hashlib.blake2b(repr((array.shape, dtype.str)).encode(), digest_size=16)
    found.update(np.ascontiguousarray(array, dtype).data)
    return found.digest()


def digests(picture: dict[str, Array]) -> dict[str, bytes]:
    """The checksums of a picture's arrays."""
    return {name: digest(array) for name, array in picture.items()}


def verify(kind: str, job: Job, path: str) -> None:
    """Reads an export back; ExportFault where anything is other than it was handed out."""
    with told():
        compare(job, READERS[kind](job, path))


def verify_text(kind: str, wanted: Wanted, path: str) -> None:
    """The same of a film (y4m) or a table (csv), whoever has handed it out."""
    with told():
        compare(wanted, TEXTS[kind](wanted, path))


@contextlib.contextmanager
def told() -> Iterator[None]:
    """Whatever goes wrong is a fault of the export."""
    try:
        yield
    except ExportFault as fault:
        raise ExportFault(f"what was written isn't what was read back: {fault}") from None
    except Exception as fault:
        raise ExportFault(f"what was written can't be read back: {fault!r}") from fault


def compare(job: Wanted, back: Back) -> None:
    """Compares what was read back with what was handed out."""
    count = 0
    for place, picture in enumerate(back.pictures):
        count = place + 1
        wanted = job.digests[place] if back.has_pixels and place < len(job.digests) else {}
        for name, digest_ in wanted.items():
            if name not in picture or digest(picture[name]) != digest_:
                raise ExportFault(f"the pixels of picture {place} ({name})")
    if count != len(job.frames):
        raise ExportFault(f"{count} pictures, and not {len(job.frames)}")
    for name, vector in job.vectors().items():
        if name in back.vectors and not np.array_equal(np.asarray(back.vectors[name]), vector):
            raise ExportFault(f"the vector {name}")
    if back.about is not None and plain(back.about) != plain(job.about()):
        raise ExportFault(f"what it says of itself: {plain(back.about)}")
    for what, found, wanted in back.texts:
        if found != wanted:
            raise ExportFault(what)


def plain(about: Any) -> Any:
    """Words and numbers as JSON has them."""

    def small(value: Any) -> Any:
        return value.tolist() if isinstance(value, (np.ndarray, np.generic)) else list(value)

    return json.loads(json.dumps(dict(about), sort_keys=True, default=small))


def rows_of(job: Job, arrays: dict[str, Any]) -> Pictures:
    """The pictures of arrays whose first side is the frames'."""
    for name, array in arrays.items():
        if len(array) != len(job.frames):
            raise ExportFault(f"{name} has {len(array)} frames")
    for place in range(len(job.frames)):
        yield {name: np.asarray(array[place]) for name, array in arrays.items()}


# ----------------------------------------------------------------------------------- arrays


def back_h5(job: Job, path: str) -> Back:
    """HDF5."""
    h5py = job.library()
    file = h5py.File(path, "r")
    vectors = {name: file[name][:] for name in job.vectors()}

    def pictures() -> Pictures:
        with file:
            yield from rows_of(job, {name: file[name] for name in job.layers()})

    return Back(pictures(), vectors, dict(file.attrs))


def back_zarr(job: Job, path: str) -> Back:
    """Zarr of the second version."""
    group = job.library().open_group(path, mode="r")
    vectors = {name: group[name][:] for name in job.vectors()}
    arrays = {name: group[name] for name in job.layers()}
    return Back(rows_of(job, arrays), vectors, group.attrs.asdict())


def back_ome_zarr(job: Job, path: str) -> Back:
    """OME-Zarr."""
    group = job.library().open_group(path, mode="r")
    vectors = {name: group[name][:] for name in job.vectors()}
    said, is_rgb = group.attrs.asdict(), len(job.layers()["frames"]) == 3

    def pictures() -> Pictures:
        for picture in rows_of(job, {"frames": group["0"]}):
            planes = picture["frames"]
            yield {"frames": np.moveaxis(planes, 0, -1) if is_rgb else planes[0]}

    return Back(pictures(), vectors, None, (("its attributes", plain(said), plain(ome.ngff(job))),))


def back_zarr3(job: Job, path: str) -> Back:
    """Zarr of the third version."""
    found = {name: zarr3.Found(os.path.join(path, name)) for name in job.layers()}
    vectors = {name: zarr3.Found(os.path.join(path, name)).whole() for name in job.vectors()}
    with open(os.path.join(path, "zarr.json"), encoding="utf-8") as file:
        said = json.load(file)["attributes"]

    def pictures() -> Pictures:
        for place in range(len(job.frames)):
            yield {
                name: it.get((place, *[0] * (len(it.shape) - 1)))[0] for name, it in found.items()
            }

    return Back(pictures(), vectors, said)


def back_npy(job: Job, path: str) -> Back:
    """NPY."""
    arrays = {
        name: np.load(os.path.join(path, f"{name}.npy"), mmap_mode="r") for name in job.layers()
    }
    vectors = {name: np.load(os.path.join(path, f"{name}.npy")) for name in job.vectors()}
    with open(os.path.join(path, "about.json"), encoding="utf-8") as file:
        return Back(rows_of(job, arrays), vectors, json.load(file))


# ----------------------------------------------------------------------------------- pictures


def back_tiff(job: Job, path: str) -> Back:
    """TIFF: a stack of ImageJ, or pages with a description each."""
    tifffile = job.library()
    labels = [job.label(place) for place in range(len(job.frames))]
    with tifffile.TiffFile(path) as file:
        if file.is_imagej:
            said = file.imagej_metadata
            whole = tifffile.memmap(path, mode="r")
            shape = (len(labels), *job.layers()["frames"])
            found = said["Labels"] if len(labels) > 1 else [said["Labels"]]
            found = found if isinstance(found, list) else [found]
            flat = [it for one in found for it in (one if isinstance(one, list) else [one])]
            texts = (("its labels", flat, labels), ("what it says", said["Info"], job.info()))
            return Back(rows_of(job, {"frames": whole.reshape(shape)}), {}, None, texts)
        found = [page.description for page in file.pages]
    labels[0] = f"{labels[0]}\n{job.info()}"
    return Back(pages_of(tifffile, path), {}, None, (("its descriptions", found, labels),))


def pages_of(tifffile: Any, path: str) -> Pictures:
    """The pages of a TIFF."""
    with tifffile.TiffFile(path) as file:
        for page in file.pages:
            yield {"frames": page.asarray()}


def back_ome_tiff(job: Job, path: str) -> Back:
    """OME-TIFF."""
    tifffile = job.library()
    with tifffile.TiffFile(path) as file:
        said = file.ome_metadata
    return Back(
        pages_of(tifffile, path), {}, None, (("its OME-XML", said, ome.xml(job).decode()),)
    )


def back_png(job: Job, path: str) -> Back:
    """PNG, and the table beside it."""
    png, shape = job.library(), job.layers()["frames"]
    names = [job.png_name(place) for place in range(len(job.frames))]

    def pictures() -> Pictures:
        for name in names:
            _, _, flat, _ = png.Reader(os.path.join(path, name)).read_flat()
            yield {"frames": np.array(flat, job.form.dtype).reshape(shape)}

    listed = sorted(it for it in os.listdir(path) if it.endswith(".png"))
    texts = ("its names", listed, sorted(names)), ("its table", table_in(path), job.table())
    return Back(pictures(), {}, None, texts)


def table_in(folder: str) -> str:
    """The table of a folder."""
    with open(os.path.join(folder, "frames.csv"), encoding="utf-8", newline="") as file:
        return file.read()


def back_csv(job: Wanted, path: str) -> Back:
    """The table alone, which has no pictures."""
    with open(path, encoding="utf-8", newline="") as file:
        text = file.read()
    # As its reader has it too: each line a frame.
    rows = list(csv.DictReader(text.splitlines()))
    found = [int(row["time_us"]) for row in rows]
    texts = ("its table", text, job.table()), ("its times", found, job.frames.times.tolist())
    none: Pictures = iter({} for _ in rows)
    return Back(none, {}, None, texts, has_pixels=False)


# ----------------------------------------------------------------------------------- films


def back_y4m(job: Wanted, path: str) -> Back:
    """YUV4MPEG2."""
    front = layout.text_front(job.geometry, job.form.bits)

    def pictures() -> Pictures:
        with open(path, "rb") as file:
            if file.read(len(front)) != front:
                raise ExportFault("its header")
            while line := file.read(6):
                if line != b"FRAME\n":
                    raise ExportFault("a frame's line")
                yield planes_in(job, file)

    return Back(pictures(), {}, None)


def planes_in(job: Wanted, file: Any) -> dict[str, Array]:
    """A picture's planes, of raw bytes."""
    found = {}
    for name, shape in job.layers().items():
        size = int(np.prod(shape)) * job.form.dtype.itemsize
        data = file.read(size)
        if len(data) != size:
            raise ExportFault("its end")
        found[name] = np.frombuffer(data, job.form.dtype).reshape(shape)
    return found


def said_by(*words: str) -> bytes:
    """What a program of ffmpeg's says."""
    done = subprocess.run(words, stdin=subprocess.DEVNULL, capture_output=True, check=False)
    if done.returncode:
        raise ExportFault(done.stderr.decode(errors="replace")[-300:])
    return done.stdout


def film_texts(job: Job, path: str) -> tuple[tuple[str, Any, Any], ...]:
    """When its frames are shown, and what it says of itself."""
    shown_are = ("-show_entries", "frame=pts_time:format_tags")
    words = ("ffprobe", "-v", "error", "-select_streams", "v:0", "-of", "json", *shown_are)
    said = json.loads(said_by(*words, path))
    shown = [round(float(it["pts_time"]) * 1e6) for it in said["frames"]]
    wanted, _ = films.film_times(job.frames.times, job.geometry.period())
    told = {name.lower(): it for name, it in said["format"].get("tags", {}).items()}
    comment = plain(json.loads(told.get("comment", "{}")))
    return (
        ("when its frames are shown", shown, wanted.tolist()),
        ("what it says of itself", comment, plain(job.about())),
    )


def film_pictures(job: Job, path: str, kind: str) -> Pictures:
    """The pictures of a film, by ffmpeg."""
    words = ["ffmpeg", "-v", "error", "-nostdin", "-i", path, "-map", "0:v:0"]
    words += ["-fps_mode", "passthrough", "-f", "rawvideo", "-pix_fmt", kind, "pipe:1"]
    with tempfile.TemporaryFile() as told:
        run = subprocess.Popen(words, stdout=subprocess.PIPE, stderr=told)
        assert run.stdout is not None
        try:
            for _ in range(len(job.frames)):
                yield planes_in(job, run.stdout)
            if run.stdout.read(1):
                raise ExportFault("there are more pictures")
            if run.wait():
                told.seek(0)
                raise ExportFault(told.read()[-300:].decode(errors="replace"))
        finally:
            run.kill()
            run.stdout.close()
            run.wait()


def back_mkv(job: Job, path: str) -> Back:
    """FFV1 in Matroska, with its table."""
    divided = None if job.colour == "luma" else job.divided
    kind, _ = films.lossless_kind(divided, job.form.bits)
    with tempfile.TemporaryDirectory() as folder:
        table = os.path.join(folder, "frames.csv")
        words = ("ffmpeg", "-v", "error", "-nostdin", "-dump_attachment:t:0", table, "-i", path)
        said_by(*words, "-t", "0", "-f", "null", "-")
        text = table_in(folder)
    texts = (*film_texts(job, path), ("its table", text, job.table()))
    return Back(film_pictures(job, path, kind), {}, None, texts)


def back_mp4(job: Job, path: str) -> Back:
    """H.264 without loss."""
    divided = None if job.colour == "luma" else job.divided
    kind = films.PIXELS[divided] + ("" if job.form.bits == 8 else f"{job.form.bits}le")
    return Back(film_pictures(job, path, kind), {}, None, film_texts(job, path))


TEXTS: dict[str, Callable[[Wanted, str], Back]] = {"y4m": back_y4m, "csv": back_csv}
READERS: dict[str, Callable[[Job, str], Back]] = {
    "h5": back_h5,
    "zarr": back_zarr,
    "zarr3": back_zarr3,
    "ome-zarr": back_ome_zarr,
    "tiff": back_tiff,
    "ome-tiff": back_ome_tiff,
    "mkv": back_mkv,
    "mp4": back_mp4,
    "png": back_png,
    "npy": back_npy,
    **TEXTS,
}
