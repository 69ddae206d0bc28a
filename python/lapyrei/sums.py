"""What a station's page says of a clip's frames to whoever fetches it: how the samples lie, and of
each frame its number, its time, the camera's count and a checksum of each plane, as the store has
them. By these an archive reads a film and a table back as an export is read back (lapyrei.verify),
wherever the store is.

A text in lines: an object of JSON that has `format`, `width` and `height` (in bytes, as the store's
geometry has them), `rate` and `bits`; then a line for each frame, numbers and checksums between
commas."""
from __future__ import annotations

import datetime
import json
import re
from collections.abc import Iterator
from dataclasses import dataclass, field
from typing import Any

import numpy as np
from numpy.typing import NDArray

from . import answers, layout, times, verify
from .errors import LapyreiError
from .parts import Form, form_of

Array = NDArray[Any]

# The letters of a checksum, and what a line has at most.
LETTERS, LINE_BYTES = 32, 256
ROW = re.compile(rb"(\d{1,19}),(\d{1,18}),(\d{1,10})((?:,[0-9a-f]{32}){1,3})\n")
FRONT = answers.table(
    {
        "format": answers.one_of(*(it.decode() for it in layout.DIVIDED)),
        "width": answers.whole(1, 16385),
        "height": answers.whole(1, 16385),
        "rate": answers.each(answers.whole(1, 2**32), 2, 2),
        "bits": answers.whole(8, 17),
    }
)


def layers_of(form: Form) -> dict[str, tuple[int, ...]]:
    """The planes of a picture by their names, each with its shape."""
    return dict(zip(("y", "cb", "cr") if len(form.planes) > 1 else ("frames",), form.planes))


def front_of(geometry: layout.Geometry, bits: int) -> bytes:
    """The first line."""
    it = geometry
    said = {"format": it.format.decode(), "width": it.width, "height": it.height}
    return json.dumps(said | {"rate": [it.num, it.den], "bits": bits}).encode() + b"\n"


def row_of(head: layout.Frame, form: Form, data: bytes) -> bytes:
    """A frame's line, by its head and all its bytes."""
    sums, at = [], 0
    for shape in form.planes:
        plane = np.frombuffer(data, form.dtype, shape[0] * shape[1], at).reshape(shape)
        sums.append(verify.digest(plane).hex())
        at += plane.nbytes
    return f"{head.number},{head.time},{head.sequence},{','.join(sums)}\n".encode()


def row_bytes(head: layout.Frame, form: Form) -> int:
    """How long a frame's line is."""
    words = f"{head.number},{head.time},{head.sequence}"
    return len(words) + len(form.planes) * (1 + LETTERS) + 1


@dataclass
class Heads:
    """Of each frame its number, its time in microseconds, and the camera's count."""

    numbers: list[int] = field(default_factory=list)
    moments: list[int] = field(default_factory=list)
    sequences: list[int] = field(default_factory=list)

    def __len__(self) -> int:
        return len(self.numbers)

    @property
    def times(self) -> Array:
        """The times as a vector."""
        return np.array(self.moments, np.int64)


class Said:
    """What a page has said of a clip: what `verify.verify_text` compares files with."""

    def __init__(self, geometry: layout.Geometry, bits: int) -> None:
        self.geometry, self.form = geometry, form_of(geometry, bits)
        self.frames = Heads()
        self.digests: list[dict[str, bytes]] = []

    def has(self, first: int, last: int) -> bool:
        """Whether the frames are those of these numbers, each once, in their order."""
        numbers = self.frames.numbers
        is_each = all(it == first + place for place, it in enumerate(numbers))
        return is_each and len(numbers) == last - first + 1

    def layers(self) -> dict[str, tuple[int, ...]]:
        """The planes of a picture, each with its shape."""
        return layers_of(self.form)

    def vectors(self) -> dict[str, Array]:
        """Nothing: neither a film nor a table has such."""
        return {}

    def about(self) -> dict[str, Any]:
        """Nothing: neither says of itself where it comes from."""
        return {}

    def table(self) -> str:
        """The table of numbers and times, as the page has it."""
        rows = zip(self.frames.numbers, self.frames.moments, self.frames.sequences)
        lines = [f"{number},{time},{utc(time)},{count}" for number, time, count in rows]
        return "\r\n".join(["number,time_us,time,sequence", *lines]) + "\r\n"


def utc(microseconds: int) -> str:
    """A time as the page's tables have it, also of a clock that isn't of the day; the number itself
    where no year has it."""
    try:
        moment = times.EPOCH + datetime.timedelta(microseconds=microseconds)
        return moment.strftime("%Y-%m-%dT%H:%M:%S.%fZ")
    except OverflowError:
        return str(microseconds)


def said_in(path: str) -> Said:
    """What a file of these lines says. Unusable where it isn't such a text."""
    with open(path, "rb") as file:
        said = opened(answers.answer_in(file.readline(answers.LETTERS), FRONT))
        frames, names = said.frames, list(said.layers())
        for number, moment, sequence, sums in rows_in(file, len(names)):
            frames.numbers.append(number)
            frames.moments.append(moment)
            frames.sequences.append(sequence)
            said.digests.append(dict(zip(names, sums)))
    return said


def opened(front: dict[str, Any]) -> Said:
    """What the first line says."""
    form, (num, den) = front["format"].encode(), front["rate"]
    size = layout.frame_bytes(front["width"], front["height"], form) or 0
    # Neither segments nor slots are told: any do.
    it = layout.Geometry(front["width"], front["height"], form, num, den, 2, 1, size)
    try:
        if not it.is_good():
            raise answers.Unusable("has a picture that no store has")
        return Said(it, front["bits"])
    except LapyreiError as fault:
        raise answers.Unusable(f"has no such samples: {fault}") from None


def rows_in(file: Any, planes: int) -> Iterator[tuple[int, int, int, list[bytes]]]:
    """The lines of frames."""
    while line := file.readline(LINE_BYTES):
        found = ROW.fullmatch(line)
        sums = found[4].decode().split(",")[1:] if found else []
        if found is None or len(sums) != planes:
            raise answers.Unusable("has a line that isn't a frame's")
        yield int(found[1]), int(found[2]), int(found[3]), [bytes.fromhex(it) for it in sums]
