"""A camera from its file to the text: it is opened, set and filmed, again and again, whenever it
comes back."""
from __future__ import annotations

import contextlib
import time
import zlib
from pathlib import Path
from typing import Any, Callable, NamedTuple

from . import needed, v4l2
from .changes import Changes
from .chunks import Chunks
from .counts import Counts, Lost, Numbers, Unrolled
from .faults import Gone, Refused
from .text import BadFrames, Form, Text
from .words import Wanted

AGAIN = 1.0


class Ended(Exception):
    """So many frames as were asked for were given."""


class Log:
    """A line a frame, for checks."""

    def __init__(self, path: str | None) -> None:
        self.file = open(path, "a", encoding="ascii", buffering=1) if path else None

    def write(self, picture: Any, micros: int | None) -> None:
        """Writes what a frame was."""
        if self.file:
            self.file.write(
                f"{picture.number} {picture.stamp} {micros or 0} {zlib.crc32(picture.data)}\n"
            )


class OfGenicam:
    """A camera of GenICam, as a file names it."""

    def __init__(self, wanted: Wanted, tell: Callable[[str], None]) -> None:
        self.wanted, self.tell, self.module = wanted, tell, needed.genicam()
        self.word, self.clock_every = wanted.genicam, self.module.CLOCK_EVERY
        self.numbers = Lost.AROUND

    def open(self) -> Any:
        """The camera, opened and set."""
        return self.module.Camera(self.wanted, self.tell)


class OfLinux:
    """A camera of V4L2, as a file names it. Once it was there it is waited for by the name that
    stays with it: plugged in again it may be another /dev/video."""

    clock_every, numbers = v4l2.CLOCK_EVERY, Numbers.AROUND

    def __init__(self, wanted: Wanted, tell: Callable[[str], None], calls: Any = None) -> None:
        self.wanted, self.tell, self.calls = wanted, tell, calls
        self.word = wanted.device or ""

    def open(self) -> Any:
        """The camera, opened and set."""
        camera = v4l2.Camera(self.wanted, self.tell, self.word, self.calls)
        self.word = v4l2.lasting(self.word)
        return camera


class Given(NamedTuple):
    """What the program's words say beside: a file for a line a frame, the folder of what cameras
    say, and what may be changed."""

    log: str | None = None
    chunks: str | None = None
    changes: Changes | None = None


class Film:
    """A camera from its file to the text. It ends after `frames` of them."""

    def __init__(
        self,
        kind: OfGenicam | OfLinux,
        out: Text,
        tell: Callable[[str], None],
        asked: Callable[[], bool],
        frames: int | None = None,
        given: Given | None = None,
    ) -> None:
        given = given or Given()
        self.kind, self.out, self.tell, self.asked, self.most = kind, out, tell, asked, frames
        self.counts, self.log, self.last = Counts(tell), Log(given.log), ""
        self.chunks = Chunks(Path(given.chunks or "chunks"), kind.wanted.chunks, tell)
        self.changes = given.changes
        self.form: Form | None = None

    def run(self) -> None:
        """Films until somebody asks for the end."""
        try:
            while not self.asked():
                try:
                    self._once()
                except Gone as fault:
                    self._wait(str(fault))
        finally:
            self.chunks.close()
            self.counts.end()

    def _wait(self, why: str) -> None:
        """Waits a moment for the camera; says so once for each cause."""
        if why != self.last:
            self.tell(f"waiting for {self.kind.word}: {why}")
            self.last = why
        end = time.monotonic() + AGAIN
        while time.monotonic() < end and not self.asked():
            time.sleep(0.05)

    def _once(self) -> None:
        """Films until the camera goes."""
        camera = self._opened()
        try:
            if not self.out.open(self.asked):
                return
            changes = self.changes

            def is_over() -> bool:
                return self.asked() or changes is not None and changes.look(camera)

            with contextlib.closing(Stream(self, camera)) as stream:
                with contextlib.closing(camera.film(self.counts, is_over)) as pictures:
                    for it in pictures:
                        stream.give(it)
        finally:
            camera.close()

    def _opened(self) -> Any:
        """The camera, opened and set, with what was changed where it takes that."""
        if self.changes is None:
            return self.kind.open()
        self.kind.wanted = self.changes.wanted()
        try:
            camera = self.kind.open()
        except Refused as fault:
            if not self.changes.refused(str(fault)):
                raise
            self.kind.wanted = self.changes.wanted()
            camera = self.kind.open()
        self.changes.began(camera)
        return camera

    def begins(self, form: Form, camera: Any) -> None:
        """Frames of a form begin. Another header is for another text: the service starts this
        program again."""
        if self.form not in (None, form):
            raise BadFrames(f"its frames are {shown(form)} now, and were {shown(self.form)}")
        self.tell(f"filming {self.kind.word}: {shown(form)} of {camera.what()}")
        self.last = ""
        if self.form is None:
            self.form = form
            self.out.header(form)

    def count(self) -> None:
        """A frame was given on."""
        self.counts.frames += 1
        if self.counts.frames == self.most:
            raise Ended


class Stream:
    """The frames of a camera that was opened, on their way to the text."""

    def __init__(self, film: Film, camera: Any) -> None:
        self.film, self.camera = film, camera
        self.clock, self.looked = camera.clock(), time.monotonic()
        self.numbers = Unrolled(film.kind.numbers)
        self.sink: Any = film.out.frame
        self.converter: Any = None
        self.form: Form | None = None
        # Of some formats only a picture says what they are.
        if form := camera.form():
            self._begin(form)

    def _begin(self, form: Form) -> None:
        self.film.begins(form, self.camera)
        if word := self.camera.ffmpeg(form):
            from .colours import Converter

            self.converter = Converter(word, form, self.film.out.frame)
            self.sink = self.converter.give
        self.form = form

    def give(self, it: Any) -> None:
        """Gives a frame on."""
        if self.form is None:
            self._begin(self.camera.form(it))
        pieces = self.camera.pixels(it, self.form, bool(self.converter))
        micros = self.clock.micros(it.stamp, it.arrival)
        self.film.log.write(it, micros)
        self.sink(pieces, micros, self.numbers.of(it.number))
        self.film.chunks.write(it.number, micros, getattr(it, "chunks", ()))
        self.film.count()
        if time.monotonic() > self.looked + self.film.kind.clock_every:
            self.clock.look(it.stamp, it.arrival)
            self.looked = time.monotonic()

    def close(self) -> None:
        """Lets what is on its way come."""
        if self.converter:
            self.converter.end()


def shown(form: Form) -> str:
    """What frames are, in words."""
    return f"{form.width}x{form.height} {form.colour} {float(form.rate):g} a second"
