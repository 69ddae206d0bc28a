"""Clips as files: MP4 by ffmpeg, sent while it is made; YUV4MPEG2, byte for byte as `loop_cli
export` writes it, or as the station saves it where samples have more than 8 bits; PNGs in a zip;
numbers and times; a checksum of each frame."""
import asyncio
import contextlib
import fcntl
import io
import os
import shutil
import tempfile
import time
import zipfile
from collections.abc import AsyncIterator, Iterator
from dataclasses import dataclass
from pathlib import Path

import layout
from lapyrei import sums
from lapyrei.losses import Hole, holes_in

from . import limits, pictures
from .reader import Clip, Gone, Reading, Source
from .words import Unfit, iso
from .workers import DRAWING

FRAME_LINE = b"FRAME\n"
# The types of files, by their kind.
KINDS = {
    "mp4": "video/mp4",
    "y4m": "video/x-yuv4mpeg2",
    "zip": "application/zip",
    "csv": "text/csv",
    "jpg": "image/jpeg",
    "sums": "text/plain",
}
# How folders of films are called, and the file in one that its page has locked.
PREFIX, LOCK = "loop_page.", "lock"
# A film that plays while it is made: it needs no end to be read.
ENCODER = [
    "-an",
    "-c:v",
    "libx264",
    "-preset",
    "veryfast",
    "-crf",
    "20",
    "-threads",
    "2",
    # No frame waits to be looked at: 240 MB at 3840x2160 in the place of 820 MB.
    "-tune",
    "zerolatency",
    "-pix_fmt",
    "yuv420p",
    "-vf",
    "pad=ceil(iw/2)*2:ceil(ih/2)*2",
    "-movflags",
    "frag_keyframe+empty_moov+default_base_moof",
    "-f",
    "mp4",
    "pipe:1",
]


class FilmFault(Exception):
    """Why there is no film, in a sentence."""


@dataclass(frozen=True)
class Fetch:
    """A clip that is fetched: which one, and the frames."""

    camera: str
    clip: Clip
    source: Source
    frames: tuple

    def name(self, ending: str) -> str:
        """A file's name for it."""
        when = iso(self.clip.since)[:19].replace(":", "-") + "Z"
        return f"{self.camera}_{when}_{self.clip.id}.{ending}"

    def depths(self) -> list[int]:
        """The bits that its samples have, each count once."""
        return sorted({layout.bits_of(frame.flags) for frame in self.frames})

    def bits(self) -> int:
        """The bits of all its samples; Unfit where no text has such frames."""
        depths, geometry = self.depths(), self.source.geometry
        if len(depths) != 1:
            raise Unfit(
                409,
                f"The samples of {self.camera}'s frames have {' and '.join(map(str, depths))} bits. "
                "Fetch the pictures (PNG), or keep a shorter time.",
            )
        return pictures.form_of(geometry, depths[0]).bits

    def tag(self, kind: str) -> str:
        """What names these bytes and no others."""
        return f'"{kind}-{self.clip.first}-{self.clip.last}-{self.clip.since}"'


def fetch_of(camera: str, reading: Reading, source: Source, clip: Clip) -> Fetch:
    """A clip, with the frames that a reading has of it."""
    return Fetch(camera, clip, source, tuple(reading.frames_of(clip)))


# ---------------------------------------------------------------------------------------- YUV4MPEG2


class Text:
    """A clip as YUV4MPEG2, whose length and whose bytes from any place on are known."""

    def __init__(self, fetch: Fetch) -> None:
        self.source, self.first = fetch.source, fetch.clip.first
        self.front = layout.text_front(fetch.source.geometry, fetch.bits())
        self.step = len(FRAME_LINE) + fetch.source.geometry.size
        self.length = len(self.front) + self.step * fetch.clip.count()

    def part(self, at: int, count: int) -> bytes:
        """Bytes from a place on."""
        found, end = [], min(at + count, self.length)
        while at < end:
            piece = self.piece(at, end - at)
            found.append(piece)
            at += len(piece)
        return b"".join(found)

    def piece(self, at: int, count: int) -> bytes:
        """Bytes from a place on, up to the end of what stands there: the header, a frame's line, or
        its pixels."""
        if at < len(self.front):
            return self.front[at : at + count]
        index, place = divmod(at - len(self.front), self.step)
        if place < len(FRAME_LINE):
            return FRAME_LINE[place : place + count]
        place -= len(FRAME_LINE)
        return self.source.part(
            self.first + index, place, min(count, self.source.geometry.size - place)
        )

    async def pieces(self, start: int, end: int) -> AsyncIterator[bytes]:
        """The bytes from a place to another, a piece at a time."""
        for at in range(start, end, limits.PIECE):
            yield await self.source.do(self.part, at, min(limits.PIECE, end - at))


# ---------------------------------------------------------------------------------------- checksums


class Sums:
    """What a clip's frames are, by a checksum of each plane: the lines of `lapyrei.sums`. Frames are
    read anew, so a film that was spoilt on its way, or here, is told from the store."""

    def __init__(self, fetch: Fetch) -> None:
        self.source, self.frames = fetch.source, fetch.frames
        bits = fetch.bits()
        self.front = sums.front_of(fetch.source.geometry, bits)
        self.form = pictures.form_of(fetch.source.geometry, bits)
        self.length = len(self.front) + sum(sums.row_bytes(it, self.form) for it in self.frames)

    def row(self, frame) -> bytes:
        """A frame's line."""
        return sums.row_of(frame, self.form, self.source.frame(frame.number))

    async def pieces(self, start: int, end: int) -> AsyncIterator[bytes]:
        """The bytes from a place to another, a line at a time."""
        at = len(self.front)
        yield self.front[start:end]
        for frame in self.frames:
            begin, at = at, at + sums.row_bytes(frame, self.form)
            if begin < end and start < at:
                row = await self.source.do(self.row, frame)
                yield row[max(0, start - begin) : end - begin]


# ------------------------------------------------------------------------------------ numbers, PNGs


def csv_of(fetch: Fetch) -> bytes:
    """The numbers and times of a clip's frames."""
    lines = ["number,time_us,time,sequence"]
    lines += [
        f"{frame.number},{frame.time},{iso(frame.time)},{frame.sequence}" for frame in fetch.frames
    ]
    return ("\r\n".join(lines) + "\r\n").encode()


def holes_of(fetch: Fetch) -> list[Hole]:
    """Where frames of a clip were lost."""
    return holes_in(fetch.frames, 0, len(fetch.frames) - 1)


def holes_csv(holes: list[Hole]) -> bytes:
    """The same as a table: the frames beside each, their times, and how many were lost."""
    lines = ["after,before,after_us,before_us,after_time,before_time,lost"]
    lines += [
        f"{it.after},{it.before},{it.since},{it.until},{iso(it.since)},{iso(it.until)},{it.lost}"
        for it in holes
    ]
    return ("\r\n".join(lines) + "\r\n").encode()


class Gathered(io.RawIOBase):
    """What a zip writes, until it is taken."""

    def __init__(self) -> None:
        super().__init__()
        self.parts: list[bytes] = []

    def writable(self) -> bool:
        """It is written to."""
        return True

    def write(self, data) -> int:
        """Keeps bytes."""
        self.parts.append(bytes(data))
        return len(data)

    def take(self) -> bytes:
        """What was written since the last call."""
        whole, self.parts = b"".join(self.parts), []
        return whole


async def zip_stream(fetch: Fetch) -> AsyncIterator[bytes]:
    """A zip with a PNG for each frame and the table of times, a frame at a time, in pieces that
    aren't long."""
    out, geometry = Gathered(), fetch.source.geometry
    with zipfile.ZipFile(out, "w", zipfile.ZIP_STORED) as archive:
        archive.writestr("frames.csv", csv_of(fetch))
        for frame in fetch.frames:
            data = await fetch.source.do(fetch.source.frame, frame.number)
            bits = layout.bits_of(frame.flags)
            picture = await DRAWING.do(pictures.png, geometry, data, bits)
            archive.writestr(f"{frame.number:010}_{iso(frame.time).replace(':', '-')}.png", picture)
            for piece in parted(out.take()):
                yield piece
    for piece in parted(out.take()):
        yield piece


def parted(whole: bytes) -> Iterator[bytes]:
    """Bytes in pieces that aren't long."""
    for at in range(0, len(whole), limits.PIECE):
        yield whole[at : at + limits.PIECE]


# ---------------------------------------------------------------------------------------------- MP4


class Film:
    """A film that is made, or was: its file, how long it is so far, and who reads it."""

    def __init__(self, path: str) -> None:
        self.path, self.size, self.is_done, self.fault = path, 0, False, ""
        self.readers, self.changed, self.why = 0, asyncio.Condition(), "The film wasn't made."
        self.task: asyncio.Task | None = None

    async def grow(self, size: int = 0, is_done: bool = False, fault: str = "") -> None:
        """It has become longer, or has ended."""
        async with self.changed:
            self.size, self.is_done, self.fault = self.size + size, self.is_done or is_done, fault
            self.changed.notify_all()

    async def until(self, reached) -> None:
        """Waits until it has a size, has ended, or has failed."""
        async with self.changed:
            await self.changed.wait_for(lambda: self.is_done or self.fault or self.size > reached)
        if self.fault:
            raise FilmFault(self.fault)

    async def pieces(self) -> AsyncIterator[bytes]:
        """Its bytes, as they come."""
        with open(self.path, "rb") as file:
            while True:
                await self.until(file.tell())
                while piece := file.read(limits.PIECE):
                    yield piece
                if self.is_done and file.tell() >= self.size:
                    return


def is_left(folder: Path) -> bool:
    """Whether a folder of films is one whose page has ended without removing it: nobody holds its
    lock. Only the user's own count."""
    try:
        if folder.is_symlink() or not folder.is_dir() or folder.stat().st_uid != os.geteuid():
            return False
        with open(folder / LOCK, "rb") as file:
            fcntl.flock(file, fcntl.LOCK_EX | fcntl.LOCK_NB)
    except FileNotFoundError:
        # Of a page before there were locks, or of one that has just begun.
        return time.time() - folder.stat().st_mtime > limits.LEFT_SECONDS
    except OSError:
        return False
    return True


def clear(parent: str) -> None:
    """Removes the films that pages left that were killed. Those of another page that runs stay."""
    for folder in Path(parent).glob(f"{PREFIX}*"):
        with contextlib.suppress(OSError):
            if is_left(folder):
                shutil.rmtree(folder)


class Films:
    """The films that are made, one at a time, and those that were, in a folder that ends with the
    page."""

    def __init__(self) -> None:
        parent = os.environ.get("CACHE_DIRECTORY") or "/var/tmp"
        clear(parent)
        self.folder = tempfile.TemporaryDirectory(prefix=PREFIX, dir=parent)
        # Held as long as the page runs, however it ends.
        self.lock = open(os.path.join(self.folder.name, LOCK), "wb")
        fcntl.flock(self.lock, fcntl.LOCK_EX)
        self.films: dict[str, Film] = {}
        self.turn, self.count = asyncio.Semaphore(1), 0

    def film(self, store: str, fetch: Fetch, busy) -> Film:
        """The film of a clip, which begins to be made where it isn't there yet. `busy` is a context
        in which the clip can't be released."""
        key = f"{store} {fetch.camera} {fetch.tag('mp4')}"
        film = self.films.get(key)
        if film and not film.fault:
            self.films[key] = self.films.pop(key)
            return film
        if sum(not film.is_done for film in self.films.values()) >= limits.FILMS_WAITING:
            raise FilmFault("Too many films are being made. Try again in a minute.")
        self.count += 1
        film = self.films[key] = Film(os.path.join(self.folder.name, f"{self.count}.mp4"))
        with open(film.path, "xb"):
            pass
        film.task = asyncio.create_task(self.make(key, film, fetch, busy))
        self.tidy()
        return film

    @contextlib.contextmanager
    def reading(self, film: Film):
        """Somebody reads a film. One that is read by nobody for a while isn't made on."""
        film.readers += 1
        try:
            yield
        finally:
            film.readers -= 1
            if not film.readers and not film.is_done:
                asyncio.get_running_loop().call_later(limits.FILM_IDLE_SECONDS, self.leave, film)

    def leave(self, film: Film) -> None:
        """Ends a film that nobody reads."""
        if not film.readers and not film.is_done and film.task:
            film.task.cancel()

    def tidy(self) -> None:
        """Removes the films that were asked for longest ago, where there are too many, or they are
        too large."""

        def spare() -> list[str]:
            return [key for key, film in self.films.items() if film.is_done and not film.readers]

        while (keys := spare()) and (
            len(self.films) > limits.FILMS
            or sum(film.size for film in self.films.values()) > limits.FILM_BYTES
        ):
            self.remove(keys[0])

    def remove(self, key: str) -> None:
        """Removes a film."""
        with contextlib.suppress(FileNotFoundError):
            os.unlink(self.films.pop(key).path)

    async def make(self, key: str, film: Film, fetch: Fetch, busy) -> None:
        """Makes a film, once those before it are made."""
        try:
            with busy:
                async with self.turn:
                    await self.encode(film, Text(fetch), fetch.clip.since)
            await film.grow(is_done=True)
            self.tidy()
        except (FilmFault, Gone, OSError, Unfit) as fault:
            film.why = str(fault) or type(fault).__name__
        finally:
            # Also where nobody reads it any more, and it was told to end.
            if not film.is_done:
                self.remove(key)
                await film.grow(fault=film.why)

    async def encode(self, film: Film, text: Text, since: int) -> None:
        """Runs ffmpeg over a clip that begins at a time, which the film has as that of its
        creation."""
        try:
            run = await asyncio.create_subprocess_exec(
                "nice",
                "-n",
                "10",
                "ffmpeg",
                "-v",
                "error",
                "-f",
                "yuv4mpegpipe",
                "-i",
                "pipe:0",
                *ENCODER[:-1],
                "-metadata",
                f"creation_time={iso(since)}",
                ENCODER[-1],
                stdin=asyncio.subprocess.PIPE,
                stdout=asyncio.subprocess.PIPE,
                stderr=asyncio.subprocess.PIPE,
            )
        except FileNotFoundError:
            raise FilmFault(
                "ffmpeg isn't installed, so there are no films. Install it, or fetch YUV4MPEG2."
            ) from None
        # Where ffmpeg is ended while it is fed, its pipe breaks. Python 3.11 wants somebody to look.
        closed = asyncio.create_task(run.stdin.wait_closed())
        closed.add_done_callback(lambda it: it.cancelled() or it.exception())
        feeder = asyncio.create_task(feed(run, text))
        told = asyncio.create_task(last_words(run))
        try:
            with open(film.path, "ab", buffering=0) as file:
                while piece := await run.stdout.read(65536):
                    file.write(piece)
                    await film.grow(len(piece))
                    if film.size > limits.FILM_BYTES:
                        raise FilmFault(
                            "The film is too large. Keep a shorter time, or fetch YUV4MPEG2."
                        )
            await feeder
            if await run.wait():
                raise FilmFault(f"ffmpeg made no film: {await told}. Is it installed?")
        finally:
            for task in (feeder, told):
                task.cancel()
            with contextlib.suppress(ProcessLookupError):
                run.kill()
            await run.wait()

    async def close(self) -> None:
        """Ends all films, and removes their folder."""
        for film in list(self.films.values()):
            if film.task and not film.is_done:
                film.task.cancel()
                await asyncio.gather(film.task, return_exceptions=True)
        self.folder.cleanup()
        self.lock.close()


async def feed(run: asyncio.subprocess.Process, text: Text) -> None:
    """Gives ffmpeg the frames. Where it ends early, its status says so; where frames are gone, it
    ends with them."""
    try:
        async for piece in text.pieces(0, text.length):
            run.stdin.write(piece)
            await run.stdin.drain()
    except (BrokenPipeError, ConnectionResetError):
        return
    finally:
        run.stdin.close()


async def last_words(run: asyncio.subprocess.Process) -> str:
    """What ffmpeg says last."""
    words = b""
    while piece := await run.stderr.read(4096):
        words = (words + piece)[-500:]
    return " ".join(words.decode(errors="replace").split()) or "it says nothing"
