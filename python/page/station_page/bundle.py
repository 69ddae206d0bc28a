"""An event as one zip: of each camera the film, the raw frames, pictures and the table of times,
and a text that says what it is. All names and times in it are UTC, and it says so."""
import asyncio
import datetime
import zipfile
from collections.abc import AsyncIterator, Callable, Iterator
from dataclasses import dataclass, replace

import layout

from . import limits, pictures
from .chunks import table_of
from .films import Fetch, Film, Gathered, Text, csv_of, holes_csv, holes_of
from .words import iso

# What a zip may have of each camera, and how each is told in its text.
PARTS = {
    "mp4": "a film (H.264), for the eye",
    "y4m": "the frames as they are stored, byte for byte (YUV4MPEG2)",
    "png": "a picture of each frame",
    "csv": "number, time and the camera's own count of each frame; _chunks.csv has what it said, "
        "and _holes.csv where frames were lost",
}


@dataclass
class Progress:
    """How far a zip is: frames that are done, of all that it takes, and what is done now."""

    all: int
    done: int = 0
    text: str = "Begins."
    is_over: bool = False

    def step(self, count: int, text: str | None = None) -> None:
        """So many frames more are done."""
        self.done += count
        self.text = text or self.text

    def as_object(self) -> dict:
        """For JSON."""
        return {
            "all": self.all,
            "done": min(self.done, self.all),
            "text": self.text,
            "over": self.is_over,
        }


class Counted:
    """The frames of a clip, which count themselves where a film is made of them."""

    def __init__(self, source, first: int, told: Callable[[int], None]) -> None:
        self.source, self.geometry, self.told = source, source.geometry, told
        self.opened, self.last = source.opened, first - 1

    def part(self, number: int, at: int, count: int) -> bytes:
        """A part of the bytes of a frame."""
        found = self.source.part(number, at, count)
        if number > self.last:
            self.told(number - self.last)
            self.last = number
        return found

    async def do(self, work, *words, seconds: float | None = None):
        """Does what reads the store, in the threads of its camera."""
        return await self.source.do(work, *words, seconds=seconds)


def moment_of(microseconds: int) -> datetime.datetime:
    """A time, in UTC."""
    return datetime.datetime.fromtimestamp(microseconds // 1_000_000, datetime.timezone.utc)


def stamp(microseconds: int) -> str:
    """A time in a file's name: UTC, as its Z says."""
    return moment_of(microseconds).strftime("%Y-%m-%dT%H-%M-%SZ")


def entry(name: str, microseconds: int) -> zipfile.ZipInfo:
    """An entry of a zip, with its time. The format's own field has no zone, so a second one says
    the time in seconds since 1970, which programs prefer."""
    moment = moment_of(microseconds)
    info = zipfile.ZipInfo(name, (max(1980, moment.year), *moment.timetuple()[1:6]))
    seconds = (microseconds // 1_000_000) & 0xFFFFFFFF
    info.extra = b"UT" + (5).to_bytes(2, "little") + b"\x01" + seconds.to_bytes(4, "little")
    info.external_attr = 0o644 << 16
    return info


class Bundle:
    """The zip of some clips, made while it is sent."""

    def __init__(
        self, fetches: list[Fetch], what: list[str], note: str, chunks: str | None = None
    ) -> None:
        """`chunks` is the folder below which cameras write what they say of each frame."""
        self.fetches, self.what, self.note, self.chunks = fetches, what, note, chunks
        self.since = min(fetch.clip.since for fetch in fetches)
        self.name = f"event_{stamp(self.since)}"
        frames = sum(len(fetch.frames) for fetch in fetches)
        self.progress = Progress(max(1, frames * len(what)))
        self.out = Gathered()
        self.archive = zipfile.ZipFile(self.out, "w", zipfile.ZIP_STORED, allowZip64=True)

    def called(self, fetch: Fetch) -> str:
        """The name of a clip's files within the zip."""
        several = [it for it in self.fetches if it.camera == fetch.camera]
        place = f"_{several.index(fetch) + 1}" if len(several) > 1 else ""
        return f"{self.name}/{fetch.camera}{place}"

    def text(self) -> bytes:
        """What the zip has, in words."""
        lines = [
            f"An event kept by a laboratory's cameras: {iso(self.since)}.",
            "All times and names here are UTC: each ends with Z.",
            f"Note: {self.note or '(none)'}",
            "",
        ]
        for fetch in self.fetches:
            clip, geometry = fetch.clip, fetch.source.geometry
            depths = fetch.depths()
            high, wide = pictures.form_of(geometry, max(depths)).planes[0]
            size = f"{wide}x{high} {geometry.format.decode()}"
            if depths != [8]:
                size += f" of {' and '.join(map(str, depths))} bits"
            span = f"{iso(clip.since)} to {iso(clip.until)}, frames {clip.first} to {clip.last}"
            lost = sum(it.lost for it in holes_of(fetch))
            lines.append(
                f"{self.called(fetch).split('/')[1]}: {span}, {size} at {geometry.rate():g} a "
                f"second, {lost} lost"
            )
        lines += ["", *(f".{part}: {PARTS[part]}" for part in self.what), ""]
        return "\n".join(lines).encode()

    def counted(self, fetch: Fetch) -> Fetch:
        """A clip whose frames count themselves."""
        counted = Counted(fetch.source, fetch.clip.first, lambda count: self.progress.step(count))
        return replace(fetch, source=counted)

    async def pieces(self, film_of: Callable[[Fetch], Film]) -> AsyncIterator[bytes]:
        """The zip's bytes. `film_of` begins a film, or answers the one that is there."""
        self.archive.writestr(entry(f"{self.name}/event.txt", self.since), self.text())
        for part in self.what:
            for fetch in self.fetches:
                at_end = self.progress.done + len(fetch.frames)
                self.progress.text = f"{fetch.camera}: {PARTS[part].split(' (')[0]}"
                film = await self.film(film_of, fetch) if part == "mp4" else None
                work = film_pieces(film, fetch) if film else getattr(self, f"{part}_pieces")(fetch)
                async for piece in self.written(work, part, fetch):
                    yield piece
                self.progress.done = at_end
        self.archive.close()
        yield self.out.take()
        self.progress.is_over = True

    async def film(self, film_of: Callable[[Fetch], Film], fetch: Fetch) -> Film:
        """The film of a clip, once it is made."""
        film = film_of(self.counted(fetch))
        while not film.is_done:
            await film.until(film.size)
        return film

    async def written(self, work: Iterator, part: str, fetch: Fetch) -> AsyncIterator[bytes]:
        """What the zip has more of once some work is done, in pieces that aren't long. The work
        names entries as (name, time, bytes), or gives more bytes of the last one."""
        handle = None
        try:
            while (step := await fetch.source.do(next, work, None)) is not None:
                if isinstance(step, tuple):
                    name, moment, data = step
                    if handle:
                        handle.close()
                    handle = self.archive.open(
                        entry(self.called(fetch) + name, moment), "w", force_zip64=True
                    )
                else:
                    data = step
                await asyncio.to_thread(handle.write, data)
                whole = self.out.take()
                for at in range(0, len(whole), limits.PIECE):
                    yield whole[at : at + limits.PIECE]
        finally:
            if handle:
                handle.close()

    def y4m_pieces(self, fetch: Fetch) -> Iterator:
        """The frames as `loop_cli export` writes them, or the station saves them."""
        text = Text(self.counted(fetch))
        yield ".y4m", fetch.clip.since, text.part(0, limits.PIECE)
        for at in range(limits.PIECE, text.length, limits.PIECE):
            yield text.part(at, limits.PIECE)

    def csv_pieces(self, fetch: Fetch) -> Iterator:
        """The table of times, and, where the camera has said it, what it said of each frame."""
        yield ".csv", fetch.clip.since, csv_of(fetch)
        if holes := holes_of(fetch):
            yield "_holes.csv", fetch.clip.since, holes_csv(holes)
        if table := table_of(self.chunks, fetch):
            yield "_chunks.csv", fetch.clip.since, table

    def png_pieces(self, fetch: Fetch) -> Iterator:
        """A picture of each frame, named by its number and time."""
        for frame in fetch.frames:
            bits = layout.bits_of(frame.flags)
            picture = pictures.png(fetch.source.geometry, fetch.source.frame(frame.number), bits)
            self.progress.step(1)
            when = iso(frame.time).replace(":", "-")
            yield f"_png/{frame.number:010}_{when}.png", frame.time, picture


def film_pieces(film: Film, fetch: Fetch) -> Iterator:
    """A film that is made."""
    with open(film.path, "rb") as file:
        yield ".mp4", fetch.clip.since, file.read(limits.PIECE)
        while piece := file.read(limits.PIECE):
            yield piece


def parts_in(text: str) -> list[str] | None:
    """The parts that a request names, such as `mp4,csv`, each once; none where one isn't a part."""
    parts = list(dict.fromkeys(text.split(",")))
    return parts if all(part in PARTS for part in parts) else None
