"""What a camera shows: its newest frame, the frame of a moment, and pictures of frames. Each camera
has a thread of its own that reads for this, so that a disk that hangs stops the pictures of no
other one."""
import asyncio
import collections
import contextlib
import time
from collections.abc import AsyncIterator
from dataclasses import dataclass
from typing import Any

import layout

from . import limits, pictures
from .reader import Frame, Gone, Held, Placed, Source, store_in
from .watched import Watched
from .words import Unfit
from .workers import DRAWING, Workers


@dataclass(frozen=True)
class Picture:
    """A frame as JPEG: which frame, and how it was stretched for the eye."""

    frame: Frame
    body: bytes
    stretch: pictures.Stretch | None


@dataclass(frozen=True)
class Look:
    """How a frame is to be shown: at most about so wide (all of it where none is said), stretched
    not at all, by two points, or by itself (`auto`), and in which quality."""

    width: int | None
    stretch: pictures.Stretch | str | None
    quality: int = pictures.JPEG_QUALITY


class Moments:
    """The frames of a reading by their times."""

    def __init__(self, reading: Held) -> None:
        self.reading, self.parts = reading, [part.by_time() for part in reading.each()]
        self.newest = max((part.times[-1] for part in self.parts if part.times), default=None)
        period = 1_000_000 / reading.geometry.rate()
        self.longest = max(3 * period, period + limits.HOLE)

    def at(self, moment: int) -> Frame | None:
        """The frame that was there at a moment; none before the first one, and in a hole."""
        found = [frame for part in self.parts if (frame := part.at(moment))]
        frame = max(found, key=lambda it: it.time, default=None)
        return None if frame is None or moment - frame.time > self.longest else frame

    def beside(self, moment: int, by: int) -> int | None:
        """The time of the first frame after a moment, or of the last one before it."""
        found = [time for it in self.parts if (time := it.beside(moment, by)) is not None]
        return (min if by > 0 else max)(found, default=None)


class Turns:
    """Who may read a frame to draw it: so many at a time."""

    def __init__(self) -> None:
        self.free = asyncio.Semaphore(limits.EYE_FRAMES)

    @contextlib.asynccontextmanager
    async def turn(self) -> AsyncIterator["Turn"]:
        """Waits for a turn, and has it until it is over or given up."""
        await self.free.acquire()
        turn = Turn(self)
        try:
            yield turn
        finally:
            turn.give_up()


class Turn:
    """A turn that somebody has."""

    def __init__(self, turns: Turns) -> None:
        self.turns, self.is_over = turns, False

    def give_up(self) -> None:
        """Gives the turn to the next one."""
        if not self.is_over:
            self.is_over = True
            self.turns.free.release()


class Eye:
    """A camera's pictures, made once for all pages that look at the same time."""

    def __init__(self, watched: Watched, turns: Turns | None = None) -> None:
        """`turns` are those of all cameras."""
        self.watched, self.turns = watched, turns or Turns()
        self.most = limits.EYE_BYTES
        self.reads = Workers(f"eye {watched.camera.name}", 1, limits.EYE_READS)
        self.made: collections.OrderedDict[tuple, Picture] = collections.OrderedDict()
        self.making: dict[tuple, asyncio.Task] = {}
        # The place of the newest frame, as its source tells it.
        self.place: Any = None
        self.peeked, self.frame = 0.0, None
        self.known: Moments | None = None
        self.auto: pictures.Stretch | None = None
        self.bytes = 0

    async def work(self, do, *words):
        """Does what reads the store, in the camera's thread."""
        return await self.reads.do(do, *words)

    def moments(self) -> Moments | None:
        """The frames by their times, as the store was seen last."""
        reading = self.watched.reading
        if reading is None:
            self.known = None
        elif self.known is None or self.known.reading is not reading:
            self.known = Moments(reading)
        return self.known

    async def newest(self, within: float = limits.PEEK_SECONDS) -> Frame | None:
        """The newest stored frame. Pages that ask within so many seconds cost one look."""
        source = self.watched.source
        if source is None:
            return None
        if time.monotonic() - self.peeked < within:
            return self.frame
        self.peeked = time.monotonic()
        with contextlib.suppress(layout.Unsteady, layout.Refused, OSError, Unfit, Gone):
            found = await self.work(source.newest, self.place)
            self.frame, self.place = found or (None, None)
        return self.frame

    def source(self, store: int | None) -> Source:
        """The frames of a store: the camera's only one, or that of a number. Gone where there is
        none."""
        if self.watched.source is None:
            raise Gone("no store is there")
        return self.watched.source.of(store)

    def place_in(self, store: int | None) -> int | None:
        """The place of the segment of the newest frame, where it is in this store."""
        if store is None:
            return self.place if isinstance(self.place, int) else None
        return self.place[1] if isinstance(self.place, tuple) and self.place[0] == store else None

    async def picture(self, frame: Frame, look: Look) -> Picture:
        """A picture of a frame; Gone where it isn't held any more. It is made once."""
        source = self.source(store_in(frame))
        key = (source.opened.identity, frame.number, frame.time, look)
        if key in self.made:
            self.made.move_to_end(key)
            return self.made[key]
        if key not in self.making:
            self.making[key] = asyncio.create_task(self.make(key, frame, look))
        # Others may wait for it too.
        return await asyncio.shield(self.making[key])

    async def make(self, key: tuple, frame: Frame, look: Look) -> Picture:
        """Makes a picture, and remembers it among so many bytes of them."""
        try:
            picture = self.made[key] = await self.drawn(frame, look)
            self.bytes += len(picture.body)
            while self.bytes > self.most and len(self.made) > 1:
                self.bytes -= len(self.made.popitem(last=False)[1].body)
            return picture
        finally:
            del self.making[key]

    async def drawn(self, frame: Frame, look: Look) -> Picture:
        """Reads and draws a frame, of which few of all cameras are in memory at a time."""
        async with self.turns.turn() as turn:
            read = asyncio.create_task(self.work(self.data, frame.number, store_in(frame)))
            await asyncio.wait([read], timeout=limits.ROUND_SECONDS)
            if not read.done():
                # Its disk hangs: it holds up no other camera.
                turn.give_up()
            data, geometry = await read
            return await DRAWING.do(self.draw, geometry, data, frame, look)

    def head(self, number: int, store: int | None = None) -> Frame:
        """A frame by its number, also one that came after the last look; Gone where it isn't
        held."""
        source = self.source(store)
        place = source.placed(number, self.place_in(store))
        try:
            if place is None:
                raise Gone(f"frame {number} isn't held")
            *_, found = source.opened.look(source.geometry, place, number)
        except (layout.Unsteady, layout.Refused) as fault:
            raise Gone(f"frame {number} can't be read: {fault}") from None
        frame = layout.Frame(*layout.SLOT_HEAD.unpack(found)[:5])
        return frame if store is None else Placed(*frame, store)

    def data(self, number: int, store: int | None = None) -> tuple[bytes, layout.Geometry]:
        """The bytes of a frame, also of one that came after the last look, and its store's
        geometry."""
        source = self.source(store)
        place = source.placed(number, self.place_in(store))
        if number // source.geometry.slots in source.places or place is None:
            return source.frame(number), source.geometry
        try:
            whole = source.opened.part(source.geometry, place, number, 0, source.geometry.size)
            return whole, source.geometry
        except (layout.Unsteady, layout.Refused) as fault:
            raise Gone(f"frame {number} can't be read: {fault}") from None

    def draw(
        self, geometry: layout.Geometry, data: bytes, frame: Frame, look: Look
    ) -> Picture:
        """Makes a picture."""
        stretch, bits = look.stretch, layout.bits_of(frame.flags)
        if stretch == "auto":
            luma = pictures.luma_of(geometry, data, limits.AUTO_WIDTH, bits)
            stretch = self.auto = calmed(self.auto, pictures.auto_stretch(luma, bits))
        body = pictures.jpeg(geometry, data, look.width, stretch, look.quality, bits)
        return Picture(frame, body, stretch)


def calmed(old: pictures.Stretch | None, new: pictures.Stretch) -> pictures.Stretch:
    """A stretch that doesn't flicker: it stays while the new one is near."""
    if old is None:
        return new
    near = max(limits.AUTO_CALM, (old[1] - old[0]) // limits.AUTO_NEAR)
    return old if max(abs(old[0] - new[0]), abs(old[1] - new[1])) <= near else new
