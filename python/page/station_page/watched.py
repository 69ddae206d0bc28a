"""A camera, and what was seen of it last."""
import asyncio
import time
from dataclasses import dataclass, field

import layout

from . import limits
from .disks import Space, space_at
from .reader import Reading, Source
from .rings import Ring, Sources, Stores
from .settings import Camera
from .words import Status
from .workers import Workers, looks_of

REFUSALS = {
    "missing": "There is no store yet. It is made when the camera's source comes",
    "refused 4 NotFormatted": "Its file isn't a store. Move it away, and a store is made",
    "not a file": "Its store isn't a file. Name another path in the configuration",
}


@dataclass
class Watched:
    """A camera, and what was seen of it last."""

    camera: Camera
    reader: Stores
    reading: Reading | Ring | None = None
    source: Source | Sources | None = None
    why: str = ""
    was_there: bool = False
    # Whether one of its several stores couldn't be used when it was looked at last.
    is_spoilt: bool = False
    status: Status | None = None
    # Why the station has no store of it, in the station's word; and how much of a store is made, in
    # percent.
    absent: str = ""
    making: int | None = None
    newest: tuple[int, int] | None = None
    # When the newest frame was another one than before, and when that was looked at last, by the
    # clock that is never set.
    changed: float = field(default_factory=time.monotonic)
    looked: float = field(default_factory=time.monotonic)
    # Whether a new frame was seen to come since the page began.
    has_moved: bool = False
    is_first: bool = True
    looking: asyncio.Task | None = None
    began: float = 0.0
    # The file system of its store, as it was seen last.
    space: Space | None = None
    # Since when a look has hardly worked, and what it had of a processor then.
    idle: float = 0.0
    worked: float = 0.0
    looks: Workers = field(default_factory=lambda: looks_of(""))

    def begin(self) -> None:
        """Begins to look, in a thread of its own, where it isn't being looked at: a disk may need
        long."""
        if self.looking is None or self.looking.done():
            self.looking, self.began = (
                asyncio.create_task(self.looks.do(self.look)),
                time.monotonic(),
            )
            self.idle, self.worked = self.began, self.looks.worked()

    def hangs(self) -> float:
        """For how many seconds its disk hasn't answered, where that is long; else 0. A look that
        has worked meanwhile, or waits for a processor, is one of a busy machine."""
        now = time.monotonic()
        if not self.looking or self.looking.done() or now - self.began <= 2 * limits.DISK_SECONDS:
            return 0.0
        worked = self.looks.worked()
        if worked - self.worked > (now - self.idle) * limits.IDLE_PART:
            self.idle, self.worked = now, worked if worked < float("inf") else self.worked
        return now - self.began if now - self.idle > 2 * limits.DISK_SECONDS else 0.0

    def silent(self) -> float:
        """For how many seconds no new frame was seen. A clock that is set changes nothing of it."""
        return max(0.0, self.looked - self.changed)

    def is_silent(self, least: float) -> bool:
        """Whether no new frame has come for so many seconds, and for longer than frames of its rate
        need."""
        rate = self.reading.geometry.rate() if self.reading else 1.0
        return self.silent() > max(least, 3 / rate + limits.LOOK_SECONDS)

    def now(self) -> int:
        """The time that the station's clock may have now, in microseconds since 1970, by the newest
        frame; by the system's clock where no frame was seen to come."""
        if not self.has_moved or self.newest is None:
            return int(time.time() * 1e6)
        return self.newest[1] + int((time.monotonic() - self.changed) * 1e6)

    def look(self) -> None:
        """Reads its stores."""
        begun = time.monotonic()
        try:
            reading, source = self.reader.read()
        except (layout.Refused, OSError) as fault:
            self.reading, self.source, self.why, self.looked = None, None, str(fault), begun
            return
        self.space = space_at(self.camera.store)
        frame = reading.newest()
        newest = (frame.number, frame.time) if frame else None
        if newest != self.newest:
            self.has_moved = self.has_moved or not self.is_first
            self.newest, self.changed = newest, begun
        self.is_first, self.looked = False, begun
        reading.pieces()
        self.reading, self.source, self.why = reading, source, ""


async def settle(chosen: list[Watched]) -> None:
    """Waits for the looks that are under way, but not for a disk that doesn't answer, and not again
    for one that didn't."""
    tasks = [it.looking for it in chosen if it.looking and not it.looking.done() and not it.hangs()]
    if tasks:
        await asyncio.wait(tasks, timeout=limits.DISK_SECONDS)


def refusal(why: str) -> str:
    """Why a store can't be shown, in a sentence."""
    if "Damaged" in why:
        return "Its store is damaged. Move its file away, and a new one is made."
    return REFUSALS.get(why, f"Its store can't be read: {why}") + "."
