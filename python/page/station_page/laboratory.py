"""The cameras, the station and what people asked of them: how all stands at the moment."""
import asyncio
import contextlib
import json
import logging
import time

from . import limits, words
from .alerts import Alerts
from .archived import Archive
from .causes import Causes
from .films import Films
from .heard import Heard
from .held import Held
from .journal import Journal
from .keeping import Keeping
from .notes import Notes
from .noting import Noting
from .orders import NoStation, Orders
from .reader import Reading, Source
from .reports import remind_in, reports_in
from .rings import Ring, Sources, Stores
from .settings import BadSettings, Camera, Settings, cameras_of, toml_of
from .standing import Standing
from .tuning import Tuning
from .warned import Warned
from .watched import Watched, refusal, settle
from .words import Line, Unfit
from .workers import NO_ANSWER, looks_of, reads_of

log = logging.getLogger("loop_page")
OF_STATION = (
    "missing",
    "other",
    "unusable",
    "absent",
    "not a store",
    "small",
    "locked",
    "nearly locked",
    "behind",
    "save waits",
)
# What the station says of each of its cameras.
STANDS = ("status", "absent", "status_making")
UNREAD = (
    "The station's answers can't be read. Its configuration needs `answers_form = \"json\"`; "
    "start the station again, and then the page."
)


def watched_of(camera: Camera) -> Watched:
    """A camera that wasn't looked at yet."""
    name = camera.name
    return Watched(camera, Stores(camera.store, reads_of(name)), looks=looks_of(name))


class Laboratory:
    """All of it."""

    def __init__(self, settings: Settings) -> None:
        self.settings = settings
        self.cameras = {camera.name: watched_of(camera) for camera in settings.cameras}
        self.journal = Journal()
        own = settings.own
        # The reports' words are judged here, where the station's name is known.
        reports = reports_in(own, settings.station_name(), "page.toml")
        self.alerts = Alerts(
            settings.on_alert, settings.webhook, self.journal, reports, remind_in(own, "page.toml")
        )
        self.orders, self.heard = Orders(settings.orders, settings.answers, self), Heard()
        self.notes, self.films = Notes(settings.notes), Films()
        self.noting, self.warned, self.shown = Noting(self), Warned(self), Standing(self)
        self.keeping, self.held, self.tuning = Keeping(self), Held(self), Tuning(self)
        self.archive = Archive(settings.archive)
        # Beside the notes.
        self.causes = Causes(f"{settings.notes}.causes" if settings.notes else None)
        # Held from a look at a clip until its release is given, so that no other order of this page
        # comes between.
        self.ordering = asyncio.Lock()
        self.begun = time.monotonic()
        self.is_running, self.was_running, self.said = self.orders.pipe.is_read(), False, 0.0
        self.streams, self.wanted, self.version, self.looked = 0, time.monotonic(), 0, 0.0
        self.changed, self.hurry = asyncio.Condition(), asyncio.Event()
        # The station has read its file again, by an order or since it has begun anew: it is asked
        # at once, and what its file says of cameras is so then.
        self.asks, self.is_reloaded = asyncio.Event(), False
        self.state = b"{}"

    def on_line(self, line: Line) -> None:
        """A line of the station, whoever has asked for it."""
        if self.alerts.stands("answers", camera=None):
            self.warned.over("answers", None)
        self.heard.take(line)
        watched = self.cameras.get(line.camera or "")
        if watched and line.kind in ("making", "status_making"):
            watched.making = line["percent"]
        elif watched and line.kind in ("status", "store_open", "kept"):
            watched.making = None
        if line.kind in ("reloaded", "stopped"):
            # The next one that answers has read it.
            self.is_reloaded = True
            self.asks.set()

    def on_event(self, line: Line) -> None:
        """A line of the station that nobody asked for."""
        self.warned.on_event(line)

    def on_unread(self) -> None:
        """Lines of the station can't be read."""
        self.warned.set("answers", None, UNREAD)

    async def watch(self) -> None:
        """Looks at the cameras, without end: often while somebody looks at the page."""
        while True:
            try:
                await self.look()
            except (OSError, ValueError) as fault:
                log.exception("a look failed: %s", fault)
            is_watched = self.streams or time.monotonic() - self.wanted < 10 or self.is_reading()
            self.hurry.clear()
            with contextlib.suppress(asyncio.TimeoutError):
                await asyncio.wait_for(
                    self.hurry.wait(), limits.LOOK_SECONDS if is_watched else limits.IDLE_SECONDS
                )
            if self.hurry.is_set():
                # Many events together are one look.
                await asyncio.sleep(0.05)

    def is_reading(self) -> bool:
        """Whether some of a camera's several stores aren't read yet."""
        found = [it.reading.stores for it in self.cameras.values() if it.reading]
        return any(stores and stores[0] < stores[1] for stores in found)

    async def fresh(self) -> None:
        """Sees that what was seen last isn't old: while nobody looks, cameras are looked at
        seldom."""
        self.wanted, version = time.monotonic(), self.version
        if self.wanted - self.looked < 2 * limits.LOOK_SECONDS:
            return
        self.hurry.set()
        async with self.changed:
            with contextlib.suppress(asyncio.TimeoutError):
                await asyncio.wait_for(
                    self.changed.wait_for(lambda: self.version != version), limits.FRESH_SECONDS
                )

    async def ask(self) -> None:
        """Asks the station how its cameras stand, without end: soon, until it has answered once,
        and after it has come again."""
        while True:
            if self.orders.has_answers and self.orders.pipe.is_read():
                with contextlib.suppress(NoStation):
                    await self.ask_status()
            for _ in range(int(limits.IDLE_ASK_SECONDS / limits.ASK_SECONDS)):
                with contextlib.suppress(asyncio.TimeoutError):
                    await asyncio.wait_for(self.asks.wait(), limits.ASK_SECONDS)
                is_asked = self.asks.is_set() or not self.said or self.streams
                if is_asked or time.monotonic() - self.wanted < 10:
                    break
            self.asks.clear()

    async def ask_status(self) -> None:
        """Asks once."""
        lines = await self.orders.ask("status", each=self.on_status)
        self.said = time.monotonic()
        self.follow({it.camera for it in lines if it.kind in STANDS})

    def follow(self, names: set[str | None]) -> None:
        """The station has these cameras. One that it hasn't, and that its file doesn't name any
        more, goes; one that is new to both comes; and once the station has read its file again,
        each is as that says."""
        path = self.settings.config
        if not names or not path or (names == set(self.cameras) and not self.is_reloaded):
            return
        try:
            cameras = cameras_of(toml_of(path), self.settings.folder, path)
        except BadSettings:
            return
        found = {it.name: it for it in cameras}
        for name in set(self.cameras) - names - set(found):
            self.remove(name)
        for name in found:
            if name in names and name not in self.cameras:
                self.cameras[name] = watched_of(found[name])
                self.warned.tell_news(f"{name} was added to the station.")
            elif name in names and self.is_reloaded:
                self.change(self.cameras[name], found[name])
        self.is_reloaded = False

    def change(self, watched: Watched, camera: Camera) -> None:
        """A camera is as this says from now on. Of another store nothing was seen yet."""
        if watched.camera.store != camera.store:
            self.cameras[camera.name] = watched_of(camera)
        else:
            watched.camera = camera

    def remove(self, name: str) -> None:
        """A camera was taken out of the station: nothing of it is told any more."""
        del self.cameras[name]
        self.noting.forget(name)
        self.warned.forget(name)
        self.warned.tell_news(f"{name} was taken out of the station.")

    def on_status(self, line: Line) -> None:
        """A line of the station's `status`. What it says is so now: what was said before the page
        began, nobody has heard, and an event may have been lost."""
        watched = self.cameras.get(line.camera or "")
        if not watched:
            return
        if line.kind == "status":
            self.warned.on_stands(watched, words.status_of(line))
        elif line.kind == "absent":
            watched.status, is_same = None, watched.absent == line["why"]
            if not (is_same and self.warned.is_known("absent", line["camera"])):
                self.warned.on_event(Line(None, "store_absent", line.members))

    async def look(self) -> None:
        """Looks once, and sends all pages what was seen."""
        await self.look_at(list(self.cameras))
        self.warned.judge_station()
        self.archive.look()
        self.warned.set("archive", None, self.archive.text() if self.archive.path else "")
        for watched in self.cameras.values():
            self.warned.judge(watched)
        await self.noting.carry()
        self.looked = time.monotonic()
        state = json.dumps(self.shown.standing(), separators=(",", ":")).encode()
        async with self.changed:
            self.version, self.state = self.version + 1, state
            self.changed.notify_all()

    def forget_station(self) -> None:
        """What a station said that has ended isn't so any more, nor not so."""
        self.said, self.is_reloaded = 0.0, True
        self.heard.station_ended()
        for name, watched in self.cameras.items():
            watched.status, watched.absent, watched.making = None, "", None
            for kind in OF_STATION:
                self.warned.over(kind, name, is_told=False)

    def watched(self, name: object) -> Watched:
        """The camera of a name."""
        if not isinstance(name, str) or name not in self.cameras:
            raise Unfit(404, "There is no camera of that name.")
        return self.cameras[name]

    def seen(self, name: object) -> tuple[Watched, Reading | Ring, Source | Sources]:
        """A camera with what was seen of it; Unfit where there is no store."""
        watched = self.watched(name)
        self.wanted = time.monotonic()
        reading, source = watched.reading, watched.source
        if watched.hangs():
            raise Unfit(503, NO_ANSWER)
        if reading is None or source is None:
            raise Unfit(
                503,
                refusal(watched.why)
                if watched.why
                else "The page has only just begun. Try again in a moment.",
            )
        return watched, reading, source

    async def look_at(self, names: list[str], is_new: bool = False) -> None:
        """Looks at some cameras together, and waits for a while until that is done. A look that is
        to be new begins after this call."""
        chosen = [self.cameras[name] for name in names]
        if is_new:
            await settle(chosen)
        for watched in chosen:
            watched.begin()
        await settle(chosen)

    async def close(self) -> None:
        """Ends what is under way."""
        await self.films.close()
        self.orders.pipe.close()
        self.orders.reader.close()
