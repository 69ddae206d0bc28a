"""What is warned of, and what is over: by what the station says, and by the page's own eyes."""
import asyncio
import collections
import time
from dataclasses import replace

from . import limits, words
from .watched import Watched, refusal
from .words import Event, Line, Status

# What comes at each start of the station, and passes by itself: of these it is only warned where
# they last.
PASSING = ("missing", "absent")
# Which warnings are over once there is good news of a kind; and all that the station says of a
# camera.
ENDS = {
    "source": ("missing", "other", "unusable"),
    "open": ("absent", "not a store", "small"),
    "room": ("locked", "nearly locked"),
    "caught up": ("behind",),
    "saved": ("save waits",),
}
# What is the cause where no frames come, so that it isn't warned of twice.
NO_FRAMES = ("missing", "other", "unusable", "absent", "not a store", "locked", "lost", "hangs")
# What is said once something is over, by its kind: never what was wrong again.
OVER = {
    "silent": "frames come again.",
    "missing": "its source is there again.",
    "other": "its source gives the frames of its store again.",
    "unusable": "its source gives frames that are stored again.",
    "absent": "its store is there again.",
    "lost": "its store is there again.",
    "not a store": "its store is there again.",
    "one absent": "all of its stores are used again.",
    "locked": "there is room again, and it is recorded.",
    "nearly locked": "there is room again.",
    "behind": "no frames wait for the disk any more.",
    "hangs": "its disk answers again.",
    "small": "its store holds what was asked for.",
    "save waits": "its clips are written again.",
    "station": "The station runs again.",
    "answers": "The station's answers are read again.",
    "archive": "The archive goes on.",
    "away": "it answers again.",
    "unusable page": "what it says can be used again.",
    "clock": "its clock is right again.",
}
# Which part of its room is locked where the station says that it nearly is.
NEARLY = 0.8
OTHER_SIZE = (
    "its source gives frames of another size, format or rate than its store, so nothing is stored."
)
UNUSABLE = "no store may have the frames of its source, so nothing is stored."
ALL_LOCKED = (
    "all of its room is locked, and recording has stopped. Release a clip that you don't need."
)


def nearly_locked(event: Event, status: Status) -> Event:
    """That little room is left, with what comes then, by the rule in the station's file."""
    if then := words.when_full(status.full):
        text = f"{event.camera}: four fifths of its room are locked. Once all is, {then}."
        return replace(event, text=text)
    return event


class Warned:
    """The warnings of a laboratory, which has the cameras, the station and the list of alerts."""

    def __init__(self, laboratory) -> None:
        self.laboratory = laboratory
        # What is warned of where it lasts, by its kind and camera.
        self.passing: dict[tuple[str, str | None], asyncio.Future] = {}
        self.good_news: collections.deque[dict] = collections.deque(maxlen=20)

    def on_event(self, line: Line) -> None:
        """A line of the station that nobody asked for."""
        event = words.event_of(line)
        if not event:
            return
        watched = self.laboratory.cameras.get(event.camera or "")
        if event.kind == "nearly locked" and watched and watched.status:
            event = nearly_locked(event, watched.status)
        if watched and line.kind in ("store_absent", "store_open"):
            watched.absent = line.members.get("why", "")
        for kind in ENDS.get(event.kind, ()):
            self.over(kind, event.camera)
        if event.kind in PASSING:
            self.pass_by(event.kind, event.camera)
            self.passing[event.kind, event.camera] = asyncio.create_task(self.add_later(event))
        else:
            self.add(event)

    def is_known(self, kind: str, camera: str) -> bool:
        """Whether something is warned of, or will be soon."""
        return self.laboratory.alerts.stands(kind, camera=camera) or (kind, camera) in self.passing

    def pass_by(self, kind: str, camera: str | None) -> None:
        """What might have become a warning has passed."""
        if task := self.passing.pop((kind, camera), None):
            task.cancel()

    def over(self, kind: str, camera: str | None, is_told: bool = True) -> None:
        """What was wrong isn't any more. Its warning leaves, and the news say so."""
        self.pass_by(kind, camera)
        text = self.laboratory.alerts.over(kind, camera)
        if text and is_told:
            is_page = kind == "unusable" and camera not in self.laboratory.cameras
            front = f"{camera}: " if camera else ""
            said = OVER.get("unusable page" if is_page else kind)
            self.tell_news(front + (said or f"what was warned of ({kind}) is over."))

    def forget(self, camera: str) -> None:
        """A camera isn't there any more, and nothing is wrong with it."""
        for kind, name in [*self.passing, *self.laboratory.alerts.standing]:
            if name == camera:
                self.over(kind, camera, is_told=False)
        self.laboratory.alerts.forget(camera)

    def tell_news(self, text: str) -> None:
        """Good news, for all open pages."""
        self.good_news.append({"time": time.time(), "text": text})
        self.laboratory.hurry.set()

    async def add_later(self, event: Event) -> None:
        """Warns of what may pass by itself, where it hasn't by then."""
        await asyncio.sleep(limits.PASSING_SECONDS)
        self.passing.pop((event.kind, event.camera), None)
        self.add(event)

    def add(self, event: Event) -> None:
        """Something has happened. All open pages are sent it at once."""
        if not event.is_bad:
            self.tell_news(event.text)
            return
        if event.kind in NO_FRAMES:
            self.over("silent", event.camera, is_told=False)
        self.laboratory.alerts.add(event)
        self.laboratory.hurry.set()

    def set(self, kind: str, camera: str | None, text: str) -> None:
        """Warns of what is wrong now, by the page's own eyes; or says that it is over, where there
        is no text."""
        if text and not self.laboratory.alerts.stands(kind, camera=camera):
            self.add(Event(kind, camera, True, text))
        elif not text:
            self.over(kind, camera)

    def on_stands(self, watched: Watched, status: Status) -> None:
        """How a camera with a store stands."""
        name, watched.status, watched.absent = watched.camera.name, status, ""
        self.over("absent", name)
        self.over("not a store", name)
        if status.source != "missing":
            self.over("missing", name)
        elif not self.is_known("missing", name):
            self.on_event(Line(None, "source_missing", {"camera": name}))
        self.set(
            "other", name, f"{name}: {OTHER_SIZE}" if status.source == "other geometry" else ""
        )
        self.set("unusable", name, f"{name}: {UNUSABLE}" if status.source == "unusable" else "")
        if status.room:
            self.over("locked", name)
        if status.behind <= 1:
            self.over("behind", name)

    def judge_station(self) -> None:
        """Warns where no station runs: one that ran, at once; one that never did, after a while."""
        self.laboratory.is_running = self.laboratory.orders.pipe.is_read()
        is_old = time.monotonic() - self.laboratory.begun > limits.HANGING_SECONDS
        if self.laboratory.is_running or not self.laboratory.settings.orders:
            self.set("station", None, "")
        elif self.laboratory.was_running:
            self.set(
                "station",
                None,
                "The station has ended. Nothing is recorded until it is started again.",
            )
        elif is_old:
            self.set(
                "station",
                None,
                f"The station doesn't run: nobody reads orders at "
                f"{self.laboratory.settings.orders}. Start "
                f"it.",
            )
        if self.laboratory.was_running and not self.laboratory.is_running:
            self.laboratory.forget_station()
        self.laboratory.was_running = self.laboratory.is_running

    def judge(self, watched: Watched) -> None:
        """Warns of what the page sees by itself: whether or not the station says something of it,
        or can."""
        name, reading = watched.camera.name, watched.reading
        hanging = watched.hangs()
        if not hanging:
            self.set("hangs", name, "")
        elif hanging > limits.HANGING_SECONDS:
            self.set("hangs", name, f"{name}: its disk doesn't answer. Look at the disk.")
        self.judge_store(watched)
        is_silent = watched.is_silent(limits.SILENT_SECONDS)
        is_locked = reading is not None and reading.is_all_locked()
        if is_locked and is_silent:
            self.set("locked", name, f"{name}: {ALL_LOCKED}")
        elif reading is not None and not is_locked and not is_silent:
            self.set("locked", name, "")
        if reading is not None and reading.locked() < NEARLY:
            self.over("nearly locked", name)
        has_cause = self.laboratory.alerts.stands(
            *NO_FRAMES, camera=name
        ) or self.laboratory.alerts.stands("station", camera=None)
        if reading is None or not is_silent:
            self.set("silent", name, "")
        elif not has_cause and not any((kind, name) in self.passing for kind in PASSING):
            self.set(
                "silent",
                name,
                f"{name}: no new frames come. See that the camera is plugged in and its program "
                f"runs.",
            )

    def judge_store(self, watched: Watched) -> None:
        """Warns where a store that was there isn't any more, or is damaged; or where there is none,
        and nobody says why."""
        name = watched.camera.name
        self.judge_several(watched)
        if watched.reading:
            watched.was_there = True
            self.set("lost", name, "")
        elif watched.was_there:
            watched.was_there = False
            self.set("lost", name, f"{name}: its store was there, and now: {refusal(watched.why)}")
        elif watched.why and time.monotonic() - self.laboratory.begun > limits.HANGING_SECONDS:
            is_said = self.laboratory.alerts.stands("absent", "not a store", "missing", camera=name)
            if not is_said and not self.laboratory.alerts.stands("station", camera=None):
                self.set("lost", name, f"{name}: {refusal(watched.why)}")

    def judge_several(self, watched: Watched) -> None:
        """Warns where one of several stores can't be read, and the others go on."""
        name, reading = watched.camera.name, watched.reading
        spoilt = reading.faults() if reading else {}
        if spoilt:
            path, why = next(iter(spoilt.items()))
            text = f"{name}: {words.plain(path)} can't be used: {words.plain(why)}."
            self.set("one absent", name, f"{text} Its other stores go on. Move the file away.")
        elif watched.is_spoilt:
            self.over("one absent", name)
        watched.is_spoilt = bool(spoilt)
