"""How all stands: the station, and each camera in a word, a sentence and numbers."""
import time

from . import limits, words
from .reader import Piece, Reading, store_in
from .rings import Ring
from .watched import Watched, refusal
from .words import Status

# Pieces of a timeline that a page is sent, and places where frames were lost, the newest.
PIECES = 300
# From so much on a camera's clock is told to be off, in microseconds.
CLOCK_OFF = 1_000_000
AS_TEXT = (
    "The station's answers are text, which the page doesn't read. Write `answers_form = \"json\"` "
    "into its configuration, and start station and page again."
)
# What a camera is of which no frames are stored.
DEAD = ("hangs", "absent", "other", "unusable", "making")
# A camera that gives less of its rate is shown as one to look at.
LEAST_RATE = 0.8


class Standing:
    """How a laboratory stands at the moment."""

    def __init__(self, laboratory) -> None:
        self.laboratory = laboratory

    def standing(self) -> dict:
        """How all stands, for the page."""
        if not self.laboratory.cameras:
            station = ["good", "This page shows other stations alone."]
        elif not self.laboratory.settings.orders:
            station = [
                "unknown",
                "The station's configuration has no `orders`: the page shows, and can't keep.",
            ]
        elif not self.laboratory.is_running:
            station = [
                "bad",
                f"The station doesn't run: nobody reads orders at "
                f"{self.laboratory.settings.orders}. Start "
                f"it.",
            ]
        elif self.laboratory.settings.is_text:
            station = ["warn", AS_TEXT]
        elif not self.laboratory.orders.has_answers:
            station = [
                "warn",
                "The station's configuration has no `answers`: the page sees what is kept, and no "
                "warnings of the station.",
            ]
        else:
            station = ["good", "The station runs."]
        return {
            "version": self.laboratory.version,
            "has_token": bool(self.laboratory.settings.token or self.laboratory.settings.users),
            "now": time.time(),
            "station": station,
            "name": self.laboratory.settings.name,
            "alerts": self.laboratory.alerts.listed(),
            "seen": list(self.laboratory.alerts.noticed),
            "news": list(self.laboratory.warned.good_news)[-3:],
            "journal": self.laboratory.journal.listed(limits.JOURNAL_SENT),
            "notes_fault": self.laboratory.notes.fault,
            "archive": self.laboratory.archive.standing(),
            "notes": self.laboratory.notes.version,
            "cameras": [self.camera(watched) for watched in self.laboratory.cameras.values()],
        }

    def camera(self, watched: Watched) -> dict:
        """How a camera stands."""
        level, text, kind, shortly = self.camera_state(watched)
        status = watched.status if self.laboratory.orders.has_answers else None
        found = {
            "name": watched.camera.name,
            "keep": watched.camera.keep,
            "after": watched.camera.after,
            "level": level,
            "state": text,
            "kind": kind,
            "short": shortly,
            "given_up": status and status.given_up,
            "behind": status and status.behind,
            "room": status and status.room,
            "keeps": status and status.keeps,
            "lost": status and status.lost,
            "estimated": status and status.estimated,
            "clock_us": status and status.clock,
            "blocks": status and status.blocks,
            "full": status and status.full,
        }
        reading = watched.reading
        if kind == "hangs":
            found["known_us"] = int((time.time() - (time.monotonic() - watched.looked)) * 1e6)
        if not reading:
            return found
        # What doesn't come has no rate, whatever it was.
        is_dead = kind in DEAD or watched.is_silent(limits.STILL_SECONDS)
        geometry, removed = reading.geometry, reading.removed_next()
        found |= {
            "width": geometry.width // (2 if reading.bits() > 8 else 1),
            "height": geometry.height,
            "format": geometry.format.decode(),
            "bits": reading.bits(),
            "asked_rate": geometry.rate(),
            "rate": None if is_dead else reading.rate(),
            "seconds": reading.seconds(),
            "frames": reading.count(),
            "locked": reading.locked(),
            "pieces": [piece_of(it) for it in reading.pieces()[-PIECES:]],
            "holes": [[it.since, it.until, it.lost] for it in reading.holes()[-PIECES:]],
            "removed_next": removed,
            "clips": [
                [clip.id, clip.first, clip.last, clip.since, clip.until] for clip in reading.clips
            ],
        }
        if reading.stores:
            found["stores"] = reading.stores
        for word, frame in (("newest", reading.newest()), ("oldest", reading.oldest())):
            if frame:
                store = store_in(frame)
                found[word] = [frame.number, frame.time, *([] if store is None else [store])]
        return found

    def camera_state(self, watched: Watched) -> tuple[str, str, str, str]:
        """How a camera stands: as a word for its colour, in a sentence, as a word for what it is,
        and shortly for a picture's edge."""
        if waited := watched.hangs():
            return (
                "bad",
                f"Its disk hasn't answered for {words.seconds_words(waited)}. Look at the disk.",
                "hangs",
                "disk hangs",
            )
        reading, source = watched.reading, self.source_of(watched)
        status = watched.status if self.laboratory.orders.has_answers else None
        # While others of several stores are made, frames come into one that is there.
        is_made = reading is not None and reading.stores is not None
        if watched.making is not None and self.laboratory.orders.has_answers and not is_made:
            return (
                "warn",
                f"Its store is being made: {watched.making} % of it is.",
                "making",
                "making store",
            )
        if watched.absent and self.laboratory.orders.has_answers:
            return (
                "bad",
                f"It isn't recorded: {words.meaning(watched.absent)}.",
                "absent",
                "not recorded",
            )
        if reading is None:
            return "bad", refusal(watched.why), "absent", "not recorded"
        if source == "other geometry":
            text = (
                "Its source gives frames of another size, format or rate than its store. Nothing "
                "is stored."
            )
            return "bad", text, "other", "other frames"
        if source == "unusable":
            return (
                "bad",
                "No store may have the frames of its source. Nothing is stored.",
                "unusable",
                "other frames",
            )
        is_silent = watched.is_silent(limits.STILL_SECONDS)
        # The station knows before the newest block is full.
        has_no_room = status is not None and status.room == 0 and is_silent
        if reading.is_all_locked() or has_no_room:
            return self.locked_state(status, is_silent)
        if is_silent:
            return self.silent_state(watched, source)
        if not reading.count():
            return "warn", "No frame is stored yet.", "empty", "no frames yet"
        if not watched.has_moved:
            return "warn", "The page waits for a new frame.", "waiting", "waiting"
        return self.recording_state(watched, reading)

    def locked_state(self, status: Status | None, is_silent: bool) -> tuple[str, str, str, str]:
        """A camera all of whose room is locked: what comes of that, by the station's rule."""
        front, then = "All of its room is locked.", words.when_full(status and status.full)
        if then and not is_silent:
            return "warn", f"{front} With the newest block {then}.", "full", "all locked"
        when = "has stopped" if is_silent else "stops when the newest block is full"
        return "bad", f"{front} Recording {when}: release a clip.", "locked", "all locked"

    def source_of(self, watched: Watched) -> str:
        """What the station says of a camera's source; `on` where it says nothing."""
        return (
            watched.status.source if watched.status and self.laboratory.orders.has_answers else "on"
        )

    def silent_state(self, watched: Watched, source: str) -> tuple[str, str, str, str]:
        """A camera of which no new frames come. How long it has been is reckoned by a clock only
        where it stood still before the page began."""
        silent = watched.silent()
        if self.laboratory.settings.orders and not self.laboratory.is_running:
            why = "the station doesn't run. Start it"
        elif source == "missing":
            why = "its source is missing. See that the camera is plugged in and its program runs"
        elif source == "silent":
            why = "its source is there, and nothing comes of it. Look at the camera"
        else:
            why = "the camera may be away, or its program. Look at both"
        if watched.newest is None:
            return "bad", f"No frame is stored, and none comes: {why}.", "silent", "no frames"
        if not watched.has_moved:
            silent = max(silent, time.time() - watched.newest[1] / 1e6)
        shortly = f"no frames for {int(silent)} s" if silent < 600 else "no frames"
        return "bad", f"No new frame for {words.seconds_words(silent)}: {why}.", "silent", shortly

    def recording_state(
        self, watched: Watched, reading: Reading | Ring
    ) -> tuple[str, str, str, str]:
        """A camera of which frames come."""
        behind = watched.status.behind if watched.status else None
        if behind and behind > 1:
            return (
                "warn",
                f"The disk is slow: {behind} s of frames wait for it.",
                "behind",
                f"{behind} s behind",
            )
        rate, asked = reading.rate(), reading.geometry.rate()
        if rate is not None and rate < asked * LEAST_RATE:
            text = (
                f"Recording {rate:.1f} of {asked:.1f} frames a second: the camera gives fewer, or "
                f"frames were lost."
            )
            return "warn", text, "slow", f"{rate:.0f} of {asked:.0f} a second"
        clock = watched.status.clock if watched.status else None
        if clock is not None and abs(clock) > CLOCK_OFF:
            return "warn", clock_text(clock), "clock", f"clock {clock / 1e6:+.1f} s"
        return "good", "Recording.", "good", "recording"


def clock_text(micros: int) -> str:
    """That a camera's clock is off by so much."""
    way = "ahead of" if micros > 0 else "behind"
    return (
        f"Its clock is {words.seconds_words(abs(micros) / 1e6)} {way} the station's. It records, "
        f"and a keep of seconds is right; the times of its frames are its own."
    )


def piece_of(piece: Piece) -> list[int]:
    """Frames without a hole, for the page; of several stores with those of its first and its last
    frame."""
    found = [piece.first, piece.last, piece.since, piece.until]
    return found + [it for it in (piece.store, piece.ends) if it is not None]


def for_programs(camera: dict) -> None:
    """Takes what programs don't need from how a camera stands. As long as some of its several
    stores aren't read yet, nobody is told that these are all its clips."""
    camera.pop("pieces", None)
    read, there = camera.get("stores", (0, 0))
    if read < there:
        camera.pop("clips", None)
