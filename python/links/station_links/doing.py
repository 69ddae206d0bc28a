"""Keeps that are given to a station's page: a page or station that isn't there is waited for, and
what was asked for is done once: it is looked for by the mark in its note, where an answer was
lost."""
import threading
import time
from dataclasses import dataclass

from . import moments
from .asked import Keep
from .pages import Page, PageFault
from .settings import Words, secret_in

# So long a keep waits for a page or a station that isn't there, and how often it is tried.
PATIENCE_SECONDS = 3600.0
TRY_SECONDS = 1.0
# These answers of a page may be others once somebody has looked at its settings.
WAITED_FOR = (401, 403, 421, 429)


def page_words(words: Words) -> Page:
    """The page of a file: its address, and its token where it has one."""
    page = words.text("page", "http://127.0.0.1:8080", r"https?://[^\s/]+(/[^\s]*)?",
                      "an address such as http://127.0.0.1:8080")
    path = words.text("token", None)
    return Page(page, secret_in(path, "token") if path else None)


class NotNow(Exception):
    """Why a keep waits, in a sentence."""


@dataclass
class Waiting:
    """A keep that is to be given: whether it may have been done before, when its hour is over by a
    clock that is never set back, when it came by the time of day, in microseconds since 1970, and
    whether somebody was told that it waits."""

    keep: Keep
    is_again: bool
    end: float
    came: int
    is_told: bool = False

    def moment(self) -> int:
        """The moment of what made somebody ask; where nobody says it, when the keep came."""
        return self.came if self.keep.moment is None else self.keep.moment

    def is_late(self) -> bool:
        """Whether it has waited an hour."""
        return time.monotonic() >= self.end


def waiting_of(keep: Keep, came: float | None = None) -> Waiting:
    """A keep with an hour of its own: a new one, or one that came at a time of day, of which an
    earlier run may have done it."""
    now = time.time()
    age = 0.0 if came is None else min(max(0.0, now - came), PATIENCE_SECONDS)
    end = time.monotonic() + PATIENCE_SECONDS - age
    return Waiting(keep, came is not None, end, int((now if came is None else came) * 1e6))


class Doer:
    """Gives keeps to a page, one after the other, until `over` is set. A page that isn't there is
    waited for, and each keep waits an hour at most, by its own clock. `on_wait(keep, why)` is told
    once that a keep waits, and `on_done(keep, found)` what became of it, as an object. `cause` says
    to the page what gives the orders."""

    def __init__(
        self, page: Page, over: threading.Event, on_wait, on_done, cause: str = "mqtt"
    ) -> None:
        self.page, self.over, self.cause = page, over, cause
        self.on_wait, self.on_done = on_wait, on_done
        self.line: list[Waiting] = []
        self.lock, self.new = threading.Lock(), threading.Event()

    def add(self, waiting: Waiting) -> None:
        """A keep comes behind those that wait."""
        with self.lock:
            self.line.append(waiting)
        self.new.set()

    def run(self) -> None:
        """Does what comes."""
        while not self.over.is_set():
            self.new.clear()
            self.round()
            self.new.wait(TRY_SECONDS)

    def round(self) -> None:
        """Tries each keep that waits, the oldest first. Where the page isn't there for one it isn't
        for those behind it either: of these only the hour is looked at."""
        why = ""
        with self.lock:
            line = list(self.line)
        for it in line:
            if self.over.is_set():
                return
            found, why = self.tried(it, why)
            if found:
                with self.lock:
                    self.line.remove(it)
                self.on_done(it.keep, found)
            elif not it.is_told:
                it.is_told = True
                self.on_wait(it.keep, why)

    def tried(self, it: Waiting, why: str) -> tuple[dict | None, str]:
        """What became of a keep, or None where it waits; and why the page isn't there."""
        is_late = it.is_late()
        try:
            if why and not is_late:
                return None, why
            if is_late:
                return (None if why else self.done_before(it)) or too_late(it, why), why
            return self.kept(it), why
        except (PageFault, NotNow) as fault:
            # The page may have done it, and been lost before its answer came.
            it.is_again = it.is_again or isinstance(fault, PageFault)
            return (too_late(it, str(fault)) if is_late else None), str(fault)
        except Exception as fault:
            # A fault of ours: the next keep is done.
            return {"kept": False, "refused": "Failed", "text": repr(fault)}, why

    def done_before(self, it: Waiting) -> dict | None:
        """What became of a keep that may have been done before, by the mark in an event's note."""
        for event in self.page.events() if it.is_again else []:
            if it.keep.mark() in event["note"]:
                return kept_before(event)
        return None

    def kept(self, it: Waiting) -> dict:
        """What became of a keep."""
        if found := self.done_before(it):
            return found
        self.must_run()
        keep = it.keep
        note = f"{keep.note} {keep.mark()}".strip()
        why = {"cause": self.cause, "by": keep.id, "at": it.moment()}
        status, found = self.page.keep(keep.since, keep.until, note, keep.camera, why)
        if "answers" in found:
            return kept_of(found)
        why = str(found.get("error", f"status {status}"))
        if status in WAITED_FOR:
            raise NotNow(f"The page refuses: {why}")
        if status == 503:
            self.must_run()
        name = "NoCamera" if status == 404 else f"Page{status}"
        return {"kept": False, "refused": name, "text": why}

    def must_run(self) -> None:
        """Waits where the station doesn't run."""
        level, text = self.page.status()["station"]
        if level == "bad":
            raise NotNow(text)


def too_late(it: Waiting, why: str) -> dict:
    """That a keep has waited an hour."""
    text = f"It has waited an hour. {why}".strip()
    text += " It may have been kept." * it.is_again
    return {"kept": False, "refused": "NoPage", "text": text}


def kept_before(event: dict) -> dict:
    """What became of a keep that was done before a restart, whose answer isn't known."""
    found = {"kept": True, "event": event["number"], "cameras": event["cameras"]}
    return found | span_of(event) | {"text": "It was kept before a restart."}


def span_of(event: dict) -> dict:
    """From when to when an event is, in both forms of times."""
    since, until = event["from_us"], event["to_us"]
    span = {"from": moments.iso(since), "to": moments.iso(until)}
    return span | {"from_us": since, "to_us": until}


def kept_of(found: dict) -> dict:
    """A page's answer to a keep, as one object."""
    answers = sorted(found["answers"], key=lambda one: one["camera"] or "")
    clips = [clip for one in answers for clip in one["clips"]]
    number = next((one["event"] for one in answers if one["event"]), None)
    told = {"kept": found["kept"], "event": number}
    if clips:
        ends = min(it["from_us"] for it in clips), max(it["to_us"] for it in clips)
        told |= span_of({"from_us": ends[0], "to_us": ends[1]})
    words = ("camera", "kept", "clips", "until_us", "held_us", "asked_us", "why")
    told["cameras"] = [
        {word: one[word] for word in words} | {"lost": one.get("lost", 0)} for one in answers
    ]
    return told | {"text": " ".join(one["text"] for one in answers)}
