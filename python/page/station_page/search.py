"""Events that are looked for: by text, camera, tag, cause, time, and whether frames are lacking."""
from collections.abc import Mapping
from dataclasses import dataclass

from . import limits
from .asked import moment_in, number_in
from .words import Unfit

WORDS = {"of", "text", "camera", "tag", "cause", "from", "to", "lost", "count"}


@dataclass(frozen=True)
class Search:
    """What is looked for; what isn't said fits all. `text` is looked for in the note, the cameras
    and the cause, whatever its case; a time is met by an event that has a part in it."""

    text: str = ""
    camera: str | None = None
    tag: int | None = None
    cause: str | None = None
    since: int | None = None
    until: int | None = None
    lost: bool | None = None
    count: int | None = None

    def fits(self, event: dict) -> bool:
        """Whether an event is one that is looked for."""
        cause = event.get("cause") or {}
        return (
            (self.camera is None or self.camera in event["cameras"])
            and (self.tag is None or self.tag == event["tag"])
            and (self.cause is None or self.cause == cause.get("kind"))
            and (self.since is None or event["to_us"] >= self.since)
            and (self.until is None or event["from_us"] <= self.until)
            and (self.lost is None or self.lost == is_lacking(event))
            and (not self.text or self.text in text_of(event, cause))
        )

    def found(self, events: list[dict]) -> list[dict]:
        """The events that are looked for, so many at most, in the order in which they came."""
        return [it for it in events if self.fits(it)][: self.count]


def is_lacking(event: dict) -> bool:
    """Whether frames of an event were lost, or less is held than was asked for."""
    return bool(event.get("lost") or event["lacks"])


def text_of(event: dict, cause: dict) -> str:
    """The words of an event among which a text is looked for."""
    return "\n".join([event["note"], *event["cameras"], cause.get("who", "")]).casefold()


def moment(text: str | None, what: str) -> int | None:
    """A time of a request, in microseconds since 1970 or as ISO 8601; none where it isn't given."""
    if text is None:
        return None
    return moment_in(int(text) if text.isascii() and text.isdigit() else text, what)


def search_in(query: Mapping[str, str]) -> Search:
    """What a request looks for; Unfit where it can't be."""
    if unknown := sorted(set(query) - WORDS):
        raise Unfit(400, f"unknown: {', '.join(unknown)[:100]}. An event is found by "
                         f"{', '.join(sorted(WORDS - {'of'}))}.")
    lost = query.get("lost")
    if lost not in (None, "0", "1"):
        raise Unfit(400, "lost is 1 for events of which frames are lacking, 0 for the others.")
    return Search(
        query.get("text", "").strip().casefold(),
        query.get("camera"),
        number_in(query.get("tag"), 2**64, "tag"),
        query.get("cause"),
        moment(query.get("from"), "from"),
        moment(query.get("to"), "to"),
        None if lost is None else lost == "1",
        number_in(query.get("count"), limits.NUMBERS_END, "count"),
    )
