"""What stands in a request: numbers, times and ranges, each within its bounds; and what is answered
where one isn't."""
import contextlib
import datetime
import re
from dataclasses import dataclass

from aiohttp import web
from lapyrei.files import MOST_STORES

from . import limits, words
from .reader import Frame, store_in
from .words import Unfit

# How a path names a frame: by its number, which its store's stands before where there are several.
FRAME = r"(?:\d{1,3}\.)?\d{1,19}"
RANGE = re.compile(r"bytes=(\d{0,19})-(\d{0,19})")
ISO_TIME = re.compile(r"\d{4}-\d\d-\d\dT\d\d:\d\d:\d\d(\.\d{1,6})?(Z|[+-]\d\d:\d\d)")


# The words of a keep. What gives orders for others says what made it do so.
KEEP = {"camera", "seconds", "after", "from", "to", "note", "at", "cause", "by"}
LONGEST = limits.KEEP_SECONDS
CAUSES = ("mqtt", "trigger", "press")


@dataclass(frozen=True)
class Wish:
    """What a keep asks for: a camera or all; the seconds before a moment, or before now where there
    is none, and those after it, where that is said, or a span of time; a note; and what made
    somebody ask, where that is said."""

    camera: str | None
    seconds: int | None
    span: tuple[int, int] | None
    note: str
    moment: int | None
    cause: str | None
    by: str
    after: int | None = None

    def sentence(self) -> str:
        """What is asked for, in words."""
        span, what = self.span, f"{self.seconds} s"
        if span:
            what = f"from {words.iso(span[0])} to {words.iso(span[1])}"
        elif self.moment is not None:
            what += f" before {words.iso(self.moment)}"
        what += f", and the next {self.after} s," if self.after else ""
        whom = self.camera if isinstance(self.camera, str) else "all cameras"
        note = f", note {self.note[:limits.NOTE_BYTES]!r}" if self.note else ""
        return f"{what} of {whom}{note}"


def wish_in(body: dict) -> Wish:
    """What a request asks to be kept; Unfit where that can't be."""
    note, seconds, span = body.get("note", ""), body.get("seconds"), None
    if not isinstance(note, str):
        raise Unfit(400, "note isn't a text.")
    if "from" in body or "to" in body:
        span = moment_in(body.get("from"), "from"), moment_in(body.get("to"), "to")
        if seconds is not None or span[0] > span[1]:
            raise Unfit(400, "Give seconds, or from and to, where from isn't after to.")
    elif (
        not isinstance(seconds, int)
        or isinstance(seconds, bool)
        or not 1 <= seconds <= limits.KEEP_SECONDS
    ):
        raise Unfit(400, f"seconds is a whole number from 1 to {limits.KEEP_SECONDS}.")
    after = after_in(body, span)
    moment = moment_in(body["at"], "at") if "at" in body else None
    cause, by = body.get("cause"), body.get("by", "")
    if cause not in (None, *CAUSES) or not isinstance(by, str):
        raise Unfit(400, f"cause is one of {', '.join(CAUSES)}, and by a text.")
    return Wish(body.get("camera"), seconds, span, note, moment, cause, by, after)


def after_in(body: dict, span: tuple[int, int] | None) -> int | None:
    """The seconds that are still to come of a keep; none where they aren't said: then the
    configuration's are meant."""
    after = body.get("after")
    if after is None:
        return None
    if span or not isinstance(after, int) or isinstance(after, bool) or not 0 <= after <= LONGEST:
        raise Unfit(400, f"after is a whole number from 0 to {LONGEST}, beside seconds.")
    return after


def number_in(text: str | None, end: int, what: str) -> int | None:
    """A number of a request, below an end; none where it isn't given."""
    if text is None:
        return None
    if not re.fullmatch(r"[0-9]{1,19}", text) or int(text) >= end:
        raise Unfit(400, f"{what} isn't a number, or too large a one.")
    return int(text)


def frame_in(text: str) -> tuple[int, int | None]:
    """A frame of a request: its number, and its store's where there are several."""
    store, _, number = text.rpartition(".")
    found = number_in(number, limits.NUMBERS_END, "number") or 0
    return found, number_in(store, MOST_STORES, "store") if store else None


def headers_of(frame: Frame) -> dict[str, str]:
    """The headers that say of which frame a picture is."""
    store = store_in(frame)
    found = {"X-Frame-Number": str(frame.number), "X-Frame-Time": str(frame.time)}
    return found if store is None else found | {"X-Frame-Store": str(store)}


def moment_in(value: object, what: str) -> int:
    """A time of a request in microseconds since 1970: such a number, or ISO 8601 with its zone."""
    if isinstance(value, int) and not isinstance(value, bool) and 0 <= value < limits.NUMBERS_END:
        return value
    if isinstance(value, str) and ISO_TIME.fullmatch(value):
        word = re.sub(
            r"\.(\d{1,6})", lambda found: "." + found[1].ljust(6, "0"), value.replace("Z", "+00:00")
        )
        with contextlib.suppress(ValueError, OverflowError):
            moment = datetime.datetime.fromisoformat(word) - datetime.datetime(
                1970, 1, 1, tzinfo=datetime.timezone.utc
            )
            if moment.days >= 0:
                return moment // datetime.timedelta(microseconds=1)
    raise Unfit(
        400, f"{what} isn't a time: microseconds since 1970, or such as 2026-11-22T15:38:00.250Z."
    )


def range_of(request: web.Request, length: int, tag: str) -> tuple[int, int] | None:
    """The bytes that are asked for, from a place to before another; none where all are. A range
    that is malformed is none, as HTTP has it."""
    found = RANGE.fullmatch(request.headers.get("Range", ""))
    if not found or not (found[1] or found[2]) or request.headers.get("If-Range", tag) != tag:
        return None
    if not found[1]:
        start, end = max(0, length - int(found[2])), length
    else:
        start, end = int(found[1]), min(length, int(found[2]) + 1) if found[2] else length
    if found[1] and found[2] and int(found[2]) < int(found[1]):
        return None
    if start >= length or start >= end:
        raise web.HTTPRequestRangeNotSatisfiable(headers={"Content-Range": f"bytes */{length}"})
    return start, end


def problem(status: int, text: str, headers: dict | None = None) -> web.Response:
    """What went wrong, in a sentence."""
    more = {"Retry-After": "10"} if status in (429, 503) else {}
    more |= {"WWW-Authenticate": "Bearer"} if status == 401 else {}
    return web.json_response({"error": text}, status=status, headers={**more, **(headers or {})})
