"""What an order by MQTT asks for, within its bounds. What isn't fit is refused by a name."""
import json
import re
from dataclasses import dataclass

from lapyrei import answers

from .moments import moment_in
from .settings import NAME

BYTES = 4096
NOTE_BYTES = 400
# A page keeps no longer time.
SPAN = 86_400_000_000
ID = re.compile(r"[A-Za-z0-9_.:-]{1,64}")
WORDS = {"id", "from", "to", "seconds", "at", "note", "camera"}


class Refused(Exception):
    """A request that can't be done: its name, a sentence, and the request's id where it has one."""

    def __init__(self, name: str, text: str, id_: str | None = None) -> None:
        super().__init__(text)
        self.name, self.id = name, id_


@dataclass(frozen=True)
class Keep:
    """A time of day to keep, in microseconds since 1970, of one camera or of all; and the moment of
    what made somebody ask, where that is said."""

    id: str
    since: int
    until: int
    note: str
    camera: str | None
    moment: int | None = None

    def words(self) -> str:
        """What it asks for, as one text. Without a moment it is as earlier programs wrote it."""
        more = [] if self.moment is None else [self.moment]
        return json.dumps([self.since, self.until, self.note, self.camera, *more])

    def mark(self) -> str:
        """How a note says whose keep it is."""
        return f"[{self.id}]"


def keep_of(id_: str, words: str) -> Keep:
    """A keep by its id and its text."""
    return Keep(id_, *json.loads(words))


def keep_in(raw: bytes) -> Keep:
    """What a message asks for."""
    if len(raw) > BYTES:
        raise Refused("TooLong", f"an order has at most {BYTES} bytes")
    try:
        found = answers.value_in(raw, BYTES)
    except answers.Unusable as fault:
        raise Refused("NotJson", f"an order is an object of JSON: {fault}") from None
    if not isinstance(found, dict):
        raise Refused("NotJson", "an order is an object of JSON")
    id_ = found.get("id")
    if not isinstance(id_, str) or not ID.fullmatch(id_):
        raise Refused(
            "BadId", "an order has an id of its own: 1 to 64 letters, digits, - _ . or :"
        )
    if unknown := sorted(set(found) - WORDS):
        raise Refused("UnknownWord", f"unknown: {', '.join(unknown)[:100]}.", id_)
    if "seconds" in found and "at" not in found:
        more = "Say from and to, or at beside them, so that all stations keep the same time."
        raise Refused("UnknownWord", f"unknown: seconds alone. {more}", id_)
    return within(found, id_)


def within(found: dict, id_: str) -> Keep:
    """A keep whose words are within their bounds."""
    moment = moment_in(found.get("at"))
    span = span_in(found, moment)
    if None in span or ("at" in found and moment is None):
        raise Refused(
            "BadTime",
            "from and to, or at, are times: such as 2026-11-22T15:38:00.250Z, or microseconds since "
            "1970",
            id_,
        )
    if not 0 <= span[1] - span[0] <= SPAN:
        raise Refused("BadSpan", "from isn't after to, and a keep spans a day at most", id_)
    note, camera = found.get("note", ""), found.get("camera")
    if not is_note(note):
        raise Refused("BadNote", f"note is a text of at most {NOTE_BYTES} bytes", id_)
    if camera is not None and (not isinstance(camera, str) or not NAME.fullmatch(camera)):
        raise Refused("BadCamera", "camera is a camera's name", id_)
    return Keep(id_, *span, note, camera, moment)


def span_in(found: dict, moment: int | None) -> tuple[int | None, int | None]:
    """From when to when an order means: so many seconds before its moment, or what it says."""
    if "seconds" not in found:
        return moment_in(found.get("from")), moment_in(found.get("to"))
    seconds = found["seconds"]
    if moment is None or type(seconds) is not int or not 1 <= seconds * 1_000_000 <= SPAN:
        return None, None
    if "from" in found or "to" in found:
        return None, None
    return max(0, moment - seconds * 1_000_000), moment


def is_note(note: object) -> bool:
    """Whether something is a text that a page takes as a note. Half a pair of UTF-16 is none."""
    try:
        return isinstance(note, str) and len(note.encode()) <= NOTE_BYTES
    except UnicodeEncodeError:
        return False
