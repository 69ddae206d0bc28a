"""What others say in JSON, read by one parser: a station's page, the file of loop_archive, an order
by MQTT. Page, archive, MQTT bridge and triggers read it here and nowhere else.

An answer is bounded in bytes and in depth; whoever fetches it bounds the time. It has no number
that isn't finite. Each word that somebody uses has a shape, and one that hasn't makes the answer
`Unusable`, with the place and the reason; so does a word that is missing and needed. Words that
nobody here knows are let pass. Nothing but Python is needed."""
from __future__ import annotations

import json
import math
import re
from collections.abc import Callable, Mapping
from typing import Any

# How many bytes an answer has at most, and how deep objects and lists lie in one another.
BYTES = 8 * 1024 * 1024
DEPTH = 32
# No number has more digits, or is larger than the largest tag; and no moment (microseconds since
# 1970) is after the year 9999.
DIGITS = 20
NUMBERS_END = 2**64
MOMENTS_END = 253_402_300_800_000_000
# How many cameras, warnings, events and clips an answer has at most, and the letters of a text.
CAMERAS, ALERTS, CLIPS = 256, 1_000, 100_000
LETTERS = 8_192
# The warnings of a station have numbers below this.
ALERT_NUMBERS_END = 10**9
# A camera's name, and that of a camera of another station, whose name stands before it.
NAME = r"[A-Za-z0-9_-]{1,32}"
MARK = ":"
ANY_NAME = rf"{NAME}(?:{MARK}{NAME}){{0,3}}"
LEVELS = ("good", "warn", "bad", "unknown")

STRING = re.compile(rb'"[^"\\]*(?:\\.[^"\\]*)*"', re.DOTALL)
PAIR = re.compile(rb"\[\]|\{\}")
NO_BRACKETS = bytes(sorted(set(range(256)) - set(b"[]{}")))

Shape = Callable[[Any], None]


class Unusable(ValueError):
    """Why an answer can't be used: the place in it, and what isn't as it has to be."""

    def __init__(self, what: str, place: str = "") -> None:
        super().__init__(what)
        self.what, self.place = what, place

    def at(self, place: str) -> Unusable:
        """The same, a step further out."""
        between = "." if self.place and not self.place.startswith("[") else ""
        return Unusable(self.what, f"{place}{between}{self.place}")

    def __str__(self) -> str:
        return f"{self.place or 'it'} {self.what}"


# ------------------------------------------------------------------------------------ the parser


def value_in(raw: bytes, most: int = BYTES, depth: int = DEPTH) -> Any:
    """The value of a text of JSON; Unusable where it is none, or beyond the bounds."""
    if len(raw) > most:
        raise Unusable(f"has more than {most} bytes")
    try:
        found = json.loads(
            raw.decode(), parse_float=finite, parse_int=short_number, parse_constant=no_number
        )
    except Unusable:
        raise
    except RecursionError:
        raise Unusable(f"is deeper than {depth}") from None
    except ValueError:
        raise Unusable("isn't JSON") from None
    if is_deeper(raw, depth):
        raise Unusable(f"is deeper than {depth}")
    return found


def finite(digits: str) -> float:
    """A number with a point; one too large for a machine is none."""
    found = float(digits)
    if not math.isfinite(found):
        raise Unusable(f"has a number that isn't finite: {digits[:DIGITS]}")
    return found


def short_number(digits: str) -> int:
    """A whole number that isn't too long."""
    if len(digits) > DIGITS:
        raise Unusable(f"has a number of more than {DIGITS} digits")
    return int(digits)


def no_number(word: str) -> float:
    """NaN and Infinity, which JSON doesn't have."""
    raise Unusable(f"has a number that isn't finite: {word}")


def is_deeper(raw: bytes, depth: int) -> bool:
    """Whether objects and lists of a text, which is JSON, lie deeper in one another. A pass takes
    the innermost ones away."""
    if raw.count(b"[") + raw.count(b"{") <= depth:
        return False
    left = STRING.sub(b"", raw).translate(None, NO_BRACKETS)
    for _ in range(depth):
        left = PAIR.sub(b"", left)
    return bool(left)


def answer_in(raw: bytes, shape: Shape, most: int = BYTES) -> Any:
    """The value of a text of JSON, which has a shape; Unusable where it hasn't."""
    found = value_in(raw, most)
    shape(found)
    return found


# ---------------------------------------------------------------------------------------- shapes


def text(form: str | None = None, what: str = "a text", most: int = LETTERS) -> Shape:
    """A text, by its form. Half a pair of UTF-16 is none."""
    pattern = re.compile(form or r".*", re.DOTALL)

    def shape(value: Any) -> None:
        fits = isinstance(value, str) and len(value) <= most and pattern.fullmatch(value)
        if not fits or not (value.isascii() or is_whole(value)):
            raise Unusable(f"isn't {what}")

    return shape


def is_whole(found: str) -> bool:
    """Whether a text can be written."""
    try:
        found.encode()
    except UnicodeEncodeError:
        return False
    return True


def one_of(*words: str) -> Shape:
    """One of some words."""

    def shape(value: Any) -> None:
        if not isinstance(value, str) or value not in words:
            raise Unusable(f"isn't one of {', '.join(words)}")

    return shape


def whole(least: int = 0, end: int = NUMBERS_END) -> Shape:
    """A whole number from the least one on, and below an end."""

    def shape(value: Any) -> None:
        if type(value) is not int or not least <= value < end:
            raise Unusable(f"isn't a whole number from {least} to {end - 1}")

    return shape


def number(least: float = 0, most: float = NUMBERS_END) -> Shape:
    """A number within its bounds."""

    def shape(value: Any) -> None:
        if type(value) not in (int, float) or not least <= value <= most:
            raise Unusable(f"isn't a number from {least} to {most}")

    return shape


def flag(value: Any) -> None:
    """true or false."""
    if type(value) is not bool:
        raise Unusable("isn't true or false")


def maybe(inner: Shape) -> Shape:
    """What may be null."""

    def shape(value: Any) -> None:
        if value is not None:
            inner(value)

    return shape


def each(inner: Shape, most: int, least: int = 0) -> Shape:
    """A list, of so many."""

    def shape(value: Any) -> None:
        if type(value) is not list:
            raise Unusable("isn't a list")
        if not least <= len(value) <= most:
            raise Unusable(f"isn't a list of {least} to {most}")
        for place, one in enumerate(value):
            try:
                inner(one)
            except Unusable as fault:
                raise fault.at(f"[{place}]") from None

    return shape


def table(needed: Mapping[str, Shape], more: Mapping[str, Shape] | None = None) -> Shape:
    """An object: words that it needs, and such as it may have. Others are let pass."""
    known = {**needed, **(more or {})}

    def shape(value: Any) -> None:
        if type(value) is not dict:
            raise Unusable("isn't an object")
        for word, fits in known.items():
            if word in value:
                try:
                    fits(value[word])
                except Unusable as fault:
                    raise fault.at(word) from None
            elif word in needed:
                raise Unusable("is missing", word)

    return shape


def named(inner: Shape, name: Shape, most: int = CAMERAS) -> Shape:
    """An object whose words are names."""

    def shape(value: Any) -> None:
        if type(value) is not dict:
            raise Unusable("isn't an object")
        if len(value) > most:
            raise Unusable(f"has more than {most} names")
        for word, one in value.items():
            try:
                name(word)
                inner(one)
            except Unusable as fault:
                raise fault.at(repr(word[:40])) from None

    return shape


def both(first: Shape, then: Shape) -> Shape:
    """What has two shapes."""

    def shape(value: Any) -> None:
        first(value)
        then(value)

    return shape


# ------------------------------------------------------------------------------ what a page says


TEXT = text()
CAMERA = text(ANY_NAME, "a camera's name")
OWN_CAMERA = text(NAME, "a camera's name")
COUNT = whole()
MOMENT = whole(0, MOMENTS_END)
SECONDS = number(0, 10**12)
# A time of day in seconds, as far as moments go.
TIME = number(0, MOMENTS_END // 10**6 - 1)
NUMBERS = each(COUNT, 8, 2)
# A clip's id has its store's number in it.
ID = whole(0, 2**31)


def in_order(value: Any) -> None:
    """That a clip's frames and times don't end before they begin."""
    for first, last in (("first", "last"), ("from_us", "to_us")):
        if first in value and last in value and value[first] > value[last]:
            raise Unusable(f"is before {first}", last)


CLIP_WORDS = {"id": ID, "first": COUNT, "from_us": MOMENT, "to_us": MOMENT}
# A clip, as `/api/clips` has it.
CLIP = both(
    table(
        {
            **CLIP_WORDS,
            "camera": CAMERA,
            "last": COUNT,
            "tag": COUNT,
            "event": maybe(COUNT),
            "note": TEXT,
        },
        {
            "frames": COUNT,
            "seconds": SECONDS,
            "bytes": COUNT,
            "from": TEXT,
            "to": TEXT,
            "fetched": flag,
            "archived": flag,
            "lost": COUNT,
        },
    ),
    in_order,
)
CLIPS_SAID = table({"clips": each(CLIP, CLIPS)})

# An event, as `/api/events` has it, and its clips.
CLIP_OF_EVENT = both(
    table({**CLIP_WORDS, "camera": CAMERA, "frames": COUNT}, {"last": COUNT, "lost": COUNT}),
    in_order,
)
# Why an event was kept: what gave the order, who, and when.
CAUSE = table({"kind": text(r"[a-z]{1,20}", "a kind of cause"), "who": TEXT, "at_us": MOMENT})
# That a camera was set otherwise: what of it, by whom, and when.
CHANGE = table({"camera": CAMERA, "text": TEXT, "who": TEXT, "at_us": MOMENT})
LACK = table(
    {"camera": CAMERA}, {"held_us": maybe(COUNT), "asked_us": maybe(COUNT), "why": maybe(TEXT)}
)
EVENT = both(
    table(
        {
            "key": text(most=LETTERS * 8),
            "number": maybe(COUNT),
            "from_us": MOMENT,
            "to_us": MOMENT,
            "seconds": SECONDS,
            "cameras": each(CAMERA, CAMERAS),
            "bytes": COUNT,
            "note": text(most=LETTERS * 8),
            "tag": COUNT,
            "fetched": flag,
            "until_us": maybe(MOMENT),
            "lacks": each(LACK, CAMERAS),
            "clips": each(CLIP_OF_EVENT, CLIPS, 1),
        },
        {"archived": flag, "cause": maybe(CAUSE), "lost": COUNT, "changes": each(CHANGE, CLIPS)},
    ),
    in_order,
)
EVENTS = each(EVENT, CLIPS)
EVENTS_SAID = table({"events": EVENTS})


def has_what_it_shows(value: Any) -> None:
    """That a camera with frames has all by which the console draws its ring."""
    shown = ("newest", "oldest", "frames", "pieces", "clips")
    if any(value.get(word) for word in ("newest", "oldest", "removed_next")):
        for word in shown:
            if value.get(word) is None:
                raise Unusable("is missing", word)


# A camera, as `/api/status` has it, and as open pages are sent it.
CAMERA_STANDING = table(
    {"name": CAMERA},
    {
        "level": one_of(*LEVELS),
        "state": TEXT,
        "kind": TEXT,
        "short": TEXT,
        "keep": maybe(COUNT),
        "after": maybe(COUNT),
        "given_up": maybe(COUNT),
        "lost": maybe(COUNT),
        "estimated": maybe(COUNT),
        "clock_us": maybe(whole(-(2**63), 2**64)),
        "full": maybe(TEXT),
        "blocks": maybe(COUNT),
        "holes": each(NUMBERS, CLIPS),
        "behind": maybe(SECONDS),
        "room": maybe(COUNT),
        "keeps": maybe(COUNT),
        "width": COUNT,
        "height": COUNT,
        "format": TEXT,
        "bits": whole(1, 65),
        "asked_rate": SECONDS,
        "rate": maybe(SECONDS),
        "seconds": maybe(SECONDS),
        "frames": COUNT,
        "locked": number(0, 1),
        "pieces": each(NUMBERS, CLIPS),
        "removed_next": maybe(NUMBERS),
        "clips": each(NUMBERS, CLIPS),
        "stores": maybe(NUMBERS),
        "newest": NUMBERS,
        "oldest": NUMBERS,
        "known_us": maybe(MOMENT),
    },
)
ALERT = table(
    {"id": whole(0, ALERT_NUMBERS_END), "text": TEXT},
    {"time": TIME, "kind": TEXT, "camera": maybe(TEXT), "times": COUNT},
)
NEWS = table({"time": TIME, "text": TEXT})


def is_level(value: Any) -> None:
    """A level, and a sentence."""
    if type(value) is not list or len(value) != 2:
        raise Unusable("isn't a level and a sentence")
    one_of(*LEVELS)(value[0])
    TEXT(value[1])


# What open pages are sent, by kind.
STATE = table(
    {
        "cameras": each(both(CAMERA_STANDING, has_what_it_shows), CAMERAS),
        "alerts": each(ALERT, ALERTS),
    },
    {
        "station": is_level,
        "news": each(NEWS, ALERTS),
        "now": SECONDS,
        "seen": each(whole(0, ALERT_NUMBERS_END), ALERTS),
    },
)
ROOM = {word: COUNT for word in ("room_blocks", "slots", "segments", "clips_left")}
DISK = table(
    {"ring_bytes": COUNT, "writes": COUNT, "left_seconds": SECONDS},
    {"oldest_us": maybe(MOMENT), "disk_bytes": maybe(COUNT), "free_bytes": maybe(COUNT)},
)
OF_CAMERA = {"advice": TEXT, "source": TEXT, "disk": DISK}
MORE = table({"cameras": named(table({}, OF_CAMERA | ROOM), CAMERA)})
PUSHED: dict[str, Shape] = {"state": STATE, "more": MORE, "events": EVENTS}

# What stands before each message of the answer that doesn't end.
SHOWN = {"camera": OWN_CAMERA, "turn": COUNT, "live": flag}
HEADS: dict[str, Shape] = {
    "hello": table({"id": text(r"[\x21-\x7e]{1,100}", "a stream's name")}),
    "none": table(SHOWN),
    "picture": table(
        SHOWN,
        {
            "number": COUNT,
            "time": MOMENT,
            "sequence": COUNT,
            "store": COUNT,
            "stretch": maybe(each(COUNT, 2, 2)),
            "sent": MOMENT,
            "age": COUNT,
        },
    ),
}
HEAD = table({"kind": text(most=40)})

STATUS = table(
    {
        "station": is_level,
        "cameras": each(CAMERA_STANDING, CAMERAS),
        "alerts": each(
            table(
                {
                    "id": COUNT,
                    "text": TEXT,
                    "time": TIME,
                    "kind": TEXT,
                    "camera": maybe(TEXT),
                    "times": COUNT,
                }
            ),
            ALERTS,
        ),
        "news": each(NEWS, ALERTS),
    }
)
CLOCK = table({"now_us": MOMENT})
STEP = table({"moment": MOMENT})
# What is said of a change, and of one that was refused.
SAID = table({}, {"text": TEXT})
REFUSAL = table({}, {"error": TEXT})

CLIP_KEPT = both(
    table({**CLIP_WORDS, "last": COUNT}, {"from": TEXT, "to": TEXT}), in_order
)
KEPT = table(
    {
        "kept": flag,
        "answers": each(
            table(
                {
                    "camera": maybe(TEXT),
                    "kept": flag,
                    "text": TEXT,
                    "clips": each(CLIP_KEPT, CLIPS),
                    "event": maybe(COUNT),
                    "until_us": maybe(MOMENT),
                    "held_us": maybe(COUNT),
                    "asked_us": maybe(COUNT),
                    "why": maybe(TEXT),
                },
                {"lack": maybe(TEXT), "remark": maybe(TEXT), "lost": COUNT},
            ),
            CAMERAS,
        ),
    }
)


# --------------------------------------------------------------------- what loop_archive writes


ARCHIVED_CAMERA = table(
    {"name": TEXT},
    {
        "waiting": COUNT,
        "archived": COUNT,
        "fault": maybe(TEXT),
        "behind_seconds": SECONDS,
    },
)
ARCHIVE = table(
    {"cameras": each(ARCHIVED_CAMERA, CAMERAS), "archived": each(table({}), CLIPS)},
    {"fault": maybe(TEXT)},
)
# What the page shows of it: which clips are elsewhere too.
ARCHIVE_SHOWN = table(
    {
        "fault": TEXT,
        "cameras": each(
            table(
                {
                    "name": TEXT,
                    "waiting": COUNT,
                    "archived": COUNT,
                    "fault": TEXT,
                    "behind_seconds": SECONDS,
                }
            ),
            CAMERAS,
        ),
        "archived": each(
            table(
                {
                    "camera": TEXT,
                    "id": ID,
                    "first": COUNT,
                    "last": COUNT,
                    "since": MOMENT,
                    "tag": COUNT,
                    "event": maybe(COUNT),
                    "is_released": flag,
                }
            ),
            CLIPS,
        ),
    }
)
