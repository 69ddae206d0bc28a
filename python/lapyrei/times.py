"""Times of frames: microseconds, of the day since 1970 where a station recorded them, and of
another clock elsewhere (docs/laboratory.md). It needs nothing but Python."""
from __future__ import annotations

import datetime
import decimal
import re

from .errors import Refused

# From here on, January 1 2000, a timestamp is a time of the day in microseconds since 1970; one
# before it is of another clock.
DAYS_BEGIN = 946_684_800_000_000
# The seconds of 2^64 microseconds: no time is longer.
LONGEST = 2**64 // 1_000_000
EPOCH = datetime.datetime(1970, 1, 1, tzinfo=datetime.timezone.utc)
MICROSECOND = datetime.timedelta(microseconds=1)


def day_of(microseconds: int) -> datetime.datetime | None:
    """A time of the day, in the zone of this machine; None where the timestamp is none."""
    try:
        moment = EPOCH + datetime.timedelta(microseconds=microseconds)
        return moment.astimezone() if microseconds >= DAYS_BEGIN else None
    except (OverflowError, ValueError):
        return None


def iso(microseconds: int) -> str | None:
    """A time of the day in ISO 8601, to the millisecond below, in the zone of this machine; None
    where the timestamp is none."""
    moment = day_of(microseconds)
    return None if moment is None else moment.isoformat(timespec="milliseconds")


def utc(microseconds: int) -> str:
    """A time of the day in ISO 8601 and UTC, to the microsecond; the empty text where the timestamp
    is none."""
    moment = day_of(microseconds)
    if moment is None:
        return ""
    text = moment.astimezone(datetime.timezone.utc).isoformat(timespec="microseconds")
    return text.replace("+00:00", "Z")


def seconds(microseconds: int) -> str:
    """A time in seconds, to the millisecond below."""
    return f"{microseconds // 1_000_000}.{microseconds // 1000 % 1000:03} s"


def micros(word: str) -> int:
    """The microseconds of a number of seconds. ValueError where it is none."""
    try:
        found = decimal.Decimal(word)
        # Of 1e999999999 a whole number would fill the memory.
        if abs(found) <= LONGEST:
            return int(found * 1_000_000)
    except (decimal.DecimalException, OverflowError, ValueError):
        pass
    raise ValueError(f"{word} is no number of seconds that a time may have")


def of_datetime(moment: datetime.datetime) -> int:
    """The microseconds since 1970 of a moment. One without a zone is of this machine's."""
    return (moment.astimezone(datetime.timezone.utc) - EPOCH) // MICROSECOND


def moment_in(word: str, newest: int | None) -> int:
    """The microseconds of a time that is given as seconds, as an ISO time, or as a time of the day
    of the newest frame, whose time is `newest`. ValueError where it is no time, and Refused where
    the frames have no times of the day."""
    if re.fullmatch(r"\d\d:\d\d(:\d\d(\.\d{1,6})?)?", word):
        day = None if newest is None else day_of(newest)
        if day is None:
            raise Refused("the frames have no times of the day")
        word = f"{day.date().isoformat()}T{word}"
    elif ":" not in word:
        return micros(word)
    # Before Python 3.11 fromisoformat knows neither Z nor other than three or six digits.
    word = re.sub(r"[zZ]$", "+00:00", word)
    word = re.sub(r"\.(\d{1,6})(?!\d)", lambda found: "." + found[1].ljust(6, "0"), word)
    return of_datetime(datetime.datetime.fromisoformat(word))
