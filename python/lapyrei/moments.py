"""Times that a caller gives, as microseconds: numbers, texts, datetimes and numpy's datetime64.
What is no time, or none that fits, is refused by name: numpy would make another time of it in
silence."""
from __future__ import annotations

import datetime
import operator
from typing import Any, Union

import numpy as np
from numpy.typing import NDArray

from . import times
from .errors import BadTime, Refused

Time = Union[int, np.integer[Any], str, datetime.datetime, np.datetime64]
# The times that a caller may name: 64 bits, with a sign or without one.
SMALLEST, LARGEST = -(2**63), 2**64 - 1
# The units of datetime64 that are finer than a microsecond: their times always fit.
FINER = ("ns", "ps", "fs", "as")


def micros_of(time: Any, newest: int | None = None) -> int:
    """The microseconds of a time, in a recording whose newest frame has the time `newest`. BadTime
    where it is none."""
    found = number_of(time, newest)
    if not SMALLEST <= found <= LARGEST:
        raise BadTime(f"{time!r} is no time that a frame may have: it is beyond 64 bits")
    return found


def number_of(time: Any, newest: int | None) -> int:
    """The same, which may be too large."""
    if isinstance(time, str):
        try:
            return times.moment_in(time, newest)
        except (ValueError, OverflowError, Refused) as fault:
            raise BadTime(f"{time!r} is no time: {fault}") from None
    if isinstance(time, datetime.datetime):
        try:
            return int(times.of_datetime(time))
        except (TypeError, ValueError, OverflowError) as fault:
            raise BadTime(f"{time!r} is no time: {fault}") from None
    if isinstance(time, np.datetime64):
        return int(whole_micros(np.asarray(time)))
    if isinstance(time, (bool, np.bool_)):
        raise BadTime("a time isn't true or false")
    try:
        return operator.index(time)
    except TypeError:
        what = type(time).__name__
        raise BadTime(
            f"a time is microseconds (an int), a text or a datetime, not {what}"
        ) from None


def whole_micros(given: NDArray[Any]) -> NDArray[np.int64]:
    """The microseconds of datetime64s."""
    if np.isnat(given).any():
        raise BadTime("NaT is no time")
    found = given.astype("datetime64[us]")
    # Where a coarser unit has too large a number numpy goes round.
    if np.datetime_data(given.dtype)[0] not in FINER:
        wrong = found.astype(given.dtype) != given
        if wrong.any():
            first = given[wrong].flat[0]
            raise BadTime(f"{first!r} is no time that a frame may have: it is beyond 64 bits")
    return found.astype(np.int64)


def vector_of(given: Any) -> NDArray[Any]:
    """Several times in microseconds, as whole numbers of 64 bits; BadTime where they are none."""
    found = np.asarray(given)
    if not found.size:
        return found.astype(np.int64)
    if found.dtype.kind == "M":
        return whole_micros(found)
    if found.dtype.kind not in "iu":
        raise BadTime(f"times are microseconds or datetime64, not {found.dtype}")
    if found.dtype.kind == "u" and found.size and int(found.max()) >> 63:
        raise BadTime(f"{found.max()} is no time that a frame may have: it is beyond 63 bits")
    return found.astype(np.int64)
