"""Times of day: microseconds since 1970, or such as 2026-11-22T15:38:00.250Z."""
import datetime
import re

EPOCH = datetime.datetime(1970, 1, 1, tzinfo=datetime.timezone.utc)
MICROSECOND = datetime.timedelta(microseconds=1)
ISO = re.compile(r"(\d{4}-\d\d-\d\dT\d\d:\d\d:\d\d)(?:\.(\d{1,6}))?(Z|[+-]\d\d:\d\d)", re.ASCII)
# No number from here on is a time of day: the year 9999.
END = 253_402_300_800_000_000


def moment_in(value: object) -> int | None:
    """A time in microseconds since 1970; None where it is none."""
    if isinstance(value, int) and not isinstance(value, bool) and 0 <= value < END:
        return value
    if isinstance(value, str) and (found := ISO.fullmatch(value)):
        second, part, zone = found.groups()
        text = f"{second}.{(part or '').ljust(6, '0')}{'+00:00' if zone == 'Z' else zone}"
        try:
            moment = (datetime.datetime.fromisoformat(text) - EPOCH) // MICROSECOND
        except (ValueError, OverflowError):
            return None
        return moment if 0 <= moment < END else None
    return None


def iso(moment: int) -> str:
    """A time as a text, UTC, with microseconds."""
    return (EPOCH + datetime.timedelta(microseconds=moment)).strftime("%Y-%m-%dT%H:%M:%S.%fZ")
