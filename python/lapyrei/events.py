"""Which clips are one event. A keep of a time makes a clip for each run of held frames of that
time, in each file: what people see as one event may be several clips. The station gives each event
a number, which is the tag of its clips unless the user gave another one; else it is told from the
clips' times. `grouped` is the one function that decides. It needs nothing but Python."""
from __future__ import annotations

from collections.abc import Iterable
from typing import NamedTuple

from .times import DAYS_BEGIN

# The station numbers an event by the time of its order, in microseconds since 1970: such tags, from
# the year 2000 to the year 2100, are events, and others are the user's.
NUMBERS = range(DAYS_BEGIN, 4_102_444_800_000_000)


class Span(NamedTuple):
    """A clip as the grouping sees it: its file's place, its id, its first and last number and its
    tag, and where its frames begin and end (after the last one) among all frames in time's order.
    """

    part: int
    id: int
    first: int
    last: int
    tag: int
    start: int
    end: int


def grouped(spans: Iterable[Span]) -> list[list[Span]]:
    """The clips of each event, both in time's order.

    Clips whose tag is an event's number are of that event. Of all others two are of one event if
    they have the same tag and no held frame lies between them: a keep takes all held frames of its
    time. They aren't if their numbers follow one another in one file,
    or if they have a frame in common: of those a keep would have made one clip."""
    events: list[list[Span]] = []
    # The events by where their last clip ends, and its tag.
    ends: dict[tuple[int, int], list[list[Span]]] = {}
    numbered: dict[int, list[Span]] = {}
    for span in sorted(spans, key=lambda it: (it.start, it.part, it.id)):
        if span.tag in NUMBERS:
            if span.tag not in numbered:
                events.append(numbered.setdefault(span.tag, []))
            numbered[span.tag].append(span)
            continue
        joined = next(
            (it for it in ends.get((span.start, span.tag), []) if joins(it[-1], span)), None
        )
        if joined is None:
            joined = []
            events.append(joined)
        else:
            ends[span.start, span.tag].remove(joined)
        joined.append(span)
        ends.setdefault((span.end, span.tag), []).append(joined)
    return events


def joins(before: Span, after: Span) -> bool:
    """Whether a clip may be of the event of the one that ends where it begins."""
    return before.part != after.part or after.first != before.last + 1
