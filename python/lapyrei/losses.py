"""What a source lost, by the frames' own sequence, which goes on over what was lost: exact, by
subtraction. Frames that the ring has removed aren't lost. It needs nothing but Python."""
from __future__ import annotations

from collections.abc import Sequence
from typing import Any, NamedTuple

# A sequence has 32 bits and goes round. What skips half of them began anew: that says nothing.
CYCLE, MOST = 1 << 32, 1 << 31


class Hole(NamedTuple):
    """A place where frames are lost: the numbers and the times (microseconds) of the frame before
    it and of the one after it, and how many."""

    after: int
    before: int
    since: int
    until: int
    lost: int


def lost_between(sequences: tuple[int, int], numbers: tuple[int, int]) -> int | None:
    """How many frames were lost between two of one store; None where the sequence began anew."""
    found = (sequences[1] - sequences[0] - (numbers[1] - numbers[0])) % CYCLE
    return found if found < MOST else None


def lost_at_turn(last: int, first: int) -> int:
    """How many frames were lost between the last one in a store and the first one in the next, by
    their sequences."""
    found = (first - last - 1) % CYCLE
    return found if found < MOST else 0


def holes_in(frames: Sequence[Any], first: int, last: int) -> list[Hole]:
    """Where frames are lost between two places of a store's frames, each (number, sequence, flags,
    time, ..), in order. By halving: where nothing is lost nothing is looked at."""
    found, left = [], [(first, last)] if first < last else []
    while left:
        start, end = left.pop()
        one, other = frames[start], frames[end]
        lost = lost_between((one[1], other[1]), (one[0], other[0]))
        if lost == 0:
            continue
        if end - start > 1:
            middle = (start + end) // 2
            left += [(middle, end), (start, middle)]
        elif lost:
            found.append(Hole(one[0], other[0], one[3], other[3], lost))
    return found
