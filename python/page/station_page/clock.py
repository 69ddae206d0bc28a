"""How far a clock is off: that of another page, or of the station, by answers that say a time."""
import collections

from . import limits


class Clock:
    """How far a clock is off, by the quickest of the last answers: what an answer took bounds the
    error."""

    def __init__(self) -> None:
        self.samples: collections.deque[tuple[int, int]] = collections.deque(
            maxlen=limits.CLOCK_SAMPLES
        )

    def add(self, asked: int, told: int, heard: int) -> None:
        """An answer: when it was asked for and heard by this clock, and what the other one said, in
        microseconds. Earlier answers that can't be so beside it are of a clock that was set since:
        they are forgotten."""
        took, offset = max(0, heard - asked), told - (asked + heard) // 2
        slack = took // 2 + limits.CLOCK_SLACK
        fit = [it for it in self.samples if abs(it[1] - offset) <= it[0] // 2 + slack]
        self.samples = collections.deque([*fit, (took, offset)], limits.CLOCK_SAMPLES)

    def offset(self) -> tuple[int, int] | None:
        """By how much it is ahead, and the error of that, in microseconds."""
        if not self.samples:
            return None
        took, offset = min(self.samples)
        return offset, took // 2

    def is_off(self) -> bool:
        """Whether it is certainly off by more than is borne."""
        found = self.offset()
        return found is not None and abs(found[0]) - found[1] > limits.CLOCK_MICROS

    def ahead(self) -> int:
        """By how much it is ahead where it is certainly off; else nothing."""
        found = self.offset()
        return found[0] if found and self.is_off() else 0
