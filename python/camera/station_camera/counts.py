"""What happens to frames on their way: counted, and told once a second at most."""
from __future__ import annotations

import time
from typing import Callable

# What is told of each count, with one and with more.
WORDS = {
    "incomplete": ("frame incomplete and dropped", "frames incomplete and dropped"),
    "lost": ("frame lost before it came", "frames lost before they came"),
    "resent": ("packet resent", "packets resent"),
    "missing": ("packet missing", "packets missing"),
    "starved": ("frame without a buffer", "frames without a buffer"),
    "astray": ("packet without a buffer", "packets without a buffer"),
}
EVERY = 1.0


def said(counts: dict[str, int]) -> str:
    """The counts that aren't 0, in words."""
    return ", ".join(
        f"{counts[key]} {words[counts[key] != 1]}"
        for key, words in WORDS.items()
        if counts.get(key, 0) > 0
    )


class Lost:
    """How many frames are missing, by the camera's own numbers. Those of GigE Vision have 16 bits,
    and 1 follows 65535; an incomplete frame has its number too, and may come after later ones. The
    station counts the same: 65,535 at once, and numbers that jump further begin anew."""

    AROUND, LATE, MOST = 65535, 256, 65535

    def __init__(self) -> None:
        self.last: int | None = None

    def before(self, number: int) -> int:
        """How many frames are missing before this one; -1 where it comes late, and was counted."""
        if self.last is None:
            self.last = number
            return 0
        step = number - self.last
        if max(number, self.last) <= self.AROUND:
            if is_around(step, self.AROUND):
                step += self.AROUND
            elif is_late(step, self.AROUND):
                step -= self.AROUND
        if step == 0:
            return 0
        if -self.LATE <= step < 0:
            return -1
        self.last = number
        # Numbers that begin anew say nothing.
        return step - 1 if 0 < step <= self.MOST + 1 else 0


def is_around(step: int, around: int) -> bool:
    """Whether a step back is one forwards, over the greatest number."""
    return step < 0 and step + around <= around // 2


def is_late(step: int, around: int) -> bool:
    """Whether a step forwards is one back over the greatest number, to a frame that comes late."""
    return step > 0 and around - step <= Lost.LATE


class Unrolled:
    """A camera's own numbers as they would be without an end: those of GigE Vision, of 16 bits, go
    from 65535 to 1, those of a kernel from the greatest of 32 bits to 0. One that goes back, or
    comes again, is given as it is: the station begins anew there."""

    def __init__(self, around: int) -> None:
        self.around, self.turns, self.again = around, 0, 0
        self.last: int | None = None

    def of(self, number: int) -> int | None:
        """The number of a frame; None where that says nothing, and the station judges by time: more
        than two in a row have the same, or it is a late one of before the first."""
        last = self.last
        self.again = self.again + 1 if number == last else 0
        if last is not None and max(number, last) <= self.around:
            if is_around(number - last, self.around):
                self.turns += 1
            elif is_late(number - last, self.around):
                if not self.turns:
                    return None
                self.turns -= 1
        self.last = number
        return number + self.turns * self.around if self.again < 2 else None


class Numbers:
    """How many frames are missing, by the kernel's numbers of 32 bits, which begin at a start of
    the stream, and go round."""

    AROUND, MOST = 1 << 32, 65535

    def __init__(self, tell: Callable[[str], None]) -> None:
        self.tell, self.is_counted = tell, True
        self.last: int | None = None

    def before(self, number: int) -> int:
        """How many frames are missing before this one. Numbers that go back, or jump further than
        any camera loses, begin anew: that says nothing, and is told."""
        last, self.last = self.last, number
        if last is None:
            return 0
        missing = (number - last - 1) % self.AROUND
        if missing <= self.MOST:
            return missing
        if number != last:
            self.tell(f"numbers began anew: {number} after {last}")
        elif self.is_counted:
            self.is_counted = False
            self.tell("the driver gives frames the same number: what it loses isn't known")
        return 0


class Counts:
    """Counts since the start, and what of them was told."""

    def __init__(
        self, tell: Callable[[str], None], now: Callable[[], float] = time.monotonic
    ) -> None:
        self.tell, self.now = tell, now
        self.frames, self.is_over = 0, False
        self.whole = dict.fromkeys(WORDS, 0)
        self.told = dict(self.whole)
        self.next = now()

    def add(self, key: str, count: int = 1) -> None:
        """Counts; a frame that was counted as lost and comes late is taken off again."""
        self.whole[key] = max(0, self.whole[key] + count)

    def set(self, key: str, count: int, since: int = 0) -> None:
        """Takes a count that another keeps, from `since` on."""
        self.whole[key] = since + count

    def look(self) -> None:
        """Tells what has come since it was told last, once a second at most."""
        if self.whole != self.told and self.now() >= self.next:
            self.next = self.now() + EVERY
            self._tell()

    def end(self) -> None:
        """Tells what wasn't told yet, and the sums, once."""
        if self.is_over:
            return
        self.is_over = True
        if self.whole != self.told:
            self._tell()
        self.tell(
            f"ended: {self.frames} frames given on"
            + ("" if not any(self.whole.values()) else ", " + said(self.whole))
        )

    def _tell(self) -> None:
        news = said({key: count - self.told[key] for key, count in self.whole.items()})
        self.told = dict(self.whole)
        if news:
            self.tell(f"{news}; since the start {self.frames} frames given on, {said(self.whole)}")
