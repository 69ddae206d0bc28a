"""The line to an open page: how much of what was sent is still on its way, and how much may be, so
that what is shown is new however slow the line is. What waits in the system is seen there; what
waits further on, as in a proxy, is known by what the page says that it has taken."""
import collections
import time

from . import limits


class Line:
    """A line."""

    def __init__(self) -> None:
        # All bytes that were sent, and of these the ones that were taken.
        self.sent, self.taken = 0, 0
        # Whether the page itself says what it has taken.
        self.is_told = False
        # How much may be on its way; the bytes a second, where the line was full.
        self.window, self.rate = limits.WINDOW_FIRST, 0.0
        # The seconds that the way takes where nothing waits, by the quickest of what was taken.
        self.way = float("inf")
        # How much was sent by when, of what is on its way.
        self.marks: collections.deque[tuple[int, float]] = collections.deque()
        # When something was taken last, and when each kind of message was sent last.
        self.moved = time.monotonic()
        self.said: dict[str, float] = {}
        # What has left the system, and when something did last.
        self.left, self.left_at = 0, time.monotonic()

    def send(self, count: int) -> None:
        """So many bytes are sent."""
        now = time.monotonic()
        if self.sent == self.taken:
            self.moved = now
        self.sent += count
        self.marks.append((self.sent, now))

    def look(self, waiting: int) -> None:
        """So many bytes wait in the system. A page that says what it has taken knows better."""
        if self.sent - waiting > self.left or waiting == 0:
            self.left, self.left_at = self.sent - waiting, time.monotonic()
        if not self.is_told:
            self.take(self.sent - waiting)

    def told(self, taken: int) -> None:
        """The page has taken so many bytes by its own word."""
        self.is_told = True
        self.take(min(taken, self.sent))

    def take(self, taken: int) -> None:
        """So many bytes were taken by now."""
        if taken <= self.taken:
            return
        now, late = time.monotonic(), None
        while self.marks and self.marks[0][0] <= taken:
            late = now - self.marks.popleft()[1]
        took = max(now - self.moved, 0.001)
        if self.sent - self.taken > self.window / 2:
            rate = (taken - self.taken) / took
            self.rate = rate if not self.rate else (self.rate + rate) / 2
            if late is not None:
                self.fit(late)
        self.taken, self.moved = taken, now

    def fit(self, late: float) -> None:
        """Makes the window larger where the line took what was sent at once, and smaller where that
        waited on its way."""
        self.way = min(self.way, late)
        late -= self.way
        if late > limits.LATE_SECONDS:
            least = max(limits.WINDOW_LEAST, int(self.rate * limits.LATE_SECONDS / 2))
            self.window = min(self.window, least)
        elif late < limits.LATE_SECONDS / 2:
            self.window = min(limits.WINDOW_MOST, self.window * 3 // 2)

    def room(self) -> int:
        """How many bytes may be sent now."""
        return self.window - (self.sent - self.taken)

    def is_due(self, kind: str, size: int) -> bool:
        """Whether a message that isn't a picture may be sent: such messages take a part of the line
        alone, and each comes in time nevertheless."""
        now, pause = time.monotonic(), 0.0
        if self.rate:
            pause = min(limits.STATE_SECONDS, size / (self.rate * limits.STATE_PART))
        if now - self.said.get(kind, -pause) < pause:
            return False
        self.said[kind] = now
        return True

    def is_dead(self) -> bool:
        """Whether nothing of what waits in the system has left it for long: nobody reads."""
        return time.monotonic() - self.left_at > limits.READ_SECONDS
