"""Levels that have to stay for a while, and causes that are gathered into few keeps. Times are
microseconds; nothing here has a clock of its own."""
from dataclasses import dataclass, field

from . import asked

# No keep of gathered causes is longer.
MOST = 3_600_000_000


class Level:
    """Whether a level has stayed for a time. Edges come with their own times, so it doesn't matter
    how late they are read."""

    def __init__(self, stay: int) -> None:
        self.stay, self.since, self.is_told = stay, None, False

    def edge(self, is_on: bool, moment: int) -> int | None:
        """The level begins or ends: answers since when it had stayed, where it had, and nobody was
        told of it yet."""
        found = self.seen(moment)
        if is_on:
            # Twice the same edge: the one in between was lost.
            self.since, self.is_told = moment, False
            return found if found is not None else self.seen(moment)
        self.since = None
        return found

    def seen(self, moment: int) -> int | None:
        """All edges up to a time are known: answers since when the level stayed, where it has by
        then, once."""
        if self.since is None or self.is_told or moment - self.since < self.stay:
            return None
        self.is_told = True
        return self.since


@dataclass(frozen=True)
class Cause:
    """Why something is kept: a time of day, and words."""

    moment: int
    text: str


@dataclass
class Gathered:
    """A trigger's causes. The first one keeps at once. What comes in the rest after it is gathered,
    and kept as one at the rest's end: so many causes cost few keeps, and no time is left out."""

    name: str
    before: int
    after: int
    rest: int
    camera: str | None = None
    causes: list[Cause] = field(default_factory=list)
    count: int = 0
    free: int = 0

    def add(self, cause: Cause) -> None:
        """Another cause. Of very many the first and the last stay."""
        self.count += 1
        self.causes = [*self.causes[:1], cause]

    def due(self, now: int, tick: int) -> asked.Keep | None:
        """What is to be kept now, at a time of day, and of a clock that is never set back."""
        if not self.causes or tick < self.free:
            return None
        first, last = (it.moment for it in (self.causes[0], self.causes[-1]))
        since, until = min(first, last) - self.before, max(first, last) + self.after
        keep = asked.Keep(
            f"{self.name}-{now}",
            max(0, since, until - MOST - self.before - self.after),
            until,
            self.note(),
            self.camera,
            min(first, last),
        )
        self.causes, self.count, self.free = [], 0, tick + self.rest
        return keep

    def note(self) -> str:
        """What an event's note says of its causes."""
        texts = list(dict.fromkeys(it.text for it in self.causes))
        front = f"{self.count} times: " if self.count > 1 else ""
        return short(f"{self.name}: {front}{' .. '.join(texts)}")


def short(text: str) -> str:
    """A text that a note may have: in one line, and not too long."""
    plain = "".join(sign if sign.isprintable() else "?" for sign in text)
    return plain.encode(errors="replace")[: asked.NOTE_BYTES].decode(errors="ignore")
