"""What the station has said of its events. A keep of all cameras that it means is one event, and
has a number: the time at which its line was read, in microseconds since 1970. It is the tag of the
event's clips, unless the order or the configuration gives another one."""
import collections
from dataclasses import dataclass, field

from . import limits
from .reader import Clip
from .words import Line

# From here on a tag is an event's number: a time after 2001. Tags of people are smaller.
NUMBERS_FROM = 10**15
# Where frames were lost, what is shorter than this is no time without frames: a second.
LEAST = 1_000_000


@dataclass
class Part:
    """What was said of a camera's part of an event: how much of its time is held of how much, in
    microseconds, from when to when no frame is, and how many were lost; and once its end is over,
    why it isn't whole, or nothing where it is."""

    held: int | None = None
    asked: int | None = None
    gaps: list[tuple[int, int]] = field(default_factory=list)
    why: str | None = None
    lost: int = 0

    def is_short(self) -> bool:
        """Whether less is held than was asked for: a station tells of lost frames too, however
        little time they took."""
        missing = (self.asked or 0) - (self.held or 0)
        return self.held is not None and (not self.lost or missing >= LEAST)


@dataclass
class Told:
    """What was said of an event: of each camera, and until when it goes on where its end lay
    ahead."""

    parts: dict[str, Part] = field(default_factory=dict)
    until: int = 0

    def part(self, camera: str) -> Part:
        """A camera's part."""
        return self.parts.setdefault(camera, Part())

    def goes_on(self, camera: str | None = None) -> bool:
        """Whether its end lies ahead, of this camera, or of all: nothing was said of how it
        ended."""
        parts = [self.part(camera)] if camera else self.parts.values()
        return self.until > 0 and all(part.why is None for part in parts)


def is_number(tag: int) -> bool:
    """Whether a tag is an event's number."""
    return tag >= NUMBERS_FROM


class Heard:
    """The events of which the station has spoken since the page began, the newest ones."""

    def __init__(self) -> None:
        self.events: collections.OrderedDict[int, Told] = collections.OrderedDict()
        self.clips: collections.OrderedDict[tuple[str, int, int], int] = collections.OrderedDict()
        # Of each camera, when frames were lost and how many: from when to when, by the line's time.
        self.losses: dict[str, collections.deque[tuple[int, int, int]]] = {}
        # It grows with each line, so that what is made of it is made anew.
        self.version = 0

    def take(self, line: Line) -> None:
        """A line of the station: of an event, or none."""
        if line.kind == "given_up":
            self.lose(line)
        number = line.members.get("event")
        if number is None:
            return
        self.version += 1
        told = self.events.setdefault(number, Told())
        self.events.move_to_end(number)
        if line.kind == "event_begun":
            told.until = max(told.until, line["to"])
        elif line.kind == "kept":
            self.clips[line["camera"], line["id"], line["first"]] = number
            self.clips.move_to_end((line["camera"], line["id"], line["first"]))
        elif line.kind == "held":
            part = told.part(line["camera"])
            part.held, part.asked, part.gaps = line["held_micros"], line["asked_micros"], []
            part.lost = line.members.get("lost") or 0
        elif line.kind == "gap":
            if line["micros"] >= LEAST or not line.members.get("lost"):
                told.part(line["camera"]).gaps.append((line["at"], line["at"] + line["micros"]))
        elif line.kind in ("event_whole", "event_not_whole"):
            part = told.part(line["camera"])
            part.why = line.members.get("why", "")
            part.lost = max(part.lost, line.members.get("lost") or 0)
        for kept in (self.events, self.clips):
            while len(kept) > limits.EVENTS_HEARD:
                kept.popitem(last=False)

    def lose(self, line: Line) -> None:
        """Frames of a camera were lost."""
        since = line["since"]
        until = max(since, line.time or since)
        losses = self.losses.setdefault(line["camera"], collections.deque(maxlen=limits.LOSSES))
        losses.append((since, until, line["frames"]))
        self.version += 1

    def lost(self, camera: str, since: int, until: int) -> int:
        """How many frames of a camera were lost in a time, as far as the station has said it."""
        losses = self.losses.get(camera, ())
        return sum(count for first, last, count in losses if first <= until and last >= since)

    def station_ended(self) -> None:
        """No event goes on without a station. The next one says which do."""
        for told in self.events.values():
            if told.goes_on():
                told.until = 0
        self.version += 1

    def number_of(self, camera: str, clip: Clip) -> int | None:
        """The number of a clip's event; none where the station hasn't said it, and the clip has a
        tag of yours."""
        if is_number(clip.tag):
            return clip.tag
        number = self.clips.get((camera, clip.id, clip.first))
        return self.grown(camera, clip) if number is None else number

    def grown(self, camera: str, clip: Clip) -> int | None:
        """The number of the event whose end lay ahead and whose clip this is, by its first frame: a
        longer one has another id."""
        for (name, id_, first), number in reversed(self.clips.items()):
            is_one = (name, first) == (camera, clip.first) and clip.is_beside(id_)
            if is_one and self.told(number).until:
                return number
        return None

    def told(self, number: int | None) -> Told:
        """What was said of an event."""
        return self.events.get(number or 0, Told())
