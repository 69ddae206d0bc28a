"""Several stations as one: their cameras have the name of their station before their own, and what
was kept of one span on several is one event."""
import collections
import json
import logging
import threading
import time
from bisect import bisect_left
from itertools import chain
from operator import itemgetter
from typing import NamedTuple

from lapyrei.answers import ALERT_NUMBERS_END as ALERTS
from lapyrei.answers import MARK

from . import limits
from .asked import Wish
from .events import NEAR_END, NEAR_START
from .others import Other
from .whole import clear, write_whole

log = logging.getLogger("loop_page")
AS_JSON = json.JSONEncoder(separators=(",", ":")).encode


def named(other: Other, camera: object) -> str:
    """A camera's name here: its station's, a mark that no name has, and its own."""
    return f"{other.name}{MARK}{camera}"


def cameras_of(other: Other) -> list[dict]:
    """Its cameras, as they stand; all bad where it doesn't answer."""
    if other.state is None:
        return []
    found = [it | {"name": named(other, it["name"])} for it in other.state["cameras"]]
    if other.is_shown_as_it_is():
        return found
    kind, why = other.trouble()
    text = f"{why} What you see of it is of before."
    shortly = "unusable answer" if kind == "unusable" else "no answer"
    away = {"level": "bad", "state": text, "kind": "away", "short": shortly, "rate": None}
    # From then on nobody knows here what came.
    away["known_us"] = int((time.time() - (time.monotonic() - other.heard)) * 1e6)
    return [it | away for it in found]


def alerts_of(other: Other, place: int) -> list[dict]:
    """Its warnings that nobody has seen. Each station's have numbers of their own here."""
    found = []
    for it in (other.state or {}).get("alerts", []):
        camera = it.get("camera")
        text = f"{other.name}: {it['text']}"
        id_ = it["id"] + (place + 1) * ALERTS
        found.append(it | {"id": id_, "camera": camera and named(other, camera), "text": text})
    return found


def state_of(local: dict, others: list[Other]) -> dict:
    """The state of all."""
    found = dict(local)
    found["stations"] = [other.standing() for other in others]
    for place, other in enumerate(others):
        found["cameras"] = found["cameras"] + cameras_of(other)
        found["alerts"] = found["alerts"] + alerts_of(other, place)
        seen = (other.state or {}).get("seen", [])
        found["seen"] = found.get("seen", []) + [id_ + (place + 1) * ALERTS for id_ in seen]
    return found


def more_of(local: dict, others: list[Other]) -> dict:
    """What the console shows beside the state."""
    cameras = dict(local["cameras"])
    for other in others:
        for name, it in other.more.items():
            cameras[named(other, name)] = it
            if not other.is_shown_as_it_is():
                advice = (
                    "Does loop_page run there, and is the network there? Recording may well go on."
                )
                cameras[named(other, name)] = it | {"advice": advice}
    return local | {"cameras": cameras}


# ------------------------------------------------------------------------------------------ events


def event_of(other: Other, event: dict) -> dict:
    """An event of another station, with its cameras' names here."""
    # As `named` has it, once for all of them: a station may say thousands.
    front = f"{other.name}{MARK}"
    clips = [it | {"camera": front + it["camera"]} for it in event["clips"]]
    return event | {
        "key": "~".join([f"{it['camera']}.{it['id']}.{it['first']}" for it in clips]),
        "clips": clips,
        "lacks": [it | {"camera": front + it["camera"]} for it in event["lacks"]],
        "cameras": [front + it for it in event["cameras"]],
        "changes": [it | {"camera": front + it["camera"]} for it in event.get("changes", ())],
    }


class Presses:
    """Which events of several stations were one press of this page: by their numbers. They are in a
    file, so that they are one after a restart too. Where it can't be read or written, they are
    known until then."""

    def __init__(self, most: int, path: str | None = None) -> None:
        self.most, self.path, self.lock = most, path, threading.Lock()
        # It grows with each press, so that what is made of it is made anew.
        self.version = 0
        self.presses: dict[tuple[str, int], tuple[str, int]] = {}
        if path:
            clear(path)
            self.load(path)

    def load(self, path: str) -> None:
        """Reads the file."""
        try:
            with open(path, encoding="utf-8") as file:
                found = json.load(file)["presses"]
            for press in found[-self.most :]:
                self.note([(str(name), int(number)) for name, number in press])
        except FileNotFoundError:
            return
        except (OSError, ValueError, TypeError, KeyError, RecursionError) as fault:
            log.warning("%s can't be read: %s", path, fault)

    def note(self, numbers: list[tuple[str, int]]) -> None:
        """Knows a press."""
        self.version += 1
        for it in numbers:
            self.presses[it] = numbers[0]
        while len(self.presses) > self.most:
            del self.presses[next(iter(self.presses))]

    def add(self, numbers: list[tuple[str, int]]) -> None:
        """A press: of each station the number of its event. It is written down."""
        if len(numbers) < 2:
            return
        with self.lock:
            self.note(numbers)
            presses: dict[tuple[str, int], list[tuple[str, int]]] = {}
            for it, first in self.presses.items():
                presses.setdefault(first, []).append(it)
            try:
                if self.path:
                    write_whole(self.path, {"presses": list(presses.values())})
            except OSError as fault:
                log.warning("%s can't be written: %s", self.path, fault)

    def of(self, station: str, number: int | None) -> tuple | None:
        """The press of an event."""
        return self.presses.get((station, number))


def period(event: dict) -> float:
    """The microseconds from a frame to the next, of its slowest camera."""
    return max([(it["to_us"] - it["from_us"]) / (it["frames"] - 1 or 1) for it in event["clips"]])


# What an event of several stations is made of, beside what it has of the first of them.
COLUMNS = itemgetter(
    "key", "from_us", "to_us", "seconds", "bytes", "fetched", "note", "number", "until_us", "clips",
    "cameras", "lacks", "archived", "lost", "cause", "changes",
)
# What pages of before don't say.
UNSAID = {"archived": False, "lost": 0, "cause": None, "changes": []}


class Known(NamedTuple):
    """An event of a station, with its cameras' names here, and what it is joined by: when it begins
    and ends, and two periods of its slowest camera, all in microseconds; its tag; and its number.
    `said` is the event as its station said it, `columns` what one of several stations is made of,
    and `clips` its clips as JSON, without brackets."""

    since: int
    until: int
    slack: float
    tag: int
    number: int | None
    event: dict
    said: dict
    columns: tuple
    clips: str


def known(other: Other | None, event: dict) -> Known:
    """An event of another station, or of this one."""
    shown = event_of(other, event) if other else event
    since, until, slack = event["from_us"], event["to_us"], 2 * period(event)
    columns, clips = COLUMNS({**UNSAID, **shown}), AS_JSON(shown["clips"])[1:-1]
    return Known(since, until, slack, event["tag"], event["number"], shown, event, columns, clips)


def are_near(one: Known, other: Known) -> bool:
    """Whether two events are of one span."""
    slack = one.slack if one.slack > other.slack else other.slack
    return (
        -NEAR_START - slack <= one.since - other.since <= NEAR_START + slack
        and -NEAR_END - slack <= one.until - other.until <= NEAR_END + slack
        and one.tag == other.tag
    )


Group = dict[str, Known]
# Events that may be one, each with its station.
Crowd = list[tuple[str, Known]]


class Beginnings:
    """The events of a tag that have no press, by when they begin, each with its group: so the
    nearest one is found without a look at all of them. Those of a station are looked for from the
    next station on, since two of one station are never one."""

    def __init__(self) -> None:
        self.times: list[int] = []
        self.found: list[tuple[int, int, Known, Group]] = []
        self.new: list[tuple[int, int, Known, Group]] = []
        # The longest slack: it bounds how far apart two beginnings may be.
        self.slack = 0.0

    def add(self, event: Known, group: Group) -> None:
        """An event and its group."""
        self.new.append((event.since, len(self.found) + len(self.new), event, group))
        if event.slack > self.slack:
            self.slack = event.slack

    def settle(self) -> None:
        """A station is over: its events are looked for from now on."""
        self.found += self.new
        self.found.sort()
        self.times, self.new = [it[0] for it in self.found], []

    def group(self, station: str, event: Known) -> Group | None:
        """The group of the nearest event that is of one span with this one, and has none of its
        station. So many are looked at, whatever stations say."""
        times, since = self.times, event.since
        most, slack = len(times), max(event.slack, self.slack)
        least, far = since - NEAR_START - slack, since + NEAR_START + slack
        after = bisect_left(times, since)
        before = after - 1
        for _ in range(limits.NEAR_TRIES):
            is_before = before >= 0 and times[before] >= least
            is_after = after < most and times[after] <= far
            if is_before and not (is_after and times[after] - since < since - times[before]):
                one, group = self.found[before][2:]
                before -= 1
            elif is_after:
                one, group = self.found[after][2:]
                after += 1
            else:
                return None
            if station not in group and are_near(event, one):
                return group
        return None


def crowds(events: dict[str, list[Known]], presses: Presses) -> tuple[list[Crowd], list[Crowd]]:
    """The events of all stations in crowds: those of each press; and of those of which this page
    knows no press, those of a tag that begin near one another. No two of two crowds are one."""
    by_press: collections.defaultdict[tuple, Crowd] = collections.defaultdict(list)
    by_tag: collections.defaultdict[int, Crowd] = collections.defaultdict(list)
    for station, own in events.items():
        for event in own:
            press = None if event.number is None else presses.of(station, event.number)
            if press:
                by_press[press].append((station, event))
            else:
                by_tag[event.tag].append((station, event))
    return list(by_press.values()), [it for own in by_tag.values() for it in near_by(own)]


def near_by(found: Crowd) -> list[Crowd]:
    """Events of a tag, which are in the stations' order, divided where a beginning is too far from
    the one before it for any two to be one. Each part is in the stations' order."""
    begins = [event.since for _, event in found]
    places = sorted(range(len(found)), key=begins.__getitem__)
    begins.sort()
    far = NEAR_START + max([event.slack for _, event in found])
    breaks = [
        place for place, (old, new) in enumerate(zip(begins, begins[1:]), 1) if new - old > far
    ]
    parts = [places[start:end] for start, end in zip([0, *breaks], [*breaks, len(found)])]
    return [[found[place] for place in sorted(part)] for part in parts]


def are_one(crowd: Crowd) -> bool:
    """Whether any two of a crowd are of one span, and of two stations."""
    if len({station for station, _ in crowd}) < len(crowd):
        return False
    least = min([event.slack for _, event in crowd])
    since, until = [event.since for _, event in crowd], [event.until for _, event in crowd]
    starts = max(since) - min(since) <= NEAR_START + least
    return starts and max(until) - min(until) <= NEAR_END + least


def of_press(crowd: Crowd) -> list[Group]:
    """The events of a press in groups: of each station one event alone."""
    groups: list[Group] = []
    for station, event in crowd:
        if not groups or station in groups[-1]:
            groups.append({})
        groups[-1][station] = event
    return groups


def of_span(crowd: Crowd) -> list[Group]:
    """The events of a crowd in groups: those of one span."""
    if are_one(crowd):
        return [dict(crowd)]
    groups, beginnings, last = [], Beginnings(), crowd[0][0]
    for station, event in crowd:
        if station != last:
            beginnings.settle()
            last = station
        group = beginnings.group(station, event)
        if group is None:
            groups.append(group := {})
        group[station] = event
        beginnings.add(event, group)
    return groups


class Joined:
    """The events of all stations as one list. How a crowd is divided, and what was made of an
    event, or of some that are one, is kept until a station says something else of it, so that a new
    event costs little. What a station alone needs is done as its answer comes (`prepare`)."""

    def __init__(self, presses: Presses) -> None:
        self.presses = presses
        # Of each station what it said, what that is here, and the same by its keys.
        self.stations: dict[str, tuple[list[dict], list[Known], dict[str, Known]]] = {}
        self.divided: dict[tuple[int, ...], list[Group]] = {}
        self.made: dict[tuple[int, ...], tuple[Group, dict, bytes]] = {}

    def join(self, said: dict[str, tuple[Other | None, list[dict]]]) -> tuple[list[dict], bytes]:
        """The events of all stations, the newest first, and the same as JSON. `said` has of each
        station itself, or nothing where it is this one, and its events."""
        stations = {
            name: self.prepare(name, other, events) for name, (other, events) in said.items()
        }
        made = {}
        for group in self.groups(stations):
            mark = tuple(id(it) for it in group.values())
            made[mark] = self.made.get(mark) or one_made(group)
        self.made = made
        ordered = sorted(
            made.values(),
            key=lambda it: (it[1]["to_us"], it[1]["from_us"], it[1]["key"]),
            reverse=True,
        )
        return [it[1] for it in ordered], b"[" + b",".join(it[2] for it in ordered) + b"]"

    def groups(self, stations: dict[str, list[Known]]) -> list[Group]:
        """The events of each station in groups: those of one press, and, where this page doesn't
        know the press, those of one span."""
        pressed, near = crowds(stations, self.presses)
        divided = {}
        for crowd in near:
            mark = tuple([id(event) for _, event in crowd])
            divided[mark] = self.divided.get(mark) or of_span(crowd)
        self.divided = divided
        found = [group for groups in divided.values() for group in groups]
        return found + [group for crowd in pressed for group in of_press(crowd)]

    def prepare(self, name: str, other: Other | None, events: list[dict]) -> list[Known]:
        """The events of a station: those that it has said before are what they were."""
        said, found, before = self.stations.get(name, (None, [], {}))
        if said is events:
            return found
        found = []
        for event in events:
            old = before.get(event["key"])
            is_same = old is not None and (old.said is event or old.said == event)
            found.append(old if is_same else known(other, event))
        self.stations[name] = events, found, {it.said["key"]: it for it in found}
        return found


def one_made(group: Group) -> tuple[Group, dict, bytes]:
    """A group, what it is as one event, and that as JSON."""
    events = list(group.values())
    found = one_of(events)
    head = AS_JSON({key: it for key, it in found.items() if key != "clips"})
    clips = ",".join([it.clips for it in events])
    return group, found, f'{head[:-1]},"clips":[{clips}]}}'.encode()


def one_of(events: list[Known]) -> dict:
    """Events of several stations as one."""
    first = events[0].event
    if len(events) == 1:
        return first
    # Each word of all of them at once, since this is done for thousands.
    (
        keys, since, until, seconds, sizes, fetched, notes, numbers, ends, clips, cameras, lacks,
        archived, lost, causes, changes,
    ) = zip(*[it.columns for it in events])
    return first | {
        "key": "~".join(keys),
        "number": next((it for it in numbers if it is not None), None),
        "from_us": min(since),
        "to_us": max(until),
        "seconds": max(seconds),
        "cameras": [*chain.from_iterable(cameras)],
        "bytes": sum(sizes),
        "note": "; ".join(dict.fromkeys(filter(None, notes))),
        "fetched": any(fetched),
        "archived": all(archived),
        "until_us": max([it for it in ends if it is not None], default=None),
        "lacks": [*chain.from_iterable(lacks)],
        "clips": [*chain.from_iterable(clips)],
        "cause": next(filter(None, causes), None),
        "lost": sum(lost),
        "changes": [*chain.from_iterable(changes)],
    }


# ------------------------------------------------------------------------------------------- keeps


def span_of(wish: Wish, moment: int, cameras: list[dict]) -> tuple[int, int]:
    """The span that all stations keep: their clocks say the same times. With seconds it ends at the
    moment of the press, or after those that are wished to come; where that isn't said, after what a
    camera's configuration adds, the most of all."""
    if wish.span is not None or wish.seconds is None:
        return wish.span or (0, 0)
    after = wish.after
    if after is None:
        after = max((it.get("after") or 0 for it in cameras), default=0)
    return max(0, moment - wish.seconds * 1_000_000), moment + after * 1_000_000


def answers_of(other: Other, told: dict) -> list[dict]:
    """What another station said of a keep, with its cameras' names here."""
    found = []
    for it in told["answers"]:
        camera, text = it["camera"], it["text"]
        text = f"{other.name}{MARK}{text}" if camera else f"{other.name}: {text}"
        found.append(it | {"camera": named(other, camera) if camera else other.name, "text": text})
    return found


def refused(name: str | None, why: str) -> dict:
    """A station that kept nothing, and why."""
    text = why if name is None or why.startswith((f"{name}:", f"{name} ")) else f"{name}: {why}"
    found = {"camera": name, "kept": False, "text": text, "why": why, "clips": [], "lack": ""}
    return found | {"remark": "", "event": None, "until_us": None, "held_us": None, "asked_us": None}
