"""What power_check asks of several stores of one camera: what a loss of power may leave of all of
them, at chosen moments of a station's log, and what the station does that is started over that.

`Seen` reads files by the layout; `Owed` is what the station has told, which no loss of power may
take away; `Life` reads the log of a station, and judges it. None of them shares code with the
station: the rules are those of docs/station.md."""
from __future__ import annotations

import copy
import json
import os
import random
import shutil
import sys
import tempfile
import time
from collections.abc import Iterator
from pathlib import Path
from typing import NamedTuple

import layout
from power_loss import library, log_of, under
from simulated_disk import Disk, Record
from stations import Silent, Told, camera, configure
from stores import Violation

CAMERA, STORES, SEGMENTS, SLOTS, WIDTH = "left", 4, 3, 4, 16
SIZE = WIDTH * WIDTH
GEOMETRY = layout.Geometry(WIDTH, WIDTH, b"GREY", 25, 1, SEGMENTS, SLOTS, SIZE)
HEADER = f"YUV4MPEG2 W{WIDTH} H{WIDTH} F25:1 Ip A0:0 Cmono\n".encode()
PATHS = [f"{CAMERA}.{it:03}.loop" for it in range(STORES)]
EVENTS, ANSWERS = f"{CAMERA}.loop.events", "answers.json"
# What the station's lines say where something is wrong that no honest disk leaves.
NEVER = ("store_absent", "one_absent", "not_a_store", "store_missing", "not_in_order",
         "removed_out_of_order", "given_up", "not_noted", "refused", "dropped_lines")
OVER = ("event_whole", "event_not_whole")
# So long a state is waited for, however busy the machine is.
PATIENCE = 120
WRAP = 1 << 32
# The place of a record has the number of its file above these bits.
NUMBER = 48
# So many boots are made after one first life.
BOOTS = 12
# Moments of a log, by what is under way then.
KINDS = ("making", "turn", "removal", "lock", "events", "frames")


class Frame(NamedTuple):
    """A frame that is held: its store, its number there, its sequence and its time."""

    store: int
    number: int
    sequence: int
    time: int


class Clip(NamedTuple):
    """A clip of a store: its first and last number, its tag, and its frames by their names."""

    first: int
    last: int
    tag: int
    names: frozenset[int]


def pixels(name: int) -> bytes:
    """The bytes of a frame."""
    return name.to_bytes(8, "little") * (SIZE // 8)


class Seen:
    """What the files of the camera hold: each frame by the name that its pixels say; the clips; the
    blocks, each with its names; and how many frames were ever stored."""

    def __init__(self, files: dict[str, bytes]) -> None:
        self.frames: dict[int, Frame] = {}
        self.clips: dict[tuple[int, int], Clip] = {}
        self.blocks: dict[tuple[int, int], list[int]] = {}
        self.free: dict[int, int] = {}
        self.total = 0
        for store, path in enumerate(PATHS):
            if path in files:
                self.reads(store, files[path])

    def reads(self, store: int, image: bytes) -> None:
        """Reads a store, each frame whole."""
        try:
            found = layout.read_once(lambda at, count: image[at:at + count], len(image))
        except layout.Refused as refused:
            raise Violation(f"{PATHS[store]} is refused: {refused.text}") from None
        heads, names = {it.number: it for it in found.frames}, {}
        self.free[store] = sum(not it.open for it in found.segments)
        for segment in found.segments:
            for slot in range(segment.whole if segment.open else 0):
                number = segment.block * SLOTS + slot
                at = GEOMETRY.slot_at(segment.place, slot) + layout.HEAD
                name = int.from_bytes(image[at:at + 8], "little")
                if image[at:at + SIZE] != pixels(name):
                    raise Violation(f"frame {number} of {PATHS[store]} isn't whole")
                if name in self.frames:
                    raise Violation(f"frame {name} is there twice: {self.frames[name]}, and"
                                    f" {number} of {PATHS[store]}")
                names[number] = name
                head = heads[number]
                self.frames[name] = Frame(store, number, head.sequence, head.time)
                self.blocks.setdefault((store, segment.block), []).append(name)
        for own, first, last, tag in found.clips:
            held = frozenset(names[it] for it in range(first, last + 1))
            self.clips[store, own] = Clip(first, last, tag, held)
        self.total += found.next

    def locked(self) -> set[int]:
        """The names of all frames that clips hold."""
        return set().union(*(it.names for it in self.clips.values()))

    def newest(self) -> int | None:
        """The name of the newest frame."""
        return max(self.frames, default=None)

    def may_go(self) -> list[list[int]]:
        """The blocks that may go, the oldest first: no clip meets them, and none is its store's
        newest."""
        last = {store: max(it for at, it in self.blocks if at == store) for store, _ in self.blocks}
        locked = self.locked()
        return sorted(names for (store, block), names in self.blocks.items()
                      if block != last[store] and not locked.intersection(names))


def events_in(files: dict[str, bytes]) -> dict[int, tuple[int, int]]:
    """The events that the file of events has, and when each begins and ends."""
    words = [line.split() for line in files.get(EVENTS, b"").split(b"\n")]
    return {int(it[0]): (int(it[1]), int(it[2])) for it in words if len(it) == 4}


class Owed:
    """What was told up to a moment: frames that are stored and weren't removed since; frames that
    are locked, by the clip that was told; clips that were released; events that go on, and those
    that are over. `sequences` has that of each frame that was ever given."""

    def __init__(self) -> None:
        self.stored: set[int] = set()
        # Each clip that was kept: its id, its event, and its frames.
        self.locked: list[tuple[int, int, frozenset[int]]] = []
        self.released: set[tuple[int, Clip]] = set()
        self.open: set[int] = set()
        self.over: set[int] = set()
        self.sequences: dict[int, int] = {}
        # The events that the file of events had at the moment, as the program saw it, and when each
        # begins and ends.
        self.noted: set[int] = set()
        self.spans: dict[int, tuple[int, int]] = {}

    def judge(self, files: dict[str, bytes]) -> Seen:
        """Sees that files may be what a loss of power leaves."""
        seen = Seen(files)
        if lacks := self.stored - set(seen.frames):
            raise Violation(f"frames {sorted(lacks)} were told as stored, and aren't there")
        for which, _, names in self.locked:
            if lacks := names - seen.locked():
                raise Violation(f"clip {which} was told as kept, and its frames {sorted(lacks)}"
                                " aren't locked")
        for (store, own), clip in seen.clips.items():
            if (store, clip) in self.released and clip.tag not in self.open | set(events_in(files)):
                raise Violation(f"{clip} of store {store} was told as released, and is there as"
                                f" clip {store * 64 + own}")
        noted = set(events_in(files))
        if lacks := (self.open & self.noted) - noted:
            raise Violation(f"the events {sorted(lacks)} were answered, and aren't noted")
        if more := noted & self.over:
            raise Violation(f"the events {sorted(more)} were told as over, and are noted")
        self.in_order(seen)
        return seen

    def in_order(self, seen: Seen) -> None:
        """The sequences of the frames that are held are those that they were to have."""
        wrong = {name: (it.sequence, self.sequences.get(name)) for name, it in seen.frames.items()
                 if it.sequence != self.sequences.get(name)}
        if wrong:
            raise Violation(f"frames have other sequences than they were to have: {wrong}")


class Life:
    """A station's life over files, by its log: the disk as it changes, and what is owed."""

    def __init__(self, base: dict[str, bytes], owed: Owed, given: dict[int, int],
                 releases: dict[str, tuple[int, Clip]]) -> None:
        self.base, self.given, self.releases = base, given, releases
        self.disk, self.owed = Disk(dict(base)), copy.deepcopy(owed)
        self.names: dict[int, str] = {}
        self.before = Seen(base)
        self.owed.stored = set(self.before.frames)
        self.removed: set[int] = set()
        # The events that went on or ended in this life.
        self.met: set[int] = set()
        self.is_open = self.went_on = False
        # What was under way in each file last, and with names; the store that was recorded into.
        self.under: dict[str, str] = {}
        self.recorded = -1
        self.gaps: set[int] = set()
        self.owed.spans.update(events_in(base))
        self.expects_sequences()

    def expects_sequences(self) -> None:
        """The count goes on after the newest frame that is held, and what is missing among the
        source's numbers counts."""
        newest = self.before.newest()
        sequence = -1 if newest is None else self.before.frames[newest].sequence
        numbers = list(self.given.values())
        # One that isn't there any more gives its sequence to another one.
        self.owed.sequences = {it: -1 for it in self.owed.sequences}
        self.owed.sequences |= {it: frame.sequence for it, frame in self.before.frames.items()}
        for name, number in self.given.items():
            self.owed.sequences[name] = (sequence + 1 + number - numbers[0]) % WRAP

    def seen(self) -> Seen:
        """What the files hold now."""
        return Seen(self.disk.present())

    def takes(self, record: Record) -> str:
        """Takes a record; answers what is under way."""
        if record.kind in "CX":
            self.names[record.number] = record.data.decode()
        name = self.names.get(record.number, "") if record.kind in "CXWTS" else \
            record.data.decode()
        if record.kind == "W" and name in PATHS:
            self.under[name] = self.writes(PATHS.index(name), record)
        self.disk.take(record)
        if record.kind == "N":
            old, new = name.split("\0")
            self.names = {it: new if was == old else was for it, was in self.names.items()}
        if record.kind == "W" and name == ANSWERS:
            for line in filter(None, record.data.split(b"\n")):
                self.hears(json.loads(line))
        if record.kind in "CNLU" or name not in PATHS:
            kind = "events" if EVENTS in name else "making" if ".loop.new" in name else ""
            self.under[name] = kind or self.under.get("", "") * (record.kind == "F")
            if kind:
                self.under[""] = kind
        if EVENTS in name:
            found = events_in(self.disk.present())
            self.owed.noted = set(found)
            self.owed.spans.update(found)
        return self.under.get(name, "")

    def writes(self, store: int, record: Record) -> str:
        """A store is about to be written; answers what that is."""
        if layout.SUPER <= record.place < layout.FRONT:
            if record.data == bytes([layout.CLOSED]):
                self.unlocks(store, (record.place - layout.SUPER) // layout.ENTRY)
            return "lock"
        places = [GEOMETRY.segment_at(it) for it in range(SEGMENTS)]
        if record.place in places and record.data == bytes([layout.CLOSED]):
            self.removes(store, places.index(record.place))
            return "removal"
        is_turn, is_begun = store != self.recorded, record.place - 1 not in places
        if is_begun:
            self.recorded = store
        return "turn" if is_turn else "frames" if is_begun else "removal"

    def unlocks(self, store: int, own: int) -> None:
        """A clip is unlocked: where its release was ordered, it may be gone from now on."""
        clip = self.seen().clips.get((store, own))
        if clip and any(it == store and (asked.tag, asked.first) == (clip.tag, clip.first)
                        for it, asked in self.releases.values()):
            self.owed.locked = [it for it in self.owed.locked
                                if not (it[0] // 64 == store and it[1] == clip.tag)]

    def removes(self, store: int, place: int) -> None:
        """A block is removed: the oldest of all that may go, where none is free."""
        image, seen = self.disk.present()[PATHS[store]], self.seen()
        found = layout.headers(image, GEOMETRY).get(place)
        names = seen.blocks.get((store, found[0]), []) if found else []
        if not names:
            return
        free = [it for it, count in seen.free.items() if count]
        may = seen.may_go()
        if not may or may[0] != names:
            raise Violation(f"the block {names} of store {store} is removed, and those that may go"
                            f" are {may}; locked are {sorted(seen.locked())}")
        if self.is_open and free:
            raise Violation(f"the block {names} of store {store} is removed, while the stores"
                            f" {free} have room")
        self.removed.update(names)
        self.owed.stored.difference_update(names)

    # -------------------------------------------------------------------------------------------
    # what is told

    def hears(self, line: dict) -> None:
        """A line is told."""
        # What an event has may have grown meanwhile.
        asked = self.releases.get(line.get("label", ""))
        if line["kind"] in NEVER and not (asked and asked[1].tag in self.owed.open):
            raise Violation(f"after a loss of power a station tells {line}")
        reader = getattr(self, f"hears_{line['kind']}", None)
        if reader:
            reader(line)

    def hears_status(self, line: dict) -> None:
        """So many frames are stored."""
        stores = line.get("stores", 1)
        self.is_open = stores == STORES
        if stores < len([it for it in PATHS if it in self.base]):
            return
        count = line["stored"] - self.before.total
        names = list(self.given)[:count]
        if count > len(names):
            raise Violation(f"{len(self.given)} frames were given, and {line} is told")
        seen = self.seen()
        lacks = set(names) - self.removed - set(seen.frames)
        if lacks:
            raise Violation(f"{line} is told, and the files lack {sorted(lacks)}")
        self.owed.stored.update(set(names) - self.removed)
        if names and not self.went_on:
            self.went_on = True
            self.goes_on(seen, names[0])

    def goes_on(self, seen: Seen, first: int) -> None:
        """The first frame comes after the newest one: into its block, unless that is full."""
        newest = self.before.newest()
        if newest is None or first not in seen.frames:
            return
        was, now = self.before.frames[newest], seen.frames[first]
        if (was.number + 1) % SLOTS and (now.store, now.number) != (was.store, was.number + 1):
            raise Violation(f"the newest frame is {newest}, {was}, and the station films on with"
                            f" {now}")

    def hears_kept(self, line: dict) -> None:
        """A clip is kept."""
        seen, store = self.seen(), line["id"] // 64
        of = {it.number: name for name, it in seen.frames.items() if it.store == store}
        numbers = range(line["first"], line["last"] + 1)
        names = frozenset(of[it] for it in numbers if it in of)
        if len(names) != len(numbers) or not names <= seen.locked():
            raise Violation(f"{line} is told; the frames are {sorted(names)}, and those that are"
                            f" locked {sorted(seen.locked())}")
        self.owed.locked.append((line["id"], line["event"], names))

    def hears_released(self, line: dict) -> None:
        """A clip is released. Of an event that goes on, the next start may lock it again."""
        store, clip = self.releases[line["label"]]
        if clip.tag not in self.owed.open:
            self.owed.released.add((store, clip))

    def hears_event_begun(self, line: dict) -> None:
        """An event goes on."""
        event = line["event"]
        if event in self.owed.over:
            raise Violation(f"the event {event} was told as over, and comes back: {line}")
        self.owed.open.add(event)
        self.met.add(event)

    def hears_gap(self, line: dict) -> None:
        """What an event lacks is told."""
        self.gaps.add(line.get("event"))

    def hears_event_whole(self, line: dict) -> None:
        """An event is over: each frame of its time that is held is locked, and there are some."""
        self.is_over(line["event"])
        since, until = self.owed.spans[line["event"]]
        seen = self.seen()
        held = {name for name, it in seen.frames.items() if since <= it.time <= until}
        if not held or held - seen.locked():
            raise Violation(f"{line} is told; of its frames {sorted(held)} aren't locked:"
                            f" {sorted(held - seen.locked())}")

    def hears_event_not_whole(self, line: dict) -> None:
        """An event is over, and what it lacks was told."""
        self.is_over(line["event"])
        if line["why"] == "Gaps" and line["event"] not in self.gaps:
            raise Violation(f"{line} is told, and no gap of it")

    def is_over(self, event: int) -> None:
        """An event is over, once."""
        if event in self.owed.over:
            raise Violation(f"the event {event} is told as over twice")
        self.owed.open.discard(event)
        self.owed.over.add(event)
        self.met.add(event)

    # -------------------------------------------------------------------------------------------
    # the end

    def ends(self, there: dict[str, bytes] | None) -> None:
        """The station has ended, in order where the files are given that are there then. What was
        open at the start went on."""
        present = {it: data for it, data in self.disk.present().items() if it != ANSWERS}
        if there is not None and present != there:
            apart = [it for it in {*present, *there} if present.get(it) != there.get(it)]
            raise Violation(f"the log doesn't say what {apart} hold")
        if lacks := set(events_in(self.base)) - self.met:
            raise Violation(f"the events {sorted(lacks)} were noted, and neither go on nor are"
                            f" over")
        if self.given and not self.went_on:
            raise Violation("no frame was told as stored")
        self.owed.judge(present)


class Loss(NamedTuple):
    """A moment of a log, and what a loss of power leaves then; what is owed; what was under way."""

    count: int
    kind: str
    files: dict[str, bytes]
    owed: Owed


class Trial:
    """A station over files, which is logged."""

    def __init__(self, station: str, top: Path, files: dict[str, bytes], owed: Owed,
                 chance: random.Random) -> None:
        self.chance, self.base, self.owed = chance, files, owed
        # No frame has the name of another one that was ever given.
        self.next = max(owed.sequences, default=-1) + 1
        self.top = Path(tempfile.mkdtemp(dir=top))
        self.folder, self.log = self.top / "boot", str(self.top / "log")
        self.folder.mkdir()
        # The stores are as old as a loss of power may have them: file times say nothing.
        for name, data in files.items():
            (self.folder / name).write_bytes(data)
            moment = time.time() - chance.randrange(1000)
            os.utime(self.folder / name, (moment, moment))
        os.mkfifo(self.folder / f"{CAMERA}.y4m")
        configure(self.folder, camera(CAMERA, f"{CAMERA}.y4m", losses="numbers", memory="60 s",
                                      bytes=GEOMETRY.disk_size() * STORES), as_json=True)
        env = under(str(top / "preload.so"), "", log=self.log)
        folder = os.path.realpath(self.folder)
        self.given: dict[int, int] = {}
        self.releases: dict[str, tuple[int, Clip]] = {}
        self.number = chance.randrange(10**6)
        self.total = Seen(files).total
        self.run = Told(station, self.folder, dict(env, LOOP_FOLDER=folder))
        self.pipe = self.run.opened(self.folder / f"{CAMERA}.y4m", PATIENCE)
        os.set_blocking(self.pipe, True)
        os.write(self.pipe, HEADER)

    def give(self, count: int) -> None:
        """Brings frames, before some of which others are missing."""
        text = b""
        for _ in range(count):
            self.number += 1 if self.chance.random() < 0.9 else self.chance.randint(2, 9)
            self.given[self.next] = self.number
            text += f"FRAME Xn={self.number}\n".encode() + pixels(self.next)
            self.next += 1
        os.write(self.pipe, text)

    def stands(self, so, what: str) -> None:
        """Waits until the camera's status is as it has to be."""
        end = time.monotonic() + PATIENCE
        while not so(status := self.run.order("status", PATIENCE)[0]):
            if time.monotonic() > end:
                raise Silent(f"{what}: {status}")
            time.sleep(0.01)

    def stored(self) -> None:
        """Waits until all that was given is told as stored."""
        wanted = self.total + len(self.given)
        self.stands(lambda it: it.get("stored", 0) >= wanted, f"{wanted} frames aren't stored")

    def burst(self, most: int = 2 * SLOTS) -> None:
        """Brings frames, and waits until they are stored."""
        self.give(self.chance.randint(1, most))
        self.stored()

    def opens(self) -> None:
        """Waits until all stores are open."""
        self.stands(lambda it: it.get("stores") == STORES, "not all stores are open")

    def files(self) -> dict[str, bytes]:
        """What is there but the answers, the configuration and the pipe, once it has ended."""
        return {it.name: it.read_bytes() for it in sorted(self.folder.iterdir())
                if it.is_file() and it.name not in (ANSWERS, "station.toml")}

    def seen(self) -> Seen:
        """What the stores hold. No block may be removed meanwhile: all that was given is stored."""
        paths = (self.folder / it for it in PATHS)
        return Seen({it.name: it.read_bytes() for it in paths if it.exists()})

    def keep(self) -> None:
        """Keeps a few frames in a row."""
        held = sorted(self.seen().frames.items())
        at = self.chance.randrange(len(held))
        first, last = held[at], held[min(at + self.chance.randrange(5), len(held) - 1)]
        if first[1].time > last[1].time:
            return
        self.run.order(f"keep {CAMERA} from {moment(first[1].time)} to {moment(last[1].time)}",
                       PATIENCE)

    def release(self) -> None:
        """Releases a clip."""
        if clips := sorted(self.seen().clips.items()):
            (store, own), clip = self.chance.choice(clips)
            self.releases[f"o{self.run.labels + 1}"] = store, clip
            self.run.order(f"release {CAMERA} {store * 64 + own} {clip.first}", PATIENCE)

    def event(self, after: int) -> int:
        """Orders a keep whose end lies so many seconds ahead; answers its event."""
        lines = self.run.order(f"keep {CAMERA} 0 +{after}", PATIENCE)
        return next(it["event"] for it in lines if it["kind"] == "event_begun")

    def over(self, event: int) -> None:
        """Waits until an event is over."""
        self.run.expect(lambda told: any(it["kind"] in OVER and it["event"] == event
                                         for it in told), PATIENCE, f"the end of {event}")

    def end(self, in_order: bool) -> list[Record]:
        """Ends the station, by an order or not; answers its log."""
        if in_order:
            self.run.stop(PATIENCE)
        self.run.kill()
        os.close(self.pipe)
        return records_of(self.log)

    def life(self) -> Life:
        """Its life, of which nothing was read yet."""
        return Life(self.base, self.owed, self.given, self.releases)


def moment(micros: int) -> str:
    """A time, as an order has it."""
    whole = time.strftime("%Y-%m-%dT%H:%M:%S", time.gmtime(micros // 1_000_000))
    return f"{whole}.{micros % 1_000_000:06}Z"


def records_of(log: str) -> list[Record]:
    """The records of a log of a folder."""
    return [Record(kind, 0, place >> NUMBER, place % (1 << NUMBER), data)
            for kind, place, data in log_of(log)]


# -----------------------------------------------------------------------------------------------
# what a station is given


def begun() -> tuple[dict[str, bytes], Owed]:
    """A store with one block, with which a camera begins, and what is owed of it: so the count goes
    round amid the first life."""
    image, owed = bytearray(layout.fresh(GEOMETRY)), Owed()
    then = int(time.time() - 3600) * 1_000_000
    image[GEOMETRY.segment_at(0):GEOMETRY.slot_at(0, 0)] = layout.header(0, SLOTS)
    for name in range(SLOTS):
        owed.sequences[name] = WRAP - 60 + name
        at = GEOMETRY.slot_at(0, name)
        head = layout.head(name, owed.sequences[name], then + name, SIZE)
        image[at:at + layout.HEAD + SIZE] = head + pixels(name)
    return {PATHS[0]: bytes(image)}, owed


def room(seen: Seen) -> int:
    """How many more blocks may be begun, where each of them is locked."""
    return sum(seen.free.values()) + len(seen.may_go())


def keeps(trial: Trial) -> None:
    """Keeps some frames, which have three blocks at most, where so much room is left that frames
    are stored whatever is locked then; else releases a clip."""
    trial.keep() if room(trial.seen()) > 5 else trial.release()


def films(trial: Trial) -> None:
    """The first station's life: it makes stores while frames come, films on where the ring is full,
    keeps and releases; an event ends, and another one is left open."""
    for _ in range(8):
        trial.burst()
    trial.opens()
    while trial.seen().total < 2 * STORES * SEGMENTS * SLOTS:
        trial.burst()
        keeps(trial)
    while trial.seen().clips:
        trial.release()
    event = trial.event(1)
    # On a machine that isn't busy it has no gap.
    for _ in range(9):
        trial.burst(1)
        time.sleep(0.1)
    trial.over(event)
    for _ in range(4):
        keeps(trial)
        trial.burst(SLOTS)
    while room(trial.seen()) < 6:
        trial.release()
    trial.event(3000)
    trial.burst(SLOTS)
    trial.keep()
    trial.burst(SLOTS)


def goes_on(trial: Trial) -> None:
    """What a later station is given: frames, at once or once its stores are open; what was an event
    goes on, or is over; then more frames, a keep and a release."""
    events = events_in(trial.base)
    if trial.chance.random() < 0.5 and room(Seen(trial.base)) > 3:
        trial.give(trial.chance.randint(1, SLOTS))
    trial.opens()
    trial.stored()
    try:
        for event, (_, until) in events.items():
            if until < time.time() * 1_000_000:
                trial.over(event)
            else:
                trial.run.event("event_begun", PATIENCE, event=event)
    except Silent as silent:
        raise Violation(f"the events {sorted(events)} were noted, and neither go on nor are over:"
                        f" {silent}") from None
    # Where an event goes on, each block that comes is locked.
    for _ in range(min(room(trial.seen()) - 1, 4)):
        trial.burst(SLOTS)
    if trial.chance.random() < 0.5:
        keeps(trial)
    if trial.chance.random() < 0.5:
        trial.release()
    if room(trial.seen()) > 2:
        trial.burst(SLOTS)


# -----------------------------------------------------------------------------------------------
# losses of power

# What is left of what wasn't synced, and of the names that weren't.
FORMS = ("new", "old", "zero", "mixed")


def left(disk: Disk, form: str, chance: random.Random) -> dict[str, bytes]:
    """What a loss of power leaves of a disk."""
    whats = ("new", "old", "zero") if form == "mixed" else (form,)
    files = disk.after_loss(
        lambda: chance.choice(whats),
        lambda count: chance.randrange(count) if form == "mixed" else (count - 1) * (form == "new"))
    return {name: data for name, data in files.items() if name != ANSWERS}


class Losses:
    """Stations that lose their power, over and over, after one first life."""

    def __init__(self, station: str, top: str, seed: int) -> None:
        self.station, self.chance, self.seed = station, random.Random(seed), seed
        self.top = Path(tempfile.mkdtemp(prefix="boots", dir=top))
        library(str(self.top))
        self.images = self.boots = self.again = 0
        self.now, self.trial, self.records, self.left = "the first life", None, [], {}

    def lives(self, files: dict[str, bytes], owed: Owed, script) -> tuple[Trial, list[Record]]:
        """A station's life over files, which is judged. It ends in order, or is killed."""
        in_order, self.left = script is films or self.chance.random() < 0.2, files
        trial = Trial(self.station, self.top, files, owed, self.chance)
        try:
            script(trial)
            records = trial.end(in_order)
        finally:
            trial.run.kill()
        life = trial.life()
        for record in records:
            life.takes(record)
        life.ends(trial.files() if in_order else None)
        return trial, records

    def begins(self) -> None:
        """The first life."""
        self.trial, self.records = self.lives(*begun(), films)

    def moments(self, trial: Trial, records: list[Record], wanted: int) -> list[int]:
        """So many moments of a log, of each kind in turn."""
        life, found, picked = trial.life(), {kind: [] for kind in KINDS}, []
        for count, record in enumerate(records, 1):
            found[life.takes(record) or KINDS[-1]].append(count)
        for it in found.values():
            self.chance.shuffle(it)
        while len(picked) < wanted and any(found.values()):
            picked += [it.pop() for it in found.values() if it]
        return picked[:wanted]

    def losses(self, trial: Trial, records: list[Record],
               wanted: dict[int, tuple[str, ...]]) -> Iterator[Loss]:
        """What losses of power leave after so many records, in these forms; each is judged."""
        life = trial.life()
        for count, record in enumerate(records, 1):
            kind = life.takes(record)
            for form in wanted.get(count, ()):
                self.left, owed = left(life.disk, form, self.chance), copy.deepcopy(life.owed)
                self.now = f"call {count} of {len(records)} ({kind}), what isn't synced is {form}"
                self.images += 1
                owed.judge(self.left)
                yield Loss(count, kind, self.left, owed)

    def boot(self, loss: Loss, again: bool) -> None:
        """Starts the station over what a loss of power left; perhaps the power goes once more."""
        self.boots += 1
        trial, records = self.lives(loss.files, loss.owed, goes_on)
        if again:
            counts, before = self.moments(trial, records, len(KINDS)), self.now
            wanted = {self.chance.choice(counts): (self.chance.choice(FORMS),)}
            more, = self.losses(trial, records, wanted)
            self.now = f"{before}; then {self.now}"
            self.again += 1
            self.boot(more, False)
        shutil.rmtree(trial.top)

    def finds(self, what: str, kinds: str) -> None:
        """A disk whose syncs of these kinds do nothing has to be found."""
        records = [it._replace(kind="-") if it.kind in kinds else it for it in self.records]
        counts, before = self.moments(self.trial, records, len(records)), self.images
        try:
            for _ in self.losses(self.trial, records, dict.fromkeys(counts, ("old",))):
                pass
        except Violation as violation:
            print(f"{what}: found in {self.images - before} images ({str(violation)[:160]})")
        else:
            sys.exit(f"{what}: not found in {self.images - before} images of several stores")

    def tells(self, why: Exception) -> str:
        """What is wrong, and where the files are."""
        place = os.environ.get("POWER_KEPT", "/var/tmp")
        kept = Path(tempfile.mkdtemp(prefix="power-boots-", dir=place))
        shutil.move(self.top, kept / "lives")
        (kept / "left").mkdir()
        for name, data in self.left.items():
            (kept / "left" / name).write_bytes(data)
        return (f"several stores, seed {self.seed}, {self.now}: {why}\nThe files that were left are"
                f" in {kept}/left; lives has each folder, log and answers.")


def lose_power(station: str, folder: str, wanted: int) -> None:
    """For each 800 images, a station's first life, of which 350 images are judged, and a dozen are
    booted; ends the program where something is wrong."""
    images = boots = again = calls = 0
    for turn in range(max(1, wanted // 800)):
        trials = Losses(station, folder, random.randrange(WRAP))
        try:
            trials.begins()
            counts = trials.moments(trials.trial, trials.records, 100)
            wanted_of = {it: FORMS for it in counts[BOOTS:]}
            wanted_of |= {it: (trials.chance.choice(FORMS),) for it in counts[:BOOTS]}
            found = [it for it in trials.losses(trials.trial, trials.records, wanted_of)
                     if it.count in counts[:BOOTS]]
            for at, loss in enumerate(found):
                trials.now = f"call {loss.count} ({loss.kind})"
                trials.boot(loss, at % 4 == 0)
        except (Violation, Silent) as why:
            sys.exit(trials.tells(why))
        images, boots, again = (one + more for one, more in (
            (images, trials.images), (boots, trials.boots), (again, trials.again)))
        calls += len(trials.records)
        if turn == 0:
            trials.finds("several stores, no sync", "SF")
            trials.finds("several stores, no sync of the folder", "F")
        shutil.rmtree(trials.top)
    print(f"{images} images of {STORES} stores at {calls} calls of a station: all that was told is"
          f" there; {boots} stations went on from one, {again} of them after a second loss")
