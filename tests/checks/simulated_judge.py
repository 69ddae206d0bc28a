"""The judge of tests/simulate: a reader of what the station told and of what its files hold. It
knows the frames that came, the orders that were given and the lines, each with its time, and asks
of them what docs/station.md promises. It shares no code with the station."""
from __future__ import annotations

import dataclasses
import datetime
import functools
import random
import re
import struct
from pathlib import Path

import layout
from simulated_asked import Asked
from simulated_disk import Disk, File, Record
from simulated_kept import Kept
from simulated_last import Last
from simulated_more import More, number_of
from simulated_run import Lived, chooser, told
from simulated_told import Told
from simulated_world import EPOCH, HEIGHT, SECOND, SIZE, WIDTH, Camera, World

# What the entry of a clip says: its first and last number, and its tag.
ENTRY = struct.Struct("<8xQQQ")
REFERENCE = Path(__file__).resolve().parents[2] / "docs/reference.md"
# Within so much time a frame that came is stored, an order answered, and what is unlocked told.
SOON = 5 * SECOND
# So much later than it came a frame may have been read.
READ = 300_000
# Within so much time all stores are open that are read slowly.
OPENING = 12 * SECOND
# So often a life's files are looked at, at moments of its own; and after so many of its lines.
LOOKS, LINES = 12, 25


class Wrong(Exception):
    """What the station may not do."""


def kinds_of_lines() -> dict[str, tuple[set[str], set[str]]]:
    """The kinds of lines that the reference names, with their members: those that are always
    there, and all."""
    found = {}
    for line in REFERENCE.read_text().splitlines():
        row = re.match(r"\| \[`(\w+)`\]\(answers.md#\w+\) \|.*\| ([^|]*)\|$", line)
        if row:
            optional = set(re.findall(r"\[`(\w+)`\]", row[2]))
            found[row[1]] = (set(re.findall(r"`(\w+)`", row[2])) - optional, optional)
    return found


@dataclasses.dataclass
class Clip:
    """A clip that was told as kept: its store's file, its tag, its numbers, and the name of each
    frame. While its event goes on it may get another id."""

    path: str
    tag: int
    first: int
    last: int
    names: dict[int, int]

    def is_within(self, first: int, last: int, tag: int) -> bool:
        """Whether a clip of these numbers and this tag has it."""
        return tag == self.tag and first <= self.first and self.last <= last


@dataclasses.dataclass
class Held:
    """What the image of a store holds: the name of each number, the clips, the blocks, and the
    geometry."""

    names: dict[int, int]
    clips: list[tuple[int, int, int, int]]
    blocks: list[int]
    geometry: layout.Geometry

    def has_clip(self, first: int, last: int, tag: int) -> bool:
        """Whether a clip of a tag has all numbers from one to another, and they are here. Its id
        may be another one: an event has gone on, or its clip was released, and another one got
        that before the answer came."""
        return any(it[3] == tag and it[1] <= first and last <= it[2]
                   for it in self.clips) and all(it in self.names for it in range(first, last + 1))

    def is_locked(self, number: int, tag: int | None = None) -> bool:
        """Whether a clip has a number: any, or one with this tag."""
        return any(first <= number <= last and tag in (None, its)
                   for _, first, last, its in self.clips)

    def has_room(self) -> bool:
        """Whether another frame has a place: in the newest block, a free segment, or a block that
        may go."""
        slots, newest = self.geometry.slots, max(self.blocks, default=None)
        if newest is None or len(self.blocks) < self.geometry.segments:
            return True
        if max(self.names) < (newest + 1) * slots - 1:
            return True
        return any(map(self.may_go, self.blocks))

    def may_take_a_block(self) -> bool:
        """Whether another block has a place."""
        return len(self.blocks) < self.geometry.segments or any(map(self.may_go, self.blocks))

    def free_blocks(self) -> int:
        """How many blocks may still be locked: all but the newest, and those that clips meet."""
        met = [it for it in self.blocks if it != max(self.blocks) and not self.may_go(it)]
        return self.geometry.segments - 1 - len(met)

    def first_of(self, block: int) -> int | None:
        """The name of a block's first frame."""
        return self.names.get(block * self.geometry.slots)

    def may_go(self, block: int) -> bool:
        """Whether no clip locks a block, and it isn't the newest one."""
        slots = self.geometry.slots
        return block != max(self.blocks) and not any(
            map(self.is_locked, range(block * slots, (block + 1) * slots)))


@functools.lru_cache(300)
def held_in(image: bytes) -> Held:
    """What an image holds; refuses one that isn't whole, and pixels that no source gave."""
    found = layout.read_once(lambda at, count: image[at:at + count], len(image))
    names, geometry = {}, found.geometry
    for segment in found.segments:
        for slot in range(segment.whole if segment.open else 0):
            at = geometry.slot_at(segment.place, slot) + layout.HEAD
            number = segment.block * geometry.slots + slot
            names[number] = name_of(image[at:at + SIZE])
    blocks = [it.block for it in found.segments if it.open and it.whole]
    return Held(names, list(found.clips), blocks, geometry)


@functools.lru_cache(300)
def clips_of(table: bytes) -> list[tuple[int, int, int, int]]:
    """The clips of a table."""
    open_ones = [it for it, gate in enumerate(table[::layout.ENTRY]) if gate == layout.OPEN]
    return [(it, *ENTRY.unpack_from(table, layout.ENTRY * it)) for it in open_ones]


def moment_of(text: str) -> int:
    """When a time that was told is, in the world."""
    told_at = datetime.datetime.fromisoformat(text.replace("Z", "+00:00"))
    return round(told_at.timestamp() * SECOND) - EPOCH


def name_of(pixels: bytes) -> int:
    """The name of a frame: what its pixels say again and again, or how those of a pattern begin."""
    if pixels != pixels[:8] * (SIZE // 8) and number_of(pixels) is None:
        raise Wrong(f"a frame has pixels of two: {pixels.hex()}")
    return int.from_bytes(pixels[:8], "little")


def names_in_slots(data: bytes) -> set[int]:
    """The names of the frames that a write of whole slots has."""
    size = layout.HEAD + SIZE
    if not data or len(data) % size or not any(data):
        return set()
    return {int.from_bytes(data[at + layout.HEAD:][:8], "little") for at in
            range(0, len(data), size)}


def names_in_text(text: bytes) -> list[int]:
    """The names of the frames of a saved file."""
    header, _, rest = text.partition(b"\n")
    size = len(b"FRAME\n") + SIZE
    if not header.startswith(b"YUV4MPEG2 W%d H%d F" % (WIDTH, HEIGHT)) or len(rest) % size:
        raise Wrong(f"a saved file isn't whole: {header[:40]!r} and {len(rest)} bytes")
    pieces = [rest[it:it + size] for it in range(0, len(rest), size)]
    if any(not it.startswith(b"FRAME\n") for it in pieces):
        raise Wrong("a saved file has a line that isn't a frame's")
    return [name_of(it[6:]) for it in pieces]


class Judge:
    """What was promised up to now."""

    def __init__(self, world: World) -> None:
        self.world = world
        self.cameras = {it.name: it for it in world.cameras}
        self.paths = {path: it.name for it in world.cameras for path in it.paths()}
        self.kinds = kinds_of_lines()
        self.clips: dict[tuple[str, int], Clip] = {}
        self.saved: dict[str, bytes] = {}
        # Each event: the cameras that it means, and those for which it was told as over.
        self.events: dict[int, tuple[set[str], set[str]]] = {}
        self.spans: dict[int, tuple[int, int]] = {}
        # The tags of events whose end lies ahead: their numbers, or those that orders gave.
        self.grows: set[int] = set()
        self.came: dict[str, list[tuple[int, int]]] = {it: [] for it in self.cameras}
        # Events that were over while their file couldn't be written, as was told.
        self.unsure: set[int] = set()
        self.pending: dict[int, tuple[set[str], set[str]]] = {}
        # Of each frame that came, by its name, the writer that gave it.
        self.streams: dict[str, dict[int, int]] = {it: {} for it in self.cameras}
        self.writer = dict.fromkeys(self.cameras, 0)
        self.kept_of: dict[tuple[int, str], set[int]] = {}
        # Which paths are pipes.
        self.pipes = {"nobody", *world.sinks}
        self.found: list[str] = []
        # How many frames a camera gave up, in any life.
        self.gave: dict[str, int] = {}
        self.told, self.kept, self.asked = Told(self), Kept(self), Asked(self)
        self.more, self.last = More(self), Last(self)

    def says(self, what: str) -> None:
        """Something is wrong."""
        if what not in self.found:
            self.found.append(what)

    # -------------------------------------------------------------------------------------------
    # a life

    def judges(self, lived: Lived, seed: str) -> list[str]:
        """Judges a life; answers what was wrong."""
        self.found = []
        lines = told(lived.records)
        self.lines_of = lines
        self.begins(lived)
        chance = random.Random(f"judge {seed}")
        for it in [it for _, _, it in lines if it["kind"] == "given_up"]:
            self.gave[it["camera"]] = self.gave.get(it["camera"], 0) + it["frames"]
        # Whose frames waited before they were read: they have a later time than they came.
        self.waits = {said["camera"] for _, _, said in lines if said["kind"] == "waited"}
        self.frees = [(time, it["camera"], it["id"]) for _, time, it in lines
                      if it["kind"] == "released"]
        self.out_of_order = {it["camera"] for _, _, it in lines
                             if it["kind"] == "removed_out_of_order"}
        by_record: dict[int, list[dict]] = {}
        for index, _, said in lines:
            by_record.setdefault(index, []).append(said)
        count = len(lived.records)
        looks = {chance.randrange(count) for _ in range(LOOKS)} if count else set()
        looks |= set(chance.sample(sorted(by_record), min(LINES, len(by_record))))
        if self.world.is_piped:
            self.reads_alone(lived, lines)
            return self.found
        self.looks_at(lived.before, lived.life.begins, "at the start")
        for index, record in enumerate(lived.records):
            if record.kind == "W":
                self.writes(record)
                self.kept.is_away(record)
            if record.kind in "CNL":
                self.kept.names_change(record)
            if record.kind == "B":
                self.kept.breaks(record)
            self.more.takes(record)
            self.disk.take(record)
            if record.kind == "V":
                self.moves(record.data.decode().split("\0")[0])
                self.kept.moves(*record.data.decode().split("\0"), record.time)
            if record.kind in "PDQ":
                self.comes(record.number, record.place, record.time, record.kind)
            for said in by_record.get(index, ()):
                self.reads(said, record.time)
            if index in looks:
                self.look(chance, record.time)
        self.ends(lived, lines)
        return self.found

    def reads_alone(self, lived: Lived, lines: list) -> None:
        """Where answers are a pipe whose reader comes and goes lines may be dropped: each that is
        there is a line, and it is told how many aren't."""
        for _, time, said in lines:
            self.reads(said, time)
        if lived.status not in (0, 1, 137) or lived.why().startswith(("all threads", "broken")):
            self.says(f"ended with {lived.status}, {lived.why()}")
        dropped = any(said["kind"] == "dropped_lines" for _, _, said in lines)
        asked = {it.split()[2][1:] for it in self.script if it.startswith("order ")}
        done = {said.get("label") for _, _, said in lines if said["kind"] == "done"}
        readers = [list(map(int, it.split()[1:])) for it in self.script
                   if it.startswith("reader ")]
        is_read = any(since < lived.end() - SECOND and until > lived.end() and rate > 10_000
                      for since, until, rate in readers)
        if lived.why().startswith("ended") and not dropped and is_read and asked - done:
            self.says(f"lines are missing, and that isn't told: {sorted(asked - done)}")
        if not dropped:
            self.told.reads_all(lived, lines)

    def begins(self, lived: Lived) -> None:
        """A life begins."""
        self.lived, self.disk = lived, Disk(lived.before)
        self.writer = {it: number + 1 for it, number in self.writer.items()}
        self.script = lived.life.script.split("\n")
        self.given: dict[str, int] = {}
        self.done: dict[str, int] = {}
        self.freeing: dict[tuple[str, int], set[str]] = {}
        self.tables: dict[tuple[str, int], set[tuple]] = {}
        self.locked_at: dict[str, int] = {}
        self.stored_at: dict[str, int] = {}
        self.stored: dict[str, set[int]] = {it: set() for it in self.cameras}
        self.gave_up: set[str] = set()
        self.was_freed: set[tuple[str, int]] = set()
        self.replacing: set[str] = set()
        self.answers: dict[str, list[dict]] = {}
        self.here: dict[str, list[tuple[int, int]]] = {it: [] for it in self.cameras}
        self.broken: set[str] = set()
        # Cameras of which a store was moved away, or which came and went.
        self.moved: set[str] = set(lived.life.changed)
        self.not_noted: set[str] = set()
        # The events that weren't noted in this life.
        self.unsure_here: set[int] = set()
        self.unknown: set[str] = set()
        self.opened: dict[str, int] = {}
        # When a clip of each camera was released last.
        self.room_at: dict[str, int] = {}
        self.begun: set[int] = set()
        self.begin_next = {it: self.stored_in(lived.before, it) for it in self.cameras}
        self.late = {it for it in self.cameras if self.cameras[it].is_ahead}
        # The writers that went on while no store of their camera had a frame.
        self.headless = {it: self.writer[it] for it in self.late if not self.begin_next[it]}
        # Which cameras' writers left amid a frame, and the times that their frames say.
        self.cuts: dict[str, int] = {}
        self.said_at: dict[str, dict[int, int]] = {it: {} for it in self.cameras}
        self.came_at: dict[str, dict[int, int]] = {it: {} for it in self.cameras}
        self.told.begins(lived)
        self.kept.begins(lived)
        self.asked.begins(lived)
        self.more.begins(lived)
        self.last.begins(lived)

    def stored_in(self, files: dict[str, bytes], name: str) -> int:
        """How many frames the stores of a camera say that they ever had."""
        found = [self.held(files.get(it)) for it in self.cameras[name].paths()]
        return sum(max(it.names) + 1 for it in found if it and it.names)

    def held(self, image: bytes | None) -> Held | None:
        """What a store's image holds, if there is one."""
        if image is None or image[:8] == b"no store":
            return None
        try:
            return held_in(image)
        except layout.Refused as refused:
            self.says(f"a store is refused: {refused}")
        except Wrong as wrong:
            self.says(str(wrong))
        return None

    # -------------------------------------------------------------------------------------------
    # what comes

    def moves(self, path: str) -> None:
        """Somebody moves a store away, with all that it has."""
        self.moved |= {it for it, camera in self.cameras.items() if path in camera.paths()}
        for which in [it for it, clip in self.clips.items() if clip.path == path]:
            del self.clips[which]

    def comes(self, pipe: int, line: int, time: int, kind: str) -> None:
        """A frame or an order came, nobody read it, or its writer ended."""
        words = self.script[line - 1].split(" ")
        name = self.world.cameras[pipe].name if pipe < len(self.world.cameras) else ""
        if words[0] == "frame" and kind == "P":
            self.here[name].append((time, int(words[3])))
            self.came[name].append((time, int(words[3])))
            self.streams[name][int(words[3])] = self.writer[name]
            self.said_at[name][int(words[3])] = int(words[1]) - 20_000
            self.came_at[name][int(words[3])] = time
        elif words[0] in ("frame", "part", "close"):
            self.writer[name] += 1
            self.cuts[name] = self.cuts.get(name, 0) + (words[0] == "part")
            if kind == "D":
                self.broken.add(name)
        elif words[0] in ("order", "unended"):
            self.ordered(words[2].removeprefix("@"), words[3:], time)
        self.told.comes(name, words, time, kind)
        self.kept.comes(name, words, time, kind)
        self.asked.comes(words, time)

    def ordered(self, label: str, words: list[str], time: int) -> None:
        """An order came."""
        self.given[label] = time
        if words[0] == "release":
            which = (words[1], int(words[2]))
            self.freeing.setdefault(which, set()).add(label)
            self.was_freed.add(which)
        if words[0] == "save!":
            self.replacing.add(words[3])

    # -------------------------------------------------------------------------------------------
    # what is told

    def reads(self, said: dict, time: int) -> None:
        """Reads a line."""
        kind, label = said.get("kind"), said.get("label")
        always, sometimes = self.kinds.get(kind, (None, None))
        members = set(said) - {"kind", "time", "label"}
        if always is None:
            self.says(f"no kind of the reference: {said}")
            return
        if not always <= members <= always | sometimes:
            self.says(f"members that the reference doesn't name: {said}")
        if self.world.is_piped:
            return
        if label is not None:
            if label not in self.given or label in self.done:
                self.says(f"an answer to no order, or after its end: {said}")
            self.answers.setdefault(label, []).append(said)
        reader = getattr(self, f"reads_{kind}", None)
        if reader:
            reader(said, time)
        self.told.reads(said, time)
        self.kept.reads(said, time)
        self.asked.reads(said, time)
        self.more.reads(said, time)
        self.last.reads(said, time)

    def reads_done(self, said: dict, time: int) -> None:
        """An order is answered, once; a release by its id is done, or refused."""
        label = said["label"]
        self.done[label] = time
        faults = {it.get("name") for it in self.answers[label]} & {"Disk", "MustReopen"}
        if self.lived.life.orders[label].startswith("release") and (
                faults or self.more.memory.is_unsure(label)):
            # Nobody knows then whether it was released.
            for which in [it for it, clip in self.clips.items() if self.is_in_doubt(it, clip)]:
                del self.clips[which]
        for which, labels in list(self.freeing.items()):
            labels.discard(label)
            if not labels:
                del self.freeing[which]
        if self.lived.life.orders[label].startswith("keep") and \
                not self.more.memory.is_unsure(label):
            self.kept_all(label)

    def reads_kept(self, said: dict, time: int) -> None:
        """These frames are on the disk, and locked. Where they are released meanwhile, that is told
        after this line."""
        which = (said["camera"], said["id"])
        camera = self.cameras[said["camera"]]
        path = camera.paths()[said["id"] // 64]
        file = self.disk.names.get(path)
        held = self.held(bytes(file.now)) if file else None
        numbers = range(said["first"], said["last"] + 1)
        tag = said.get("tag", said["event"])
        if held and held.has_clip(said["first"], said["last"], tag):
            names = {it: held.names[it] for it in numbers}
            for old, clip in list(self.clips.items()):
                if clip.path == path and clip.is_within(said["first"], said["last"], tag):
                    del self.clips[old]
            self.clips[which] = Clip(path, tag, said["first"], said["last"], names)
            event = (said["event"], said["camera"])
            self.kept_of.setdefault(event, set()).update(names.values())
            said["names"] = set(names.values())
            if said["kind"] == "kept":
                self.lost_in(said, held, camera)
        else:
            clip = Clip(path, tag, said["first"], said["last"], {})
            # Passed over: the end of an event may name a clip that an order has released.
            is_old = not said.get("label") and which in self.was_freed
            if said["camera"] not in self.moved and not self.is_in_doubt(which, clip) and \
                    not self.frees_itself(which, time, clip) and not is_old:
                self.says(f"told, and not so: {said}; the clips are {held and held.clips}")

    def reads_kept_unread(self, said: dict, time: int) -> None:
        """The same of a clip whose times can't be read."""
        self.reads_kept(said, time)

    def lost_in(self, said: dict, held: Held, camera: Camera) -> None:
        """As many frames are told as lost as numbers of one writer are missing in a clip. Of
        several stores, one of another may have them; what a failing disk gave up is missing, too,
        before the first frame of a writer."""
        if not camera.says_numbers or camera.stores > 1:
            return
        names = [held.names[it] for it in range(said["first"], said["last"] + 1)]
        stream = self.streams[camera.name]
        gap = sum(two - one - 1 for one, two in zip(names, names[1:])
                  if stream.get(one, 0) == stream.get(two, 1))
        if not gap <= said.get("lost", 0) <= gap + self.gave.get(camera.name, 0):
            self.says(f"{gap} numbers are missing, and told was {said}")

    def reads_released(self, said: dict, time: int) -> None:
        """The clip that has this id is one no more."""
        path = self.cameras[said["camera"]].paths()[said["id"] // 64]
        had = self.tables.get((path, said["id"] % 64), set())
        now = self.table(path)
        for which, clip in list(self.clips.items()):
            # A part of an event that goes on takes with it the shorter ones that it covers.
            if clip.path == path and any(clip.is_within(*it) for it in had) and \
                    (clip.tag in self.grows or not any(clip.is_within(*it[1:]) for it in now)):
                del self.clips[which]
        self.was_freed.add((said["camera"], said["id"]))
        self.room_at[said["camera"]] = time

    def table(self, path: str) -> list[tuple[int, int, int, int]]:
        """The clips of a store's file now."""
        file = self.disk.names.get(path)
        if file is None or file.now[:1] != bytes([layout.OPEN]):
            return []
        return clips_of(bytes(file.now[layout.SUPER:layout.FRONT]))

    def sees_tables(self, *paths: str) -> None:
        """Files are about to be changed, or all are looked at: remembers which clip each id was."""
        for path in paths or self.paths:
            for own, *clip in self.table(path):
                self.tables.setdefault((path, own), set()).add(tuple(clip))

    def reads_saved(self, said: dict, time: int) -> None:
        """The file is there, whole, and has as many frames."""
        path = said["path"]
        file = self.disk.names.get(path)
        if path in self.pipes:
            return
        if file is None:
            self.says(f"told as saved, and there is no file: {said}")
            return
        self.saved[path] = bytes(file.now)
        try:
            names = names_in_text(self.saved[path])
        except Wrong as wrong:
            self.says(f"{said}: {wrong}")
            return
        if len(names) != said["frames"]:
            self.says(f"the file has {len(names)} frames: {said}")

    def reads_store_open(self, said: dict, time: int) -> None:
        """From now on frames may be stored."""
        self.opened.setdefault(said["camera"], time)

    def reads_refused(self, said: dict, time: int) -> None:
        """A clip that was to be released by itself may be so, where a disk failed."""
        if "label" not in said and said["name"] in ("Disk", "MustReopen"):
            self.unknown.add(said["camera"])

    def reads_given_up(self, said: dict, time: int) -> None:
        """Frames were lost, and told so."""
        self.gave_up.add(said["camera"])

    def reads_not_noted(self, said: dict, time: int) -> None:
        """Until a file of events can be written, a stop ends its events."""
        self.not_noted.add(said["camera"])

    def reads_event_begun(self, said: dict, time: int) -> None:
        """An event goes on, and none that was over."""
        event = said["event"]
        self.begun.add(event)
        self.grows.add(event)
        self.grows |= {it.get("tag", event) for it in self.answers.get(said.get("label", ""), ())
                       if it["kind"] == "kept"}
        # Each camera may have a line of its own, without its name: what is of all counts.
        since, until = self.spans.get(event, (0, 2**63))
        self.spans[event] = (max(since, moment_of(said["from"])), min(until, moment_of(said["to"])))
        if said.get("label"):
            words = self.lived.life.orders[said["label"]].split(" ")
            meant = {words[1]} & set(self.cameras) if len(words) > 1 else set()
            # Where one camera is slow, another one's event may be over before the answer is told.
            over = self.events.get(event, (set(), set()))[1]
            self.events[event] = (meant or set(self.cameras), over)
            if self.events[event][0] & self.not_noted:
                self.doubts(event)
        elif event in self.events and self.events[event][0] <= self.events[event][1] \
                and event not in self.unsure:
            self.says(f"an event that was over comes back: {said}")

    def reads_event_whole(self, said: dict, time: int) -> None:
        """An event is over, and has each frame that came in its time."""
        self.over(said)
        name, event = said["camera"], said["event"]
        since, until = self.spans.get(event, (0, 0))
        is_freed = self.room_at.get(name, 0) >= since or any(it[0] == name for it in self.was_freed)
        if is_freed or said.get("lost") or "times_from" in self.cameras[name].words:
            return
        lacks = {it for at, it in self.came[name] if since + READ <= at <= until - READ}
        lacks -= self.kept_of.get((event, name), set())
        if lacks:
            self.says(f"told as whole, and {sorted(lacks)} aren't kept: {said}")

    def reads_event_not_whole(self, said: dict, time: int) -> None:
        """An event is over."""
        self.over(said)

    def over(self, said: dict) -> None:
        """An event is over for a camera."""
        meant, over = self.events.setdefault(said["event"], (set(self.cameras), set()))
        if said["camera"] in over and said["event"] not in self.unsure:
            self.says(f"an event is over twice: {said}")
        over.add(said["camera"])
        if said["camera"] in self.not_noted:
            self.doubts(said["event"])

    def doubts(self, event: int) -> None:
        """An event isn't noted, until the file of events can be written."""
        if event not in self.unsure:
            self.unsure.add(event)
            self.unsure_here.add(event)

    def reads_status(self, said: dict, time: int) -> None:
        """The frames that came are stored, wait, or are told as lost: not more of them, and, once
        none came for some time, not fewer."""
        name = said["camera"]
        came = self.here[name]
        known = said["stored"] - self.begin_next[name] + said["given_up"] + said["waiting"]
        if self.lived.life.is_faulty or name in self.moved or self.cameras[name].is_pattern():
            return
        if known > len(came) and name not in self.late:
            self.says(f"{len(came)} frames came since {self.begin_next[name]} were stored: {said}")
        quiet = not came or time - came[-1][0] > SOON
        if quiet and known < len(self.to_store(name)) and name in self.opened \
                and name not in self.broken and not self.lived.life.is_slow:
            self.says(f"{len(came)} frames came since {self.begin_next[name]} were stored, and no"
                      f" more for {SOON // SECOND} s: {said}")

    def to_store(self, name: str) -> list[tuple[int, int]]:
        """The frames that came and are to be stored. Where a writer went on, without a header, and
        no store had a frame that says what its frames are like, what it gave before that was told
        isn't: then its pipe is closed."""
        headless = self.headless.get(name)
        told_at = min(self.told.kinds.get(("source_unusable", name), ()), default=-1)
        return [(at, it) for at, it in self.here[name]
                if at > told_at or self.streams[name][it] != headless]

    def kept_all(self, label: str) -> None:
        """A keep has all frames that came in its seconds, or says what it hasn't."""
        words, lines = self.lived.life.orders[label].split(" "), self.answers.get(label, [])
        if any(it["kind"] == "event_begun" for it in lines):
            return
        for name, camera in self.cameras.items():
            mine = [it for it in lines if it.get("camera") == name]
            if any(it["kind"] != "kept" for it in mine) or not mine or \
                    "times_from" in camera.words or name in self.waits:
                continue
            rest = [it for it in words[1:] if it not in self.cameras]
            seconds = int(rest[0]) if rest and rest[0].isdigit() else camera.words["keep"]
            # Its end may lie ahead of the order, and before the answer of a slow disk.
            ahead = [int(it[1:]) for it in rest if it.startswith("+") and it[1:].isdigit()]
            more = ahead[0] if ahead else int(str(camera.words.get("after", 0)))
            since = self.given[label] - seconds * SECOND
            until = self.given[label] + more * SECOND
            if "from" in words:
                since, until = moment_of(words[3]), moment_of(words[5])
            want = {it for at, it in self.here[name] if since + READ <= at <= until - READ}
            have = set().union(*(it.get("names", set()) for it in mine))
            if any("names" not in it for it in mine):
                continue
            if want - have:
                self.says(f"a keep has no {sorted(want - have)}, and doesn't say so: {mine}")
            if any(at > until + READ for at, it in self.here[name] if it in have):
                self.says(f"a keep has frames that came after it: {mine}")

    # -------------------------------------------------------------------------------------------
    # what the files hold

    def is_in_doubt(self, which: tuple[str, int], clip: Clip) -> bool:
        """Whether somebody ordered to release a clip, and has no answer yet, by its id or by
        another one that it had meanwhile."""
        return which in self.freeing or any(
            name == which[0] and self.had_id(clip, name, own) for name, own in self.freeing)

    def frees_itself(self, which: tuple[str, int], time: int, clip: Clip | None) -> bool:
        """Whether the station may have released a clip by itself, and told so soon, or couldn't any
        more."""
        words = self.cameras[which[0]].words
        if words["when_full"] == "stop" and not words.get("release"):
            return False
        # Where a disk fails, nobody may know whether it did.
        if which[0] in self.unknown or self.lived.life.is_faulty:
            return True
        soon = [freed for at, *freed in self.frees if at >= time and freed[0] == which[0]
                and (freed[1] == which[1] or clip and self.had_id(clip, *freed))]
        return bool(soon) or self.lived.end() - time < SOON

    def had_id(self, clip: Clip, name: str, own: int) -> bool:
        """Whether a clip had this id in this life."""
        path = self.cameras[name].paths()[own // 64]
        return any(clip.path == path and clip.is_within(*it)
                   for it in self.tables.get((path, own % 64), ()))

    def look(self, chance: random.Random, time: int) -> None:
        """Looks at the files, as they are and as a loss of power may leave them."""
        self.looks_at(self.disk.present(), time, "")
        self.goes_on(time)
        self.kept.goes_on_by_rule(time)
        for _ in range(2):
            image = self.disk.after_loss(chooser(chance), chance.randrange)
            self.looks_at(image, time, "after a loss of power")

    def looks_at(self, files: dict[str, bytes], time: int, when: str) -> None:
        """Files hold what was promised."""
        stores = {it: self.held(data) for it, data in files.items() if it.endswith(".loop")}
        for which, clip in list(self.clips.items()):
            held = stores.get(clip.path)
            if self.is_in_doubt(which, clip) or self.frees_itself(which, time, clip):
                continue
            if held is None:
                self.says(f"{when} clip {which} has no store {clip.path} at {time}")
                del self.clips[which]
                continue
            lacks = [it for it, name in clip.names.items() if held.names.get(it) != name]
            free = [it for it in clip.names if not held.is_locked(it, clip.tag)]
            if lacks or free:
                self.says(f"{when} of clip {which}, {clip.first}..{clip.last} of {clip.path}, at"
                          f" {time} {lacks} are gone, {free} unlocked; the clips are {held.clips}")
                del self.clips[which]
        for path, text in list(self.saved.items()):
            self.looks_at_text(files, path, text, time, when)
        self.kept.look(files, time, when)

    def looks_at_text(self, files: dict[str, bytes], path: str, text: bytes, time: int,
                      when: str) -> None:
        """A saved file is there, and whole."""
        if path not in files:
            self.says(f"{when} the saved file {path} is gone at {time}")
            del self.saved[path]
        elif path in self.replacing:
            try:
                names_in_text(files[path])
            except Wrong as wrong:
                self.says(f"{when} of {path} at {time}: {wrong}")
                del self.saved[path]
        elif files[path] != text:
            self.says(f"{when} the saved file {path} is another at {time}")
            del self.saved[path]

    def goes_on(self, time: int) -> None:
        """What came some time ago is stored, where a store has room."""
        if self.lived.life.is_slow:
            return
        files = self.disk.present()
        for name, camera in self.cameras.items():
            came = [it for at, it in self.to_store(name) if at < time - SOON]
            since = max(self.opened.get(name, time), self.room_at.get(name, 0))
            frees = any(it[0] == name for it in self.freeing)
            if not came or frees or time - since < SOON or name in self.moved:
                continue
            held = [self.held(files.get(it)) for it in camera.paths()]
            newest = max((max(it.names.values()) for it in held if it and it.names), default=-1)
            if newest < came[-1] and any(it and it.has_room() for it in held):
                self.says(f"{name} has stored up to {newest}, and {came[-1]} came"
                          f" {SOON // SECOND} s before {time}; a store has room")

    # -------------------------------------------------------------------------------------------
    # the end

    def ends(self, lived: Lived, lines: list) -> None:
        """A life has ended."""
        life, end = lived.life, lived.end()
        stopped = lived.why().startswith("ended")
        for label, at in self.given.items():
            is_late = stopped or not life.is_faulty and end - at > 70 * SECOND
            is_sure = label not in self.kept.joined and not self.more.memory.is_unsure(label)
            if label not in self.done and is_late and is_sure:
                self.says(f"no answer to @{label} {life.orders[label]}, given at {at}")
        # Where memory is refused at the start, or for a line, the status says so.
        well = (0, 137, 1) if self.more.memory.refused else (0, 137)
        if lived.status not in well or lived.why().startswith(("all threads", "broken")):
            self.says(f"ended with {lived.status}, {lived.why()}")
        if life.end == "stop" and not stopped:
            self.says(f"`stop` didn't end it: {lived.why()}")
        self.looks_at(lived.left, end, "at the end")
        self.looks_at(lived.after, end, "at the end, after it")
        self.all_stored()
        self.told.ends(lived, lines)
        self.kept.ends(lived, lines)
        self.asked.ends(lived)
        self.more.ends(lived)
        self.last.ends(lived)
        self.goes_on_with_events(lived)
        self.forgets(lived.after)

    def writes(self, record: Record) -> None:
        """A store's file is about to be changed."""
        file = self.disk.files.get(record.number)
        path = next((it for it in self.paths if self.disk.names.get(it) is file), None)
        if file is None or path is None:
            return
        name, is_table = self.paths[path], layout.SUPER <= record.place < layout.FRONT
        names = set() if is_table else names_in_slots(record.data)
        self.told.writes(name, path, record, names)
        if is_table:
            self.sees_tables(path)
            self.locked_at[name] = record.time
            if record.data[:1] == bytes([layout.CLOSED]):
                self.room_at[name] = record.time
        else:
            self.goes(name, path, file, record)
            self.stored_at[name] = record.time
            self.stored[name].update(names)
        self.kept.writes(name, path, record, names)
        self.asked.writes(name, path, record, names)
        if names:
            self.more.pattern.stores(name, record)

    def goes(self, name: str, path: str, file: File, record: Record) -> None:
        """A block that goes is the oldest of all that no clip locks and that aren't the newest of
        their store. Which one it is was decided once the frame before was stored."""
        if self.lived.life.is_faulty or name in self.moved | self.out_of_order or \
                self.locked_at.get(name, 0) > self.stored_at.get(name, 0) - SECOND:
            return
        if record.data[:1] != b"\0" or file.now[record.place] != layout.OPEN:
            return
        stores = {it: self.held(self.present(it)) for it in self.cameras[name].paths()}
        held = stores[path]
        if held is None or record.place not in map(held.geometry.segment_at,
                                                   range(held.geometry.segments)):
            return
        block = int.from_bytes(file.now[record.place + layout.BLOCK_AT:][:8], "little")
        free = [it for it, other in stores.items() if other and it != path
                and len(other.blocks) < other.geometry.segments]
        is_open = record.time - self.opened.get(name, record.time) > SOON
        if free and is_open and not self.lived.life.is_slow and not self.world.strange_files:
            self.says(f"{path} gives up a block at {record.time}, and {free} have room")
        # What went out of order is told once all stores are open, which takes long where they are
        # read slowly.
        if "\nreads " in self.lived.life.script and \
                self.lived.end() - self.opened.get(name, 0) < OPENING:
            return
        if self.cameras[name].is_pattern():
            self.more.pattern.goes(self.cameras[name], path, block, record.time)
            return
        gone = held.first_of(block)
        may = [it.first_of(block) for it in stores.values() if it
               for block in it.blocks if it.may_go(block)]
        if gone is not None and may and min(may) < gone:
            self.says(f"{path} gives up frame {gone} of {name}, and {min(may)} came before it,"
                      f" isn't locked, and isn't in the newest block of its store, at"
                      f" {record.time}")

    def single(self, name: str) -> bool:
        """Whether a camera that is to have several stores has an old one, which is its only one."""
        return f"{name}.loop" in self.disk.names or bool(
            self.world.strange_files & set(self.cameras[name].paths()))

    def present(self, path: str) -> bytes | None:
        """What a file holds."""
        file = self.disk.names.get(path)
        return bytes(file.now) if file else None

    def all_stored(self) -> None:
        """Each frame that came before one that was stored was stored, too, or told as lost."""
        for name, stored in self.stored.items():
            if self.lived.life.is_faulty or name in self.moved | self.broken | self.gave_up:
                continue
            lacks = [it for _, it in self.to_store(name) if it < max(stored, default=0)]
            lacks = [it for it in lacks if it not in stored]
            if lacks:
                self.says(f"{lacks} of {name} came, and weren't stored, and {max(stored)} was")

    def goes_on_with_events(self, lived: Lived) -> None:
        """An event that was answered goes on after the next start, if its end was still ahead."""
        for event, (meant, over) in self.pending.items():
            is_open = any(lived.end() - self.opened.get(it, lived.end()) > SOON
                          for it in meant - self.moved)
            if is_open and not lived.life.is_faulty and event not in self.begun:
                self.says(f"event {event} of {sorted(meant)} doesn't go on after a start")
        if self.asked.is_calm(lived.end()):
            # The file is tried again each second.
            self.unsure -= self.unsure_here
        self.pending = {it: self.events[it] for it, (_, until) in self.spans.items()
                        if until > lived.end() and it in self.events and it not in self.unsure
                        and not self.events[it][0] & self.events[it][1]}

    def forgets(self, files: dict[str, bytes]) -> None:
        """Of a release that wasn't answered nobody knows whether it was done: the files say it."""
        for which in list(self.clips):
            clip = self.clips[which]
            if not self.is_in_doubt(which, clip) and \
                    not self.frees_itself(which, self.lived.end(), clip):
                continue
            held = self.held(files.get(clip.path))
            if held is None or not held.has_clip(clip.first, clip.last, clip.tag):
                del self.clips[which]
        for path in self.replacing & set(self.saved):
            if path in files:
                self.saved[path] = files[path]
