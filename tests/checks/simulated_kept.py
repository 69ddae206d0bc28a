"""What the judge of tests/simulate asks of clips, events, saves and stores: what is locked, what a
file has that was saved, what may go, and which counts are told. Each question is a method whose
name docs and tests use."""
from __future__ import annotations

import bisect
import posixpath
import re
from typing import TYPE_CHECKING

import layout
from simulated_disk import Record
from simulated_world import EPOCH, LINKED, SECOND, SIZE, Camera

if TYPE_CHECKING:
    from simulated_judge import Judge
    from simulated_run import Lived

SOON = 5 * SECOND
# So much later than it came a frame may have been read.
READ = 300_000
# So many frames have a place at a desk, whatever memory the source's have.
DESK = 60
# A store that fails is left alone for so long, and one without room isn't made for so long.
ALONE, ROOM = 50 * SECOND, 50 * SECOND
# So long after it failed a save that began by itself is tried again.
AGAIN = 60 * SECOND

# A clip of a store's table: its first and last number, and its tag.
Span = tuple[int, int, int]


def has_same(said: dict, other: dict) -> bool:
    """Whether another clip of its store, which was told too, has a frame of one."""
    return said["id"] != other["id"] and said["id"] // 64 == other["id"] // 64 and \
        other["first"] <= said["last"] and said["first"] <= other["last"]


class Kept:
    """The questions, with what is known of clips, of files and of counts."""

    def __init__(self, judge: Judge) -> None:
        self.judge = judge
        # The name, the sequence and the time of each number of a store.
        self.slots: dict[str, dict[int, tuple[int, int, int]]] = {}
        self.tags: dict[tuple[int, str], int] = {}
        # The events of which the answer says which cameras they mean.
        self.answered: set[int] = set()
        self.ends_at: dict[int, set[int]] = {}
        # The cameras whose end of an event lies ahead.
        self.ahead_of: dict[int, set[str]] = {}
        # Which clip was saved by itself, and where.
        self.itself: dict[tuple[str, int, int, int, int], str] = {}

    def begins(self, lived: Lived) -> None:
        """A life begins."""
        for camera in self.judge.cameras.values():
            for path in camera.paths():
                self.slots[path] = self.slots_in(lived.before.get(path))
        self.now: dict[str, dict[int, Span]] = {}
        self.changes: dict[str, int] = {}
        # When clips or blocks of a camera were changed last.
        self.changed_at: dict[str, int] = {}
        # The stores that were told as absent in this life.
        self.absent: set[str] = set()
        # The stores whose tables were changed since the last line.
        self.dirty: set[str] = set()
        self.closing: dict[tuple[str, int], list[tuple]] = {}
        self.orders: dict[str, tuple[int, list[str]]] = {}
        self.over: dict[str, int] = {}
        self.ended: dict[tuple[int, str], list[dict]] = {}
        self.freed_parts: list[tuple[str, int, int]] = []
        # The stores and tags of clips that orders have released.
        self.freed_tags: set[tuple[str, int]] = set()
        self.doubted: dict[str, dict] = {}
        self.cancelled: dict[str, int] = {}
        self.made: dict[str, int] = {}
        self.alone: dict[str, tuple[str, int]] = {}
        # The stores of several whose disk failed while they were written, and when; and those that
        # were written in this life.
        self.failed: dict[str, int] = {}
        self.written: set[str] = set()
        # The saves that began by themselves and wait; and when a camera's store was told as absent.
        self.waiting: dict[tuple[str, int], int] = {}
        self.lost_at: dict[str, list[int]] = {}
        self.no_room: dict[str, int] = {}
        # When a camera's store was told as open.
        self.opened_again: dict[str, list[int]] = {}
        self.itself_at: dict[tuple[str, int], int] = {}
        self.kept_at: dict[tuple[str, int], int] = {}
        # When each clip's entry was opened last, and when closed; when a file of each id was told,
        # of which frames.
        self.opened_at: dict[tuple[str, int], int] = {}
        self.closed_at: dict[tuple[str, int], int] = {}
        # When the entry of each clip that was closed last had been opened, if in this life.
        self.was_opened: dict[tuple[str, int], int | None] = {}
        self.saved_of: dict[tuple[str, int], tuple[int, set[int]]] = {}
        # How many frames the clips of each id have that were told as kept.
        self.kept_counts: dict[tuple[str, int], set[int]] = {}
        self.tables_at: dict[str, dict[str, dict[int, Span]]] = {}
        self.rooms_at: dict[str, dict[str, tuple[int, int]]] = {}
        self.away: dict[int, int] = {}
        self.turns: dict[str, list[str]] = {}
        self.to: dict[int, set[int]] = {}
        # The events that were ordered in this life.
        self.here: set[int] = set()
        self.stopping = 0
        # The orders that a line without its end was joined to, as where the computer stood still.
        self.joined: set[str] = set()
        # The clips that were released since they were saved, some time before the end.
        self.full_of: list[tuple[dict, tuple]] = []
        # The newest sequence of each camera, and since when its source is seen to have waited.
        self.newest: dict[str, int] = {}
        self.waited_at: dict[str, int] = {}
        # When each camera's frames were stored.
        self.stored_at: dict[str, list[int]] = {}
        # The clips of which a save was told in this life.
        self.whole: set[tuple[str, int, int, int]] = set()
        for path in [it for camera in self.judge.cameras.values() for it in camera.paths()]:
            self.now[path] = {own: tuple(clip) for own, *clip in self.judge.table(path)}

    def says(self, what: str) -> None:
        """Something is wrong."""
        self.judge.says(what)

    def is_plain(self, name: str) -> bool:
        """Whether a camera's disk works and is fast, and none of its stores was moved."""
        life = self.judge.lived.life
        return not (life.is_slow or life.is_faulty or name in self.judge.moved)

    @staticmethod
    def slots_in(image: bytes | None) -> dict[int, tuple[int, int, int]]:
        """What a store's slots say, of each number: its name, its sequence and its time."""
        found = {}
        try:
            store = layout.read_once(lambda at, count: image[at:at + count], len(image or b""))
        except (layout.Refused, TypeError):
            return {}
        for segment in store.segments:
            for slot in range(segment.whole if segment.open else 0):
                at = store.geometry.slot_at(segment.place, slot)
                number, sequence, _, moment, *_ = layout.SLOT_HEAD.unpack_from(image, at)
                name = int.from_bytes(image[at + layout.HEAD:][:8], "little")
                found[number] = (name, sequence, moment - EPOCH)
        return found

    def names(self, path: str, first: int, last: int) -> list[int | None]:
        """The names of the frames of a store from one number to another."""
        slots = self.slots[path]
        return [slots[it][0] if it in slots else None for it in range(first, last + 1)]

    # -------------------------------------------------------------------------------------------
    # what happens

    def comes(self, name: str, words: list[str], time: int, kind: str) -> None:
        """An order came."""
        if words[0] not in ("order", "unended"):
            return
        label, said = words[2].removeprefix("@"), words[3:]
        self.orders[label] = (time, said)
        if said == ["stop"]:
            self.stopping = time
        if said[0] == "status":
            self.rooms_at[label] = {it: self.room(camera) for it, camera
                                    in self.judge.cameras.items()}
        camera = self.judge.cameras.get(said[1]) if said[0] in ("save", "save!") else None
        if camera:
            self.tables_at[label] = {it: dict(self.now[it]) for it in camera.paths()}
        if words[0] == "order" and len(said) > 1 and said[1] in self.judge.cameras and \
                said[0] in ("keep", "release") \
                and not any(it.startswith("+") or it == "to" for it in said) \
                and "after" not in self.judge.cameras[said[1]].words:
            self.turns.setdefault(said[1], []).append(label)

    def moves(self, old: str, new: str, time: int) -> None:
        """Somebody moves a file, perhaps a store that is recorded into."""
        is_store = old in self.judge.paths
        self.dirty |= {old} & set(self.judge.paths)
        self.freed_parts = [it for it in self.freed_parts if it[0] != old]
        for number, file in self.judge.disk.files.items() if is_store else ():
            if file is self.judge.disk.names.get(new):
                self.away[number] = time

    def is_away(self, record: Record) -> None:
        """A store that is moved away is recorded into no more: that is noticed within a second, and
        nothing is flushed for longer than a slow disk takes."""
        since = self.away.get(record.number)
        if since is not None and record.time - since > 3 * SECOND and \
                not self.judge.lived.life.is_slow and not self.judge.lived.life.is_faulty and \
                record.time > self.script_pause() + 2 * SECOND:
            self.says(f"a store was moved away at {since}, and is written at {record.time}")
            del self.away[record.number]

    def writes(self, name: str, path: str, record: Record, names: set[int]) -> None:
        """A store's file is about to be changed."""
        self.stays_alone(self.judge.cameras[name], path, record.time)
        self.written.add(path)
        if names:
            self.stores(name, path, record)
        else:
            self.changed_at[name] = record.time
        if not names and layout.SUPER <= record.place < layout.FRONT:
            own = (record.place - layout.SUPER) // layout.ENTRY
            self.changes[path] = self.changes.get(path, 0) + 1
            self.dirty.add(path)
            if record.data[:1] == bytes([layout.CLOSED]):
                self.closed_at[path, own] = record.time
                self.was_opened[path, own] = self.opened_at.get((path, own))
                self.closes(name, path, own)
            elif record.data[:1] == bytes([layout.OPEN]):
                self.opened_at[path, own] = record.time
        if name not in self.judge.moved:
            self.left_alone(name, path, record.time)

    def stores(self, name: str, path: str, record: Record) -> None:
        """Frames are stored: each with the time at which it came, or which its source says."""
        camera, size = self.judge.cameras[name], layout.HEAD + SIZE
        came = self.judge.came_at[name]
        for at in range(0, len(record.data), size):
            number, sequence, _, moment, *_ = layout.SLOT_HEAD.unpack_from(record.data, at)
            frame = int.from_bytes(record.data[at + layout.HEAD:][:8], "little")
            time = moment - EPOCH
            self.rises(camera, path, number, sequence)
            self.slots[path][number] = (frame, sequence, time)
            if frame in came and name not in self.judge.late:
                self.has_its_time(camera, frame, time, came[frame], record.time)

    def rises(self, camera: Camera, path: str, number: int, sequence: int) -> None:
        """A frame comes after all that its camera's stores have, by the camera's count."""
        if camera.name not in self.newest:
            found = [it[1] for other in camera.paths() for it in self.slots[other].values()]
            self.newest[camera.name] = max(found, default=-1)
        before = self.newest[camera.name]
        if sequence <= before and self.is_plain(camera.name) and not self.absent:
            self.says(f"frame {number} of {path} has the sequence {sequence}, and {before} was"
                      f" there")
        self.newest[camera.name] = max(before, sequence)

    def has_its_time(self, camera: Camera, frame: int, time: int, came: int, now: int) -> None:
        """A frame has the time at which it came, or that which its source says."""
        if camera.says_times:
            at = self.judge.said_at[camera.name].get(frame)
            if at is not None and abs(time - at) > 1000:
                self.says(f"frame {frame} of {camera.name} has the time {time}, and said {at}")
        elif time < came - 1000 or time > came + READ and self.is_plain(camera.name) and \
                "\npause" not in self.judge.lived.life.script and \
                not self.judge.told.has_told("all_locked", camera.name) and \
                not self.judge.told.has_told("waited", camera.name):
            self.says(f"frame {frame} of {camera.name} has the time {time}, and came at {came}")
        self.stored_at.setdefault(camera.name, []).append(now)
        if not camera.says_times and time > came + SECOND and camera.name not in self.judge.moved:
            self.waited_at.setdefault(camera.name, time)

    def tells_that_it_waits(self, end: int) -> None:
        """That memory is full, so that the source waits, is told."""
        for name, at in self.waited_at.items():
            told = self.judge.told
            if not told.has_told("waited", name) and not told.has_told("all_locked", name) and \
                    self.script_pause() == 0 and end - at > 3 * SECOND and \
                    not self.judge.more.memory.refused and not self.lost_at.get(name):
                self.says(f"the source of {name} has waited since {at}, and that isn't told")

    def reads_waited(self, said: dict, time: int) -> None:
        """A source waits only where memory is full: not where it has room for all that came and
        isn't stored."""
        name = said["camera"]
        camera = self.judge.cameras[name]
        stored = self.stored_at.get(name, [])
        behind = max((place - bisect.bisect(stored, at) for place, (at, _) in
                      enumerate(self.judge.here[name], 1) if at <= time), default=0)
        if behind < self.room_in_memory(camera) and name not in self.judge.moved and \
                not self.judge.more.memory.refused and not self.lost_at.get(name) and \
                self.script_pause() == 0 and not camera.is_pattern():
            self.says(f"{behind} frames wait, and memory has room for"
                      f" {self.room_in_memory(camera)}: {said}")

    @staticmethod
    def room_in_memory(camera: Camera) -> int:
        """How many frames have room in the memory for them."""
        memory = camera.words.get("memory", "4 s")
        return max(2, memory // SIZE if isinstance(memory, int) else
                   int(str(memory).split()[0]) * (SECOND // camera.period))

    def closes(self, name: str, path: str, own: int) -> None:
        """A clip is unlocked: what could have gone instead is looked at, where the station may have
        released it by itself."""
        camera = self.judge.cameras[name]
        clip = next((it[1:] for it in self.judge.table(path) if it[0] == own), None)
        if clip and camera.words["when_full"] != "stop":
            span, first = (path, own, *clip), clip[0]
            held = {it: self.judge.held(self.judge.present(it)) for it in camera.paths()}
            known = own + 64 * camera.paths().index(path)
            self.closing.setdefault((name, known), []).append(
                (span, held, self.begun_of(path, first)))

    def begun_of(self, path: str, first: int) -> int:
        """When the first frame of a clip came."""
        return self.slots[path].get(first, (0, 0, 0))[2]

    def left_alone(self, name: str, path: str, time: int) -> None:
        """A store that failed, of several, is left alone for a minute, while the others go on."""
        told = self.alone.get(path)
        others = set(self.judge.cameras[name].paths()) - set(self.alone)
        if told and others and told[1] + SECOND < time < told[1] + ALONE:
            self.says(f"{path} failed at {told[1]}, and is written at {time}")

    def stays_alone(self, camera: Camera, path: str, time: int) -> None:
        """A store of several whose disk failed is left alone for a minute, whether that was told or
        not, while the others go on."""
        since = self.failed.get(path)
        others = (self.written & set(camera.paths())) - set(self.failed) - self.absent - {path}
        if since and others and since + SECOND < time < since + ALONE and \
                camera.name not in self.judge.moved:
            self.says(f"the disk of {path} failed at {since}, and it is written at {time}")

    def breaks(self, record: Record) -> None:
        """A call on a file fails: where a store that is written fails so, it is left alone."""
        path = record.data.decode()
        name = self.judge.paths.get(path)
        if name and path in self.written and chr(record.number) in "sw" and \
                self.judge.cameras[name].stores > 1:
            self.failed.setdefault(path, record.time)

    def names_change(self, record: Record) -> None:
        """A file is made, or gets a name."""
        words = record.data.decode().split("\0")
        self.replaces(record, words)
        self.dirty |= {words[-1]} & set(self.judge.paths)
        if record.kind == "C":
            self.made[words[0]] = record.time
            for name, camera in self.judge.cameras.items():
                is_new = words[0].removesuffix(".new") in camera.paths()
                if is_new and words[0].endswith(".new") and name in self.no_room \
                        and record.time < self.no_room[name] + ROOM:
                    self.says(f"{words[0]} is made again at {record.time}, and the disk had no"
                              f" room at {self.no_room[name]}")
        path = words[-1]
        if record.kind in "NL" and words[0] == f"{path}.new":
            self.is_made_anew(path, record.time)
        if record.kind in "NL" and path in self.cancelled and not any(
                said[0].startswith("save") and said[-1] == path and label not in self.over
                for label, (_, said) in self.orders.items()):
            self.says(f"a save to {path} was cancelled, and {path} is made")

    def replaces(self, record: Record, words: list[str]) -> None:
        """A save replaces a file only where its order says so."""
        path = words[-1]
        ordered = {said[0] for _, said in self.orders.values() if said[3:] == [path]}
        if record.kind == "N" and path in self.judge.disk.names and ordered == {"save"} and \
                not self.is_own(path):
            self.says(f"{path} was there, and is replaced at {record.time}, which nobody ordered")

    def is_made_anew(self, path: str, time: int) -> None:
        """Where a store with a number below another's is made anew, that is printed."""
        name = self.judge.paths.get(path)
        if name is None:
            return
        paths = self.judge.cameras[name].paths()
        higher = [it for it in paths[paths.index(path) + 1:] if it in self.judge.lived.before]
        life = self.judge.lived.life
        if higher and not life.is_faulty and name not in self.judge.moved:
            self.judge.told.wants("store_missing", name, time, time + SECOND)

    # -------------------------------------------------------------------------------------------
    # what is told

    def reads(self, said: dict, time: int) -> None:
        """A line came."""
        kind = said["kind"]
        for path in self.dirty:
            self.now[path] = {own: tuple(clip) for own, *clip in self.judge.table(path)}
        self.dirty.clear()
        self.joined |= set(filter(self.may_join, re.findall(r"@(o\d+) ", str(said))))
        self.stays_released(time)
        reader = getattr(self, f"reads_{kind}", None)
        if reader:
            reader(said, time)

    def may_join(self, label: str) -> bool:
        """Whether an order may be joined to a line without its end: one that came soon after it,
        or while the computer stood still."""
        given = self.judge.given.get(label, 0)
        ends = [int(it.split()[1]) for it in self.judge.script if it.startswith("unended ")]
        return self.script_pause() > 0 or any(0 <= given - it < SECOND // 2 for it in ends)

    def reads_kept(self, said: dict, time: int) -> None:
        """A clip has the tag that was said, or the event's; an event's stays the same."""
        name, label = said["camera"], said.get("label")
        tag = said.get("tag", said["event"])
        words = self.orders[label][1] if label in self.orders else None
        if words and words[0] == "keep":
            own = self.judge.cameras[name].words.get("tag", said["event"])
            rest = [it for it in words[1:] if it not in self.judge.cameras and it[0] != "+"]
            if "from" in rest:
                given = rest[4:]
            else:
                given = rest[1:]
            want = int(given[0]) if given and given[0].isdigit() else own
            if tag != want:
                self.says(f"its tag is {want}: {said}")
        known = self.tags.setdefault((said["event"], name), tag)
        if known != tag:
            self.says(f"the event had the tag {known}: {said}")
        if not label:
            self.ended.setdefault((said["event"], name), []).append(said)
            self.kept_at[name, said["id"]] = time
        else:
            self.is_in_order(said)
        count = said["last"] - said["first"] + 1
        self.kept_counts.setdefault((name, said["id"]), set()).add(count)

    def is_in_order(self, said: dict) -> None:
        """A keep is told before its clip is told as saved, unless that was an earlier clip of that
        id. That it is told before its release is asked where the line is read."""
        which = said["camera"], said["id"]
        path = self.judge.cameras[which[0]].paths()[which[1] // 64]
        locked = self.opened_at.get((path, which[1] % 64))
        time, names = self.saved_of.get(which, (-1, set()))
        if locked is not None and time > locked and names and \
                names <= said.get("names", set()) and \
                len(names) not in self.kept_counts.get(which, set()):
            self.says(f"it was told as saved at {time}, and locked at {locked}: {said}")

    def reads_event_begun(self, said: dict, time: int) -> None:
        """An event goes on to the end that was told, which is the one that was ordered."""
        from simulated_judge import moment_of
        to, event = moment_of(said["to"]), said["event"]
        self.has_its_end(said, to)
        # Each camera may have an end of its own.
        self.to.setdefault(event, set()).add(to)
        if said.get("label"):
            self.answered.add(event)
            words = self.orders[said["label"]][1]
            is_said = any(it[0] == "+" or it == "to" for it in words)
            self.ahead_of[event] = {it for it, camera in self.judge.cameras.items()
                                    if is_said or "after" in camera.words}
            self.here.add(event)
            self.ends_at.setdefault(event, set()).add(to)
        elif event in self.answered and min(abs(it - to) for it in self.ends_at[event]) > 2000:
            self.says(f"the event was to end at {sorted(self.ends_at[event])}: {said}")

    def has_its_end(self, said: dict, to: int) -> None:
        """An event ends when its order says, or as many seconds after the order came as that says,
        or its camera's words do."""
        from simulated_judge import moment_of
        given, words = self.orders.get(said.get("label", ""), (0, []))
        named = set(words) & set(self.judge.cameras) or set(self.judge.cameras)
        meant = [self.judge.cameras[it] for it in named]
        if not words or any("times_from" in it.words for it in meant):
            return
        ahead = [int(it[1:]) for it in words[1:] if it.startswith("+")]
        if "to" in words:
            ends = [moment_of(words[words.index("to") + 1])]
        elif ahead:
            ends = [given + ahead[0] * SECOND]
        else:
            ends = [given + int(str(it.words.get("after", 0))) * SECOND for it in meant]
        if to < min(ends) - 1000 or to > max(ends) + READ and self.script_pause() == 0:
            self.says(f"it was to end at {sorted(ends)}, and {to} is told: {said}")

    def reads_event_whole(self, said: dict, time: int) -> None:
        """An event is over at its end, and what is locked of it is told, each once."""
        self.ends_event(said, time)

    def reads_event_not_whole(self, said: dict, time: int) -> None:
        """The same of one that isn't whole."""
        self.ends_event(said, time)

    def ends_event(self, said: dict, time: int) -> None:
        """An event is over at its end, and what is locked of it is told, each once."""
        event, name = said["event"], said["camera"]
        told = self.ended.pop((event, name), [])
        camera = self.judge.cameras[name]
        if said.get("why") in ("TooManyEvents",) or not self.is_plain(name):
            return
        to = min(self.to.get(event, {0}))
        if time < to - 100_000 and "times_from" not in camera.words:
            self.says(f"told before its end at {to}: {said}")
        spans: dict[str, list[tuple[int, int]]] = {}
        free: dict[str, list[tuple[int, int]]] = {}
        for it in told:
            path, span = camera.paths()[it["id"] // 64], (it["first"], it["last"])
            spans.setdefault(path, []).append(span)
            if not self.is_saved(name, it) or not any(has_same(it, other) for other in told):
                free.setdefault(path, []).append(span)
        for path, found in free.items():
            found.sort()
            # A kill may come between the lock of a longer clip and the unlock of the shorter one,
            # which isn't unlocked while a save reads it. What an order has released of an event
            # isn't locked again, so a later clip may not cover an earlier one.
            tags = {it.get("tag", event) for it in told}
            if event in self.here and not any((path, it) in self.freed_tags for it in tags) and \
                    any(one[1] >= two[0] for one, two in zip(found, found[1:])):
                self.says(f"the clips of an event overlap in {path}: {found}")
        # Passed over: an event that ended while the station was down is told as over before its
        # other stores are open, without what these have.
        if camera.stores > 1 and event not in self.here and \
                time - self.judge.lived.life.begins < SOON:
            return
        for path in camera.paths():
            for own, (first, last, tag) in self.now[path].items():
                if tag == event and (first, last) not in spans.get(path, ()):
                    self.says(f"{path} has the clip {own} {first}..{last} of the event, which isn't"
                              f" told at its end: {told}")

    def is_saved(self, name: str, said: dict) -> bool:
        """Whether a clip that was told is to be saved by an order."""
        names = {str(said["id"]), f"#{said['event']}", f"#{said.get('tag')}"}
        return any(words[0] in ("save", "save!") and words[1] == name and words[2] in names
                   for _, words in self.orders.values())

    def stays_released(self, time: int) -> None:
        """What an order has released of an event isn't locked again."""
        for path, tag, last in self.freed_parts:
            again = [it for it in self.now[path].values()
                     if it[2] == tag and it[0] <= last <= it[1]]
            if again:
                self.says(f"{again} of {path} is locked at {time}, and up to {last} was released")
        if any(it[2] == tag and it[0] <= last <= it[1] for path, tag, last in self.freed_parts
               for it in self.now[path].values()):
            self.freed_parts = []

    def versions(self, name: str, own: int) -> set[Span]:
        """What a clip with this id was, in this life."""
        path = self.judge.cameras[name].paths()[own // 64]
        known = set(self.judge.tables.get((path, own % 64), ()))
        here = self.now[path].get(own % 64)
        return known | ({here} if here else set())

    def reads_released(self, said: dict, time: int) -> None:
        """A release is of a clip that was there, that begins with the frame that was said, and that
        no save reads; and one that makes room is of the oldest clip that may go."""
        name, own, label = said["camera"], said["id"], said.get("label")
        versions = self.versions(name, own)
        self.itself_at.pop((name, own), None)
        if said.get("why") != "full":
            self.closing.pop((name, own), None)
        store = self.judge.cameras[name].paths()[own // 64]
        self.itself = {it: where for it, where in self.itself.items() if it[:2] != (store, own)}
        if said.get("why") == "full":
            self.makes_room(name, own, said)
            return
        given, words = self.orders.get(label, (time, []))
        if not words:
            self.was_saved(said, store)
        if words and words[0] == "release":
            self.is_unlocked(said, store, given)
            if name not in self.judge.moved and not versions:
                self.says(f"there was no such clip: {said}")
            if len(words) > 3 and versions and int(words[3]) not in {it[0] for it in versions}:
                self.says(f"it began with none of {words[3]}: {said}")
            self.is_not_read(said, given)
            path = self.judge.cameras[name].paths()[own // 64]
            self.freed_tags |= {(path, it[2]) for it in versions}
            gone = {it for it in versions if it not in self.now[path].values()}
            if self.is_plain(name) and len(gone) == len(versions):
                newest = max(versions, key=lambda it: it[:2], default=None)
                same = {it[2] for it in versions}
                # A part that a longer one covers may be released without an end of that.
                is_covered = newest and any(it[2] == newest[2] and it[0] <= newest[1]
                                            for it in self.now[path].values())
                if newest and len(same) == 1 and newest[2] in self.to and not is_covered:
                    self.freed_parts.append((path, newest[2], newest[1]))

    def is_unlocked(self, said: dict, path: str, given: int) -> None:
        """A clip that is told as released was unlocked since that was ordered."""
        name, own = said["camera"], said["id"] % 64
        if self.closed_at.get((path, own), -1) < given and name not in self.judge.moved and \
                said["label"] not in self.joined:
            self.says(f"it was ordered at {given}, and nothing has unlocked it: {said}")

    def was_saved(self, said: dict, path: str) -> None:
        """A clip that goes by itself, of those that were locked in this life, was saved before."""
        name, own = said["camera"], said["id"]
        # Another clip may have its id by now.
        locked = self.was_opened.get((path, own % 64), self.opened_at.get((path, own % 64)))
        saved = self.saved_of.get((name, own), (-1, set()))[0]
        if locked is not None and saved < locked and name not in self.judge.moved and \
                not self.judge.more.memory.lacked(locked, 2**63):
            self.says(f"it was locked at {locked}, and not saved since then: {said}")

    def is_not_read(self, said: dict, given: int) -> None:
        """A clip isn't released while a save reads it."""
        for label, (at, words) in self.orders.items():
            if words[0] in ("save", "save!") and words[1:3] == [said["camera"], str(said["id"])] \
                    and at < given and label not in self.over \
                    and not self.judge.disk.names.get(words[3]):
                self.doubted[label] = said

    def makes_room(self, name: str, own: int, said: dict) -> None:
        """Where every block is locked the oldest clip goes that may, and none before that."""
        closed = self.closing.pop((name, own), [])
        if not closed or name in self.judge.moved:
            return
        rule = str(self.judge.cameras[name].words["when_full"])
        tags = {it[0][4] for it in closed}
        if rule == "release oldest tag 7" and 7 not in tags:
            self.says(f"its tag is {sorted(tags)}: {said}")
        if len(closed) > 1:
            return
        (path, place, first, last, _), held, begun = closed[0]
        if rule == "release saved" and "save_to" not in self.judge.cameras[name].words:
            self.full_of.append((said, (path, place, first, last)))
        if self.judge.lived.life.is_faulty or not all(held.values()):
            return
        if any(it.may_take_a_block() for it in held.values()):
            self.says(f"a block could have gone: {said}")
        if rule == "release saved" or "save_to" in self.judge.cameras[name].words or any(
                words[0].startswith("save") for _, words in self.orders.values()):
            return
        for other, it in held.items():
            for mine, one, _, its in it.clips:
                earlier = self.begun_of(other, one)
                if earlier and earlier < begun and (rule == "release oldest" or its == 7):
                    self.says(f"clip {mine} of {other} came before it: {said}")

    def reads_saved(self, said: dict, time: int) -> None:
        """A saved file has the frames of a clip, or of the clips of an event, each once and in
        their order."""
        from simulated_judge import Wrong, names_in_text
        name, label, path = said["camera"], said.get("label"), said["path"]
        file = self.judge.disk.names.get(path)
        if label in self.doubted:
            self.says(f"{self.doubted[label]} released what a save read: {said}")
        if label and not self.lies_inside(path):
            self.says(f"it doesn't lie in {self.judge.world.saves}: {said}")
        if file is None or path in self.judge.pipes:
            return
        try:
            names = names_in_text(bytes(file.now))
        except Wrong:
            return
        self.saved_of[name, said["id"]] = (time, set(names))
        words = self.orders[label][1] if label in self.orders else []
        if words and words[2].startswith("#"):
            self.has_event(said, label, names)
            return
        self.judge.sees_tables()
        store = self.judge.cameras[name].paths()[said["id"] // 64]
        versions = self.versions(name, said["id"])
        fits = [it for it in versions if self.names(store, it[0], it[1]) == names]
        if not fits and name not in self.judge.moved:
            self.says(f"no clip of this id had its frames: {said}")
        self.whole |= {(store, said["id"] % 64, *it[:2]) for it in fits}
        if not label and fits:
            self.itself_at[name, said["id"]] = time
            first, last, _ = fits[0]
            key = (store, said["id"], first, last, names[0])
            before = self.itself.setdefault(key, path)
            # An event with a tag of one's own has a file of its own at its end, also of what the
            # start saved as any clip.
            is_early = time - self.judge.lived.life.begins < SECOND and \
                (name, said["id"]) not in self.kept_at
            if before != path and before in self.judge.lived.before and is_early:
                self.says(f"it is saved already as {before}: {said}")

    def lies_inside(self, path: str) -> bool:
        """Whether a path lies in the only folder into which orders may write, if there is one, and
        no link leads out of it."""
        world = self.judge.world
        is_led = any(f"{path}/".startswith(f"{it}/") for it in world.links)
        return not world.saves or not is_led and \
            posixpath.normpath(path).startswith(f"{world.saves}/")

    def has_event(self, said: dict, label: str, names: list[int]) -> None:
        """A save of an event has each frame once, in the order of their times, and all of them."""
        words = self.orders[label][1]
        tag, name = int(words[2][1:]), said["camera"]
        if self.judge.cameras[name].is_pattern():
            self.judge.more.pattern.follows(said, names)
        elif names != sorted(set(names)) and name not in self.judge.moved:
            self.says(f"its frames aren't in order, or not once: {said}")
        allowed: set[int | None] = set()
        for path in self.judge.cameras[name].paths():
            spans = {(own, *it) for (where, own), all_of in self.judge.tables.items()
                     if where == path for it in all_of}
            spans |= {(own, *it) for own, it in self.now[path].items()}
            for own, first, last, its in spans:
                if its == tag:
                    mine = set(self.names(path, first, last))
                    allowed |= mine
                    # It may be locked after the order came, and before that is done.
                    if mine <= set(names):
                        self.whole.add((path, own, first, last))
            for own, clip in self.tables_at.get(label, {}).get(path, {}).items():
                if clip[2] == tag and self.now[path].get(own) == clip and \
                        not set(self.names(path, clip[0], clip[1])) <= set(names):
                    self.says(f"the clip {own} of {path} isn't in it: {said}")
        if not set(names) <= allowed:
            self.says(f"it has frames of no clip with the tag: {said}")

    def reads_not_saved(self, said: dict, time: int) -> None:
        """A save that is ended leaves nothing; a stop gives it some time."""
        label, why = said.get("label"), said["why"]
        self.itself_at.pop((said["camera"], said["id"]), None)
        self.kept_at.pop((said["camera"], said["id"]), None)
        if label in self.doubted and why in ("NoSuchClip", "NotHeld"):
            self.says(f"{self.doubted[label]} released what a save read: {said}")
        words = self.orders[label][1] if label in self.orders else []
        if words and why == "NotHeld" and not words[2].startswith("#"):
            self.finds_its_clip(said, label, int(words[2]))
        if why in ("Exists", "IsStore", "NotRegular", "Busy") and self.is_own(said["path"]):
            self.says(f"it is a file of the station: {said}")
        if why == "OtherFolder" and (not label or self.lies_inside(said["path"])):
            self.says(f"it lies in the folder for saves: {said}")
        if why == "Cancelled":
            self.cancelled[said["path"]] = time
        given = self.orders.get(label, (time, []))[0]
        if why == "Stopped" and self.stopping and not self.judge.lived.life.changed and \
                time - self.stopping < 690_000 and given < self.stopping - SECOND // 10:
            self.says(f"a stop gave it {time - self.stopping} microseconds: {said}")

    def is_own(self, path: str) -> bool:
        """Whether a path is one of the station's files and pipes."""
        own = {"station.toml", "answers", "orders", *self.judge.paths}
        for name in self.judge.cameras:
            own |= {f"{name}.loop.events", f"{name}.y4m"}
        return path in own

    def finds_its_clip(self, said: dict, label: str, own: int) -> None:
        """A save finds its clip, which was there when it was ordered and is there still."""
        name = said["camera"]
        if own // 64 >= self.judge.cameras[name].stores or not self.is_plain(name):
            return
        path = self.judge.cameras[name].paths()[own // 64]
        clip = self.tables_at.get(label, {}).get(path, {}).get(own % 64)
        if clip and clip == self.now[path].get(own % 64) and \
                self.versions(name, own) == {clip}:
            self.says(f"its clip is there, {clip} in {path}: {said}")

    def reads_saving(self, said: dict, time: int) -> None:
        """A clip whose saves have ended can be released."""
        label = said.get("label")
        words = self.orders[label][1] if label in self.orders else []
        if not words or words[0] != "release":
            return
        name = said["camera"]
        if "save_to" in self.judge.cameras[name].words or name in self.judge.moved:
            return
        for other, (at, its) in self.orders.items():
            if its[0] in ("save", "save!") and its[1] == name and (
                    its[2] == words[2] or its[2].startswith("#")):
                if time - self.over.get(other, time) < 2 * SECOND:
                    return
        self.says(f"all saves of the clip {words[2]} are over: {said}")

    def reads_save_waits(self, said: dict, time: int) -> None:
        """A save that waits will be told later."""
        self.kept_at.pop((said["camera"], said["id"]), None)
        self.waiting[said["camera"], said["id"]] = time

    def reads_camera(self, said: dict, time: int) -> None:
        """A list has the clips that there are, by the ids that users know."""
        name = said["camera"]
        if name in self.judge.moved:
            return
        self.judge.sees_tables()
        for clip in said["clips"]:
            tag = clip.get("tag", 0)
            known = self.versions(name, clip["id"]) if clip["id"] // 64 < \
                self.judge.cameras[name].stores else set()
            if (clip["first"], clip["last"], tag) not in known and \
                    said.get("store", 0) == clip["id"] // 64 or \
                    clip["id"] // 64 != said.get("store", 0):
                self.says(f"there is no clip {clip}: {said}")

    def reads_status(self, said: dict, time: int) -> None:
        """Room, frames that are behind and lost frames are counted."""
        name, label = said["camera"], said.get("label")
        camera = self.judge.cameras[name]
        self.counts_all(said, time)
        if not self.is_plain(name) or name in self.judge.late:
            return
        before, now = self.rooms_at.get(label, {}).get(name), self.room(camera)
        is_open = said.get("stores", 1) == said.get("stores_wanted", 1) == camera.stores
        # What is told was seen at its last look.
        is_seen = time - self.changed_at.get(name, 0) > READ
        if before == now and is_open and is_seen and said["room"] != now[0]:
            self.says(f"{now[0]} blocks may still be locked: {said}")
        came = self.judge.here[name]
        is_quiet = came and time - came[-1][0] > 300_000 and \
            time - self.judge.told.last_stored.get(name, 0) > 300_000
        behind = len(came) - (said["stored"] - self.judge.begin_next[name]) - said["given_up"]
        # Where every block is locked and memory is full, the pipe holds some that aren't read.
        is_full = self.judge.told.locked.get(name) and behind > DESK
        if is_quiet and name not in self.judge.broken | self.judge.waits and not is_full:
            self.counts_what_is_behind(said, camera, behind)
            self.counts_what_is_lost(said, camera)

    def counts_all(self, said: dict, time: int) -> None:
        """What came some time ago is stored, waits at the desk, or was told as lost, also after a
        disk has failed."""
        name = said["camera"]
        known = said["stored"] - self.judge.begin_next[name] + said["given_up"] + said["waiting"]
        is_fast = all(int(it.split()[2]) < 10_000 for it in self.judge.script
                      if it.startswith("sync "))
        recent = 2 * SECOND if is_fast else SOON
        came = [it for at, it in self.judge.to_store(name) if at < time - recent]
        at = max(self.judge.opened.get(name, time), self.judge.room_at.get(name, 0),
                 self.script_pause(), *self.lost_at.get(name, ()), *self.opened_again.get(name, ()))
        if known < len(came) and self.judge.asked.is_calm(time) and said["room"] > 0 and \
                time - at > 2 * SOON and name not in self.judge.moved | self.judge.late | \
                self.judge.broken and not self.judge.told.locked.get(name) and \
                not self.judge.cuts.get(name) and not self.judge.more.memory.refused and \
                not self.absent and "\nreads " not in self.judge.lived.life.script:
            self.says(f"{len(came)} frames came {recent // SECOND} s before {time}: {said}")

    def counts_what_is_behind(self, said: dict, camera: Camera, behind: int) -> None:
        """What came and is neither stored nor given up is behind."""
        told = round(said["behind_micros"] / (SECOND // (SECOND // camera.period)))
        if abs(told - behind) > 1 and not self.judge.cuts.get(camera.name):
            self.says(f"{behind} frames are behind: {said}")

    def counts_what_is_lost(self, said: dict, camera: Camera) -> None:
        """Frames whose numbers are missing are told as lost."""
        if not camera.says_numbers or self.judge.cuts.get(camera.name):
            return
        streams = self.judge.streams[camera.name]
        names = [it for _, it in self.judge.here[camera.name]]
        lost = sum(two - one - 1 for one, two in zip(names, names[1:])
                   if streams[one] == streams[two])
        if said.get("lost", 0) != lost:
            self.says(f"{lost} frames are lost: {said}")

    def room(self, camera: Camera) -> tuple[int, int]:
        """How many blocks of a camera may still be locked, and how often its tables changed."""
        free = 0
        for path in camera.paths():
            held = self.judge.held(self.judge.present(path))
            free += held.free_blocks() if held else 0
        return free, sum(self.changes.get(it, 0) for it in camera.paths())

    def reads_one_absent(self, said: dict, time: int) -> None:
        """A store of several failed."""
        self.absent.add(said["path"])
        if said["why"].startswith("MustReopen"):
            self.alone[said["path"]] = (said["camera"], time)
        if said["why"] == "NoRoom":
            self.no_room[said["camera"]] = time

    def reads_store_absent(self, said: dict, time: int) -> None:
        """A store isn't there any more, or the disk had no room for it."""
        self.lost_at.setdefault(said["camera"], []).append(time)
        # What fails as stores are opened again is no store that is written.
        self.written -= set(self.judge.cameras[said["camera"]].paths())
        if said["why"] == "NoRoom":
            self.no_room[said["camera"]] = time

    def reads_removed_out_of_order(self, said: dict, time: int) -> None:
        """While stores are opened frames wait in memory: none goes out of order before that is
        full, so not where it has room for more than all that came."""
        camera = self.judge.cameras[said["camera"]]
        room = self.room_in_memory(camera)
        came = sum(at <= time for at, _ in self.judge.here[camera.name])
        if came < room and not camera.is_pattern() and camera.name not in self.judge.moved:
            self.says(f"{came} frames came, and memory has room for {room}: {said}")

    def reads_camera_ended(self, said: dict, time: int) -> None:
        """A camera that begins anew tries its store at once."""
        self.no_room.pop(said["camera"], None)

    def reads_store_open(self, said: dict, time: int) -> None:
        """A store is there again."""
        self.no_room.pop(said["camera"], None)
        self.opened_again.setdefault(said["camera"], []).append(time)

    def reads_done(self, said: dict, time: int) -> None:
        """An order is answered: in its turn, soon, and by all that it asked for."""
        label = said["label"]
        self.over[label] = time
        given, words = self.orders.get(label, (time, ["?"]))
        self.in_its_turn(label, words)
        self.soon(label, given, words, time)
        if words[0] == "keep":
            if not self.judge.more.memory.is_unsure(label):
                self.locks_all_that_is_stored(label, given, words)
            lines = self.judge.answers.get(label, [])
            for it in lines if all(it["kind"] != "event_begun" for it in lines) else ():
                if it["kind"] == "kept":
                    self.kept_at[it["camera"], it["id"]] = time

    def in_its_turn(self, label: str, words: list[str]) -> None:
        """Each camera does its own orders in their order."""
        for name, labels in self.turns.items():
            if label in labels:
                before = [it for it in labels[:labels.index(label)] if it not in self.joined and
                          not self.judge.more.memory.is_unsure(it)]
                if before and name not in self.judge.moved:
                    self.says(f"@{label} is done before {before} of {name}")
                self.turns[name] = [it for it in labels if it != label]

    def soon(self, label: str, given: int, words: list[str], time: int) -> None:
        """An order is answered soon, where no disk is slow and nothing lies ahead."""
        life = self.judge.lived.life
        if life.is_slow or life.changed or words[0] in ("save", "save!", "reload", "stop", "?") or \
                any(it[:1] == "+" or it == "to" for it in words) or self.judge.moved:
            return
        named = set(words) & set(self.judge.cameras)
        asked = named or set(self.judge.cameras)
        if words[0] == "keep" and any("after" in self.judge.cameras[it].words for it in asked):
            return
        opened = [self.judge.opened.get(it, given) for it in asked]
        if time - max(given, *opened, self.script_pause()) > SOON:
            self.says(f"@{label} was given at {given}, and done at {time}")

    def script_pause(self) -> int:
        """When the program went on last that stood still."""
        found = [it.split() for it in self.judge.script if it.startswith("pause ")]
        return max((int(it[1]) + int(it[2]) for it in found), default=0)

    def locks_all_that_is_stored(self, label: str, given: int, words: list[str]) -> None:
        """A keep locks all held frames of its time, in each store, or says why not."""
        from simulated_judge import moment_of
        lines = self.judge.answers.get(label, [])
        for name, camera in self.judge.cameras.items():
            mine = [it for it in lines if it.get("camera") == name]
            if not mine or "times_from" in camera.words or \
                    name in self.judge.moved | self.judge.waits or any(
                    it["kind"] in ("absent", "refused", "too_many_orders") for it in mine) or any(
                    it["kind"] in ("kept", "kept_unread") and "names" not in it for it in mine):
                continue
            rest = [it for it in words[1:] if it not in self.judge.cameras]
            seconds = int(rest[0]) if rest and rest[0].isdigit() else int(
                str(camera.words["keep"]))
            since, until = given - seconds * SECOND, given
            if "from" in words:
                since, until = moment_of(words[3]), min(until, moment_of(words[5]))
            came = {it for at, it in self.judge.here[name] if since + READ <= at <= until - READ}
            have: set[int] = set().union(*(it.get("names", set()) for it in mine))
            # A store that failed is left alone, with all that it has.
            held = [self.judge.held(self.judge.present(it)) for it in camera.paths()
                    if it not in self.absent]
            there = {it for one in held if one for it in one.names.values()}
            lacks = (came & there) - have
            if lacks and name not in self.judge.late:
                self.says(f"a keep hasn't {sorted(lacks)}, which are stored: {mine}")
            missing = came - there - have
            if any(it["kind"] == "event_begun" for it in lines):
                continue
            self.tells_gaps(camera, mine, since, until)
            kinds = {it["kind"] for it in mine}
            if missing and not kinds & {"held", "kept_none", "kept_unread", "gap"} and \
                    name not in self.judge.late and not self.judge.lived.life.is_faulty:
                self.says(f"a keep doesn't tell that {sorted(missing)} aren't held: {mine}")
            newest = max((max(it.names.values()) for it in held if it and it.names), default=-1)
            if [it for it in missing if it > newest] and name not in self.judge.late and \
                    name not in self.judge.gave_up:
                self.says(f"a keep isn't refused, and {sorted(missing)} aren't stored: {mine}")

    def tells_gaps(self, camera: Camera, mine: list[dict], since: int, until: int) -> None:
        """Where no frame is for more than one and a half times their distance, and a quarter of a
        second, `held` and `gap` say so."""
        kept = [it for it in mine if it["kind"] == "kept"]
        kinds = {it["kind"] for it in mine}
        if "held" in kinds and "gap" not in kinds and not self.judge.more.memory.refused:
            self.says(f"less is held, and no place is told: {mine}")
        if not kept or any(it["kind"] in ("held", "gap", "kept_unread") for it in mine):
            return
        times = [since, until]
        for it in kept:
            slots = self.slots[camera.paths()[it["id"] // 64]]
            times += [slots[at][2] for at in range(it["first"], it["last"] + 1) if at in slots]
        times = sorted(it for it in times if since <= it <= until)
        widest = max(two - one for one, two in zip(times, times[1:]))
        if widest > max(camera.period * 3 // 2, 250_000) + READ:
            self.says(f"no frame is kept for {widest} microseconds, and that isn't told: {mine}")

    # -------------------------------------------------------------------------------------------
    # the end

    def look(self, files: dict[str, bytes], time: int, when: str) -> None:
        """What belongs to nobody's order stays as it is."""
        for path, data in self.judge.world.foreign.items():
            if files.get(path) != data:
                self.says(f"{when} {path} was changed at {time}, which isn't the station's")

    def ends(self, lived: Lived, lines: list) -> None:
        """A life has ended."""
        end = lived.end()
        self.saves_by_itself(lived, end)
        self.events_end(lived, end)
        self.goes_on_by_rule(end)
        for said, span in self.full_of:
            if span not in self.whole and self.is_plain(said["camera"]):
                self.says(f"no save had written it: {said}")
        self.makes_all_stores(lived, end)
        self.leaves_no_part(lived)
        self.tries_again(self.stopping or end)
        self.tells_that_it_waits(self.stopping or end)
        self.ends_with_its_store(end)
        if "config" in lived.changed_files:
            self.says("the station's file was changed")
        if LINKED[0] not in lived.links:
            self.says(f"{LINKED[0]} is no link any more")

    def saves_by_itself(self, lived: Lived, end: int) -> None:
        """With `save_to` a kept clip is written by itself, and with `release` released then."""
        auto = [(said["camera"], said["id"], at) for _, at, said in self.judge.lines_of
                if said["kind"] in ("saved", "not_saved", "save_waits") and not said.get("label")]
        for (name, own), at in self.kept_at.items():
            words = self.judge.cameras[name].words
            if "save_to" not in words or not self.is_plain(name) or end - at < SOON:
                continue
            is_freed = any(it[1:] == (name, own) and it[0] >= at - SECOND
                           for it in self.judge.frees)
            if not is_freed and not any(it[:2] == (name, own) and it[2] >= at for it in auto):
                self.says(f"clip {own} of {name}, kept at {at}, isn't saved by itself")
        for (name, own), at in self.itself_at.items():
            saves = [self.over.get(label, end) for label, (_, it) in self.orders.items()
                     if it[0].startswith("save") and it[1] == name]
            if self.judge.cameras[name].words.get("release") and self.is_plain(name) and \
                    end - max(at, *saves, 0) > SOON and not self.stopping:
                self.says(f"clip {own} of {name} was saved at {at}, and isn't released")

    def goes_on_by_rule(self, end: int) -> None:
        """Where every block is locked and a clip may go, one goes, and recording goes on."""
        for name, camera in self.judge.cameras.items():
            rule = str(camera.words["when_full"])
            came = [it for at, it in self.judge.here[name] if at < end - SOON]
            # What a save has read may go once that is over.
            read = [it for label, it in self.over.items()
                    if self.orders.get(label, (0, [""]))[1][0].startswith("save")]
            at = max(self.judge.opened.get(name, end), self.judge.room_at.get(name, 0),
                     self.script_pause(), *read)
            if not came or rule == "stop" or not self.is_plain(name) or end - at < SOON or \
                    self.stopping or name in self.judge.late or "save_to" in camera.words:
                continue
            held = [self.judge.held(self.judge.present(it)) for it in camera.paths()]
            if not all(held) or any(it.has_room() for it in held):
                continue
            newest = max((max(it.names.values()) for it in held if it.names), default=-1)
            may = {(path, own) for path in camera.paths() for own, *clip in
                   self.judge.table(path) if self.lets_go(rule, path, own, tuple(clip))}
            if newest < came[-1] and may:
                self.says(f"{name} stands still at frame {newest}, though {sorted(may)} may go")

    def lets_go(self, rule: str, path: str, own: int, clip: Span) -> bool:
        """Whether a rule lets a clip go, which no save reads."""
        if any(it[0].startswith("save") and label not in self.over
               for label, (_, it) in self.orders.items()):
            return False
        if rule == "release saved":
            return (path, own, *clip[:2]) in self.whole
        return rule == "release oldest" or clip[2] == 7

    def events_end(self, lived: Lived, end: int) -> None:
        """An event ends at its end."""
        for event, ends in self.to.items() if not lived.life.changed else ():
            if event not in self.answered:
                continue
            to = max(ends)
            meant, over = self.judge.events.get(event, (set(), set()))
            for name in (meant & self.ahead_of.get(event, set())) - over:
                camera = self.judge.cameras[name]
                opened = self.judge.opened.get(name, end)
                # One step of one event is done at a visit: with many, where nothing is stored, each
                # takes its time.
                if self.judge.told.is_plain(name) and end - max(to, opened) > SOON and \
                        not self.stopping and "times_from" not in camera.words:
                    self.says(f"event {event} of {name} was to end at {to}, and isn't over at"
                              f" {end}")

    def makes_all_stores(self, lived: Lived, end: int) -> None:
        """Stores that are missing are made while recording goes on."""
        for name, camera in self.judge.cameras.items():
            at = self.judge.opened.get(name, end)
            if end - at < 2 * SOON or not self.is_plain(name) or camera.stores == 1 or \
                    self.judge.single(name):
                continue
            lacks = [it for it in camera.paths() if it not in self.judge.disk.names]
            if lacks:
                self.says(f"{lacks} aren't made")

    def leaves_no_part(self, lived: Lived) -> None:
        """A save that ended leaves nothing but its file."""
        if lived.life.is_faulty or not lived.why().startswith("ended"):
            return
        left = [it for it in self.judge.disk.names if it.endswith(".part") and it in self.made]
        pending = [it for it, (_, said) in self.orders.items()
                   if said[0].startswith("save") and it not in self.over]
        stopped = any(it["kind"] == "not_saved" and it["why"] == "Stopped"
                      for _, _, it in self.judge.lines_of)
        if left and not pending and not stopped:
            self.says(f"{left} is left")

    def tries_again(self, end: int) -> None:
        """A save that began by itself and couldn't be written is tried again each minute."""
        bad = [it.split() for it in self.judge.script if it.startswith("bad ")]
        for (name, own), since in self.waiting.items():
            at = since + AGAIN
            while any(int(it[1]) - SECOND < at < int(it[2]) + SECOND for it in bad):
                at += AGAIN
            is_told = any(said["kind"] in ("saved", "not_saved", "released") and it > since
                          and (said["camera"], said["id"]) == (name, own)
                          for _, it, said in self.judge.lines_of)
            if end - at > SOON and not is_told and name not in self.judge.moved:
                self.says(f"clip {own} of {name} waits to be saved since {since}, and isn't saved"
                          f" at {end}")

    def ends_with_its_store(self, end: int) -> None:
        """A save whose store is lost is over soon."""
        for label, (given, words) in self.orders.items() if not self.stopping else ():
            lost = [at for at in self.lost_at.get(words[1], ()) if at > given] \
                if words[0] in ("save", "save!") else []
            if lost and end - lost[0] > SOON and label not in self.over and \
                    words[3] not in self.judge.pipes:
                self.says(f"the store of {words[1]} was lost at {lost[0]}, and its save @{label}"
                          f" isn't over at {end}")
