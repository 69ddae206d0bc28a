"""What the judge of tests/simulate asks where one thing waits for another: a keep for the frames
before it, a release for a save, an event for its frames, a stop for orders, a start for the store
with the newest frame. Each question is a method whose name docs and tests use."""
from __future__ import annotations

from typing import TYPE_CHECKING

import layout
from simulated_disk import Record
from simulated_world import EPOCH, SECOND, SIZE

if TYPE_CHECKING:
    from simulated_judge import Judge
    from simulated_run import Lived

# So much later than it came a frame or an order may have been read.
READ = 300_000
# Within so much time a store that failed is told as absent; and a save that ended is told.
AGAIN, ENDED = 4 * SECOND, SECOND // 2
# After so much time a keep is answered, whatever waits.
STUCK = 55 * SECOND
# So many frames have a place at a desk.
DESK = 60
# What may be told of a keep whose frames are stored.
TOLD = {"kept", "kept_none", "held", "gap", "event_begun", "done"}


class Asked:
    """The questions, with what waits for what."""

    def __init__(self, judge: Judge) -> None:
        self.judge = judge

    def begins(self, lived: Lived) -> None:
        """A life begins."""
        self.lived = lived
        # The place of each order among all that came, and those that came before a stop.
        self.turns: dict[str, int] = {}
        self.before_stop: set[str] = set()
        # Of each camera the last order of which a line was told that names a clip.
        self.named: dict[str, str] = {}
        # Up to which time all frames of a camera are stored, as a keep told.
        self.stored_to: dict[str, tuple[int, str]] = {}
        # The saves into a pipe that nobody reads: of which camera, and of what; those that began
        # for certain, and what was released that they read.
        self.saves: dict[str, tuple[str, str]] = {}
        self.begun: set[str] = set()
        self.released: list[tuple[str, int, dict]] = []
        # The clips of an event, told without a label.
        self.parts: dict[tuple[int, str], list[dict]] = {}
        # When a release of a camera's clip was ordered, or told, last.
        self.freed: dict[str, int] = {}
        # Passed over: a clip of an event that a longer one covers already is released by order, and
        # another one with its id and its first number is unlocked in its place. The store's file,
        # that id in it, and the number.
        # When a lock or an unlock failed, and when a camera's store was told as absent or open.
        self.failed: dict[str, int] = {}
        self.seen: dict[str, int] = {}
        self.newest = self.newest_stores(lived)

    def says(self, what: str) -> None:
        """Something is wrong."""
        self.judge.says(what)

    def newest_stores(self, lived: Lived) -> dict[str, str]:
        """Of each camera with several stores the one that has the newest frame, where its block
        has room."""
        found = {}
        for name, camera in self.judge.cameras.items():
            stores = {it: self.judge.held(lived.before.get(it)) for it in camera.paths()}
            newest = max(((max(held.names.values()), path) for path, held in stores.items()
                          if held and held.names), default=None)
            if newest is None or camera.stores == 1 or camera.is_pattern():
                continue
            held = stores[newest[1]]
            if held and (max(held.names) + 1) % held.geometry.slots:
                found[name] = newest[1]
        return found

    # -------------------------------------------------------------------------------------------
    # what happens

    def comes(self, words: list[str], time: int) -> None:
        """An order came."""
        if words[0] not in ("order", "unended"):
            return
        label, said = words[2].removeprefix("@"), words[3:]
        if said == ["stop"]:
            self.before_stop = set(self.turns)
        self.turns[label] = len(self.turns)
        if said[0] == "release":
            self.freed[said[1]] = time
        if said[0] in ("save", "save!") and said[-1] in self.judge.pipes:
            self.saves[label] = (said[1], said[2])

    def writes(self, name: str, path: str, record: Record, names: set[int]) -> None:
        """A store's file is changed."""
        if not names:
            return
        self.begins_where_it_ended(name, path)
        to, label = self.stored_to.get(name, (0, ""))
        size = layout.HEAD + SIZE
        for at in range(0, len(record.data), size) if to else ():
            _, _, _, moment, *_ = layout.SLOT_HEAD.unpack_from(record.data, at)
            if moment - EPOCH <= to and "times_from" not in self.judge.cameras[name].words:
                self.says(f"a frame of {name}, which came at {moment - EPOCH}, is stored at"
                          f" {record.time}, after the keep @{label} was answered")

    def begins_where_it_ended(self, name: str, path: str) -> None:
        """At the start the store with the newest frame is opened, and recording begins there."""
        newest = self.newest.pop(name, None)
        if newest and path != newest and not self.lived.life.is_faulty and \
                name not in self.judge.moved and not self.judge.single(name) and \
                not self.judge.told.has_told("not_in_order", name):
            self.says(f"{newest} has the newest frame of {name}, and {path} gets the next one")

    # -------------------------------------------------------------------------------------------
    # what is told

    def reads(self, said: dict, time: int) -> None:
        """A line came."""
        if said["kind"] in ("store_absent", "one_absent", "store_open"):
            self.seen[said["camera"]] = time
            self.failed.pop(said["camera"], None)
        self.opens_again(time)
        reader = getattr(self, f"reads_{said['kind']}", None)
        if reader:
            reader(said, time)

    def reads_done(self, said: dict, time: int) -> None:
        """An order is answered."""
        label = said["label"]
        words = self.judge.kept.orders[label][1] if label in self.judge.kept.orders else ["?"]
        self.saves.pop(label, None)
        for other, at, it in self.released if "\npause" not in self.lived.life.script else ():
            if other == label and time - at > ENDED:
                self.says(f"{it} released what @{other} reads, which ended at {time}")
        if words[0] in ("keep", "release", "list"):
            self.begun |= {it for it, (name, _) in self.saves.items()
                           if name in words or words[0] == "list"
                           if self.turns[it] < self.turns[label]}
        if words[0] == "keep" and not self.judge.more.memory.is_unsure(label):
            self.waits_for_what_came(label, words)
            self.locks_what_was_stored(label, words)

    def is_whole(self, name: str, lines: list[dict]) -> bool:
        """Whether a keep's answer for a camera says nothing of what it couldn't do."""
        mine = [it for it in lines if it.get("camera") == name]
        return bool(mine) and {it["kind"] for it in mine} <= TOLD and \
            name not in self.judge.moved | self.lived.life.changed

    def waits_for_what_came(self, label: str, words: list[str]) -> None:
        """All frames that came before a keep are stored first."""
        from simulated_judge import moment_of
        given, over = self.judge.given[label], self.judge.kept.over.get(label, 0)
        to = min(given, moment_of(words[5])) if "from" in words and len(words) > 5 else given
        lines = self.judge.answers.get(label, [])
        for name in self.judge.cameras:
            if self.is_whole(name, lines) and over - given < STUCK and \
                    label not in self.judge.kept.joined:
                self.stored_to[name] = max(self.stored_to.get(name, (0, "")), (to, label))

    def locks_what_was_stored(self, label: str, words: list[str]) -> None:
        """A keep locks all held frames of its time, also those of before the start, or says that
        not all stores are open."""
        from simulated_judge import moment_of
        lines, given = self.judge.answers.get(label, []), self.judge.given[label]
        for name, camera in self.judge.cameras.items():
            mine = [it for it in lines if it.get("camera") == name]
            if not self.is_whole(name, lines) or "times_from" in camera.words or \
                    "\npause" in self.lived.life.script or \
                    camera.stores > 1 and self.judge.single(name) or \
                    any(it["kind"] in ("kept", "kept_unread") and "names" not in it
                        for it in mine) or label in self.judge.kept.joined:
                continue
            rest = [it for it in words[1:] if it not in self.judge.cameras]
            seconds = int(rest[0]) if rest and rest[0].isdigit() else int(
                str(camera.words["keep"]))
            since, until = given - seconds * SECOND, given
            if "from" in words:
                since, until = moment_of(words[3]), min(until, moment_of(words[5]))
            have: set[int] = set().union(*(it.get("names", set()) for it in mine))
            lacks = self.held_from(name, since + READ, until) - have
            if lacks:
                self.says(f"a keep hasn't {sorted(lacks)}, which are stored, and doesn't say so:"
                          f" {mine}")

    def held_from(self, name: str, since: int, until: int) -> set[int]:
        """The frames of a time that the stores of a camera hold."""
        found = set()
        for path in self.judge.cameras[name].paths():
            held = self.judge.held(self.judge.present(path))
            slots = self.judge.kept.slots[path]
            if held and path not in self.judge.kept.absent:
                found |= {it for number, it in held.names.items()
                          if number in slots and since <= slots[number][2] <= until}
        return found

    def reads_absent(self, said: dict, time: int) -> None:
        """A stop waits for the orders before it."""
        stopping = self.judge.kept.stopping
        if said["why"] == "Stopped" and said.get("label") in self.before_stop and \
                not self.lived.life.changed and time - stopping < STUCK:
            self.says(f"it came before the stop at {stopping}: {said}")
        self.does_what_was_asked(said, time)
        words = self.judge.kept.orders.get(said.get("label", ""), (0, ["?"]))[1]
        if words[0] in ("save", "save!") and words[2].startswith("#"):
            self.finds_all_open(said, time)

    def does_what_was_asked(self, said: dict, time: int) -> None:
        """A camera that a reload removes ends once what it was asked for is done."""
        label = said.get("label", "")
        given = self.judge.given.get(label, time)
        reloads = [it for it, (_, words) in self.judge.kept.orders.items() if words == ["reload"]
                   and self.turns[it] > self.turns.get(label, len(self.turns))]
        if said["why"] == "Stopped" and reloads and not self.judge.kept.stopping and \
                time - given < STUCK and not self.judge.kept.joined & {label, *reloads}:
            self.says(f"it came before the reload @{reloads[0]}: {said}")

    def finds_all_open(self, said: dict, time: int) -> None:
        """An event is saved where all stores are open, which they are soon after the start, and
        no disk has failed since."""
        name = said["camera"]
        opened = self.judge.opened.get(name, time)
        if self.judge.kept.is_plain(name) and time - opened > AGAIN and said["why"] != "Stopped" \
                and not self.judge.world.strange_files and not self.judge.kept.absent:
            self.says(f"its stores are open since {opened}: {said}")

    def reads_refused(self, said: dict, time: int) -> None:
        """A store whose lock or unlock fails is opened again. An event is found that is there."""
        name, label = said["camera"], said.get("label")
        given, words = self.judge.kept.orders.get(label, (time, ["?"]))
        if said["name"] in ("Disk", "MustReopen") and self.seen.get(name, 0) < given and \
                name not in self.judge.moved and not self.judge.kept.stopping and \
                not self.fails_to_read(time):
            self.failed.setdefault(name, time)
        if said["name"] == "NoSuchClip" and words[0] in ("save", "save!"):
            tag = int(words[2][1:])
            for path, clips in self.judge.kept.tables_at.get(label, {}).items():
                now = self.judge.kept.now[path]
                there = [it for it, clip in clips.items()
                         if clip[2] == tag and now.get(it) == clip]
                if there and name not in self.judge.moved and not self.lived.life.is_faulty:
                    self.says(f"{path} has the clips {there}: {said}")

    def fails_to_read(self, time: int) -> bool:
        """Whether a disk fails to read at a time: then a lock is refused, and no store is wrong."""
        bad = [it.split() for it in self.judge.script if it.startswith("bad ")]
        return any(it[4] == "read" and int(it[1]) <= time <= int(it[2]) + SECOND for it in bad)

    def opens_again(self, time: int) -> None:
        """A store whose lock or unlock failed is told as absent, and opened again."""
        for name, at in list(self.failed.items()):
            if time - at > AGAIN:
                del self.failed[name]
                if not self.judge.kept.stopping and name not in self.judge.moved:
                    self.says(f"a lock of {name} failed at {at}, and its store isn't opened again"
                              f" at {time}")

    def reads_released(self, said: dict, time: int) -> None:
        """No clip is released that a save reads."""
        self.is_in_turn(said)
        name, own, label = said["camera"], said["id"], said.get("label")
        self.freed[name] = time
        versions = self.judge.kept.versions(name, own)
        tags = {it[2] for it in versions}
        for other, (camera, what) in self.saves.items():
            is_before = self.turns[other] < self.turns.get(label, 0) if label else \
                other in self.begun
            is_of = what == str(own) or what[0] == "#" and tags == {int(what[1:])}
            if camera == name and is_before and is_of and name not in self.judge.moved:
                self.released.append((other, time, said))

    def is_in_turn(self, said: dict) -> None:
        """Lines that name a clip come in the order in which a camera does its orders."""
        name, label = said["camera"], said.get("label")
        if label not in self.turns or label in self.judge.kept.joined or \
                name in self.lived.life.changed:
            return
        last = self.named.setdefault(name, label)
        if self.turns[label] < self.turns[last]:
            self.says(f"it comes after a line of @{last}, which was ordered later: {said}")
        else:
            self.named[name] = label

    def reads_kept(self, said: dict, time: int) -> None:
        """A clip of an event is told at its end."""
        self.is_in_turn(said)
        if not said.get("label"):
            self.parts.setdefault((said["event"], said["camera"]), []).append(said)

    def reads_kept_unread(self, said: dict, time: int) -> None:
        """So is one whose times can't be read."""
        self.reads_kept(said, time)

    def reads_event_whole(self, said: dict, time: int) -> None:
        """An event is over."""
        self.tells_its_clips(said, time)

    def reads_event_not_whole(self, said: dict, time: int) -> None:
        """An event is over, and says why it isn't whole."""
        self.tells_its_clips(said, time)
        name, camera = said["camera"], self.judge.cameras[said["camera"]]
        since, until = self.judge.spans.get(said["event"], (0, 0))
        if said["why"] != "Gaps" or not self.judge.kept.is_plain(name) or \
                "times_from" in camera.words or name in self.judge.late | self.judge.gave_up:
            return
        # Where room came just now, for a part of what waits, an event isn't told as refused.
        if min(self.judge.room_at.get(name, 0), self.judge.stored_at.get(name, 0)) > time - ENDED:
            return
        held = [self.judge.held(self.judge.present(it)) for it in camera.paths()]
        stored = {it for one in held if one for it in one.names.values()}
        waits = [it for at, it in self.judge.here[name] if since <= at <= until - READ
                 and it > max(stored, default=-1)]
        if waits and all(held) and not any(it.has_room() for it in held if it):
            self.says(f"{waits} wait, since every block is locked: {said}")

    def tells_its_clips(self, said: dict, time: int) -> None:
        """At its end an event tells its clips, each once, and all that is held of its time."""
        name, event = said["camera"], said["event"]
        parts = self.parts.pop((event, name), [])
        if len({it["id"] for it in parts}) < len(parts):
            self.says(f"a clip of an event is told twice: {parts}")
        to = self.judge.spans.get(event, (0, 0))[1]
        # An event that ended while the station was down is over before its stores are open.
        is_open = event in self.judge.kept.here or to > self.lived.life.begins + AGAIN
        if name in self.judge.moved or not is_open:
            return
        if said.get("why", "Gaps") == "Gaps" and not self.lived.life.is_faulty:
            self.locks_its_frames(name, event, parts, said)
        # Passed over: an event that ends while several stores are opened again after a failure is
        # told without what those have that aren't open yet.
        is_again = self.judge.cameras[name].stores > 1 and time - self.seen.get(name, 0) < AGAIN
        is_known = event in self.judge.kept.here or not self.lived.life.is_slow
        # Where memory was refused meanwhile a clip may not be named.
        is_known = is_known and not self.judge.more.memory.lacked(0, time)
        if is_known and not is_again and said.get("why") != "TooManyEvents":
            self.knows_its_clips(name, event, parts)

    def locks_its_frames(self, name: str, event: int, parts: list[dict], said: dict) -> None:
        """All frames of an event's time that are held are locked."""
        since, until = self.judge.spans.get(event, (0, 0))
        words = self.judge.cameras[name].words
        known = max(event - EPOCH - READ, self.lived.life.begins)
        is_freed = self.freed.get(name, 0) > known or words["when_full"] != "stop"
        if is_freed or words.get("release") or any("names" not in it for it in parts) or \
                self.judge.single(name) and self.judge.cameras[name].stores > 1:
            return
        have: set[int] = set().union(*(it["names"] for it in parts))
        # A line's times are in milliseconds, the event's own in microseconds.
        lacks = self.held_from(name, since + 1_000, until - READ) - have
        if lacks:
            self.says(f"an event hasn't {sorted(lacks)}, which are stored: {said}, {parts}")

    def is_calm(self, time: int) -> bool:
        """Whether the disk has worked for some time, and memory was there."""
        rules = [it.split() for it in self.judge.script
                 if it.startswith(("bad ", "slow ", "refuse "))]
        return all(int(it[2]) < time - AGAIN for it in rules)

    def knows_its_clips(self, name: str, event: int, parts: list[dict]) -> None:
        """Each clip of an event is told at its end, also those of a store that failed and was
        opened again."""
        camera = self.judge.cameras[name]
        for at, path in enumerate(camera.paths()):
            told = {it["id"] % 64 for it in parts if it["id"] // 64 == at}
            left = [own for own, clip in self.judge.kept.now[path].items()
                    if clip[2] == event and own not in told]
            if left and path not in self.judge.kept.absent:
                self.says(f"{path} has the clips {left} of the event {event}, which aren't told at"
                          f" its end: {parts}")

    def reads_status(self, said: dict, time: int) -> None:
        """Where all is locked, what came and isn't stored waits at the desk."""
        name = said["camera"]
        camera = self.judge.cameras[name]
        if camera.stores > 1 or not self.judge.kept.is_plain(name) or \
                not self.judge.told.locked.get(name) or name in self.judge.late or \
                self.judge.cuts.get(name):
            return
        held = self.judge.held(self.judge.present(camera.paths()[0]))
        came = [it for at, it in self.judge.here[name] if at < time - SECOND]
        behind = len(came) - (said["stored"] - self.judge.begin_next[name]) - said["given_up"]
        if held and not held.has_room() and said["waiting"] < min(behind, DESK):
            self.says(f"{behind} frames wait: {said}")

    # -------------------------------------------------------------------------------------------
    # the end

    def ends(self, lived: Lived) -> None:
        """A life has ended."""
        end = lived.end()
        self.opens_again(end)
        for other, at, said in self.released if "\npause" not in lived.life.script else ():
            if other in self.saves and end - at > ENDED:
                self.says(f"{said} released what @{other} reads")
