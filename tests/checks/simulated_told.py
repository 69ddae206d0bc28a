"""What the judge of tests/simulate asks of lines: that what happens is told, soon, once, and with
the same words everywhere. Each question is a method whose name docs and tests use, and takes what
happens as the judge reads it."""
from __future__ import annotations

import re
from typing import TYPE_CHECKING

from simulated_disk import Record
from simulated_world import EPOCH, SECOND

if TYPE_CHECKING:
    from simulated_judge import Judge
    from simulated_run import Lived

# Within so much time what happens is told: it is looked at ten times a second.
TOLD = SECOND
# So short a time may pass between two looks, with what they wait for.
LOOKED = SECOND // 5
# So long nothing comes before a source is silent, and a writer is gone before that is told.
SILENT, GONE = 2 * SECOND, SECOND // 2
# A line of the output: its time, and its label.
LINE = re.compile(rb"(\S+Z) (?:@(\S+) )?")


class Told:
    """The questions, with what was told in a life up to now."""

    def __init__(self, judge: Judge) -> None:
        self.judge = judge

    def begins(self, lived: Lived) -> None:
        """A life begins."""
        self.kinds: dict[tuple[str, str], list[int]] = {}
        self.paths: dict[tuple[str, str], list[int]] = {}
        self.due: list[tuple[int, str, str, str]] = []
        self.last_frame: dict[str, int] = {}
        self.first_frame: dict[str, int] = {}
        # Since when the source is there that is to be told as on.
        self.began: dict[str, int] = {}
        self.last_stored: dict[str, int] = {}
        # The cameras of which a frame was stored.
        self.stored: set[str] = set()
        self.closed: dict[str, int] = {}
        self.given_up: dict[str, int] = {}
        self.locked: dict[str, bool] = {}
        self.runs: dict[str, tuple[int, int]] = {}
        self.numbers: dict[int, str] = {}
        self.stopping = 0
        self.script = [line.split() for line in lived.life.script.split("\n") if line]
        self.events_of_computer(lived)

    def says(self, what: str) -> None:
        """Something is wrong."""
        self.judge.says(what)

    def is_plain(self, name: str) -> bool:
        """Whether nothing keeps a camera from telling what happens: its disk works and is fast, it
        was neither moved nor read anew, and its memory isn't full."""
        life = self.judge.lived.life
        return not (life.is_slow or life.is_faulty or name in self.judge.moved or self.pauses
                    or self.has_told("all_locked", name) or self.has_told("waited", name))

    def has_told(self, kind: str, name: str) -> bool:
        """Whether a line of a kind was told of a camera in this life."""
        return (kind, name) in self.kinds

    def told_last(self, kind: str, name: str) -> int:
        """When a line of a kind was told of a camera last."""
        return self.kinds.get((kind, name), [-1])[-1]

    def wants(self, kind: str, name: str, since: int, until: int) -> None:
        """A line of a kind is to be told of a camera in this time."""
        self.due.append((until, kind, name, f"{kind} of {name} since {since}"))

    # -------------------------------------------------------------------------------------------
    # what happens

    def events_of_computer(self, lived: Lived) -> None:
        """That the program stood still, and that the computer's clock was set, is told."""
        self.pauses = pauses = [it for it in self.script if it[0] == "pause"]
        for _, at, micros in pauses:
            if int(at) > lived.life.begins + SECOND and int(micros) > 1_500_000:
                self.wants("stood_still", "", int(at), int(at) + int(micros) + TOLD)
        clocks = [it for it in self.script if it[0] == "clock"]
        for _, at, micros in clocks if not pauses and len(clocks) == 1 else ():
            if int(at) > lived.life.begins + 2 * SECOND:
                self.wants("system_clock_steps", "", int(at), int(at) + 2 * SECOND)

    def comes(self, name: str, words: list[str], time: int, kind: str) -> None:
        """A frame came, or a writer ended: what a source does is told."""
        if words[0] == "order" and words[3:] == ["stop"]:
            self.stopping = time
        if not name or name in self.judge.late:
            return
        if kind == "D":
            self.nobody_read(name, words, time)
        self.source_rests(name, time)
        if kind == "P" and words[0] == "frame":
            self.first_frame.setdefault(name, time)
            if name not in self.began:
                self.began[name] = time
                is_on = self.told_last("source_on", name) > self.told_last("source_missing", name)
                if self.is_plain(name) and not is_on:
                    self.wants("source_on", name, time, time + TOLD)
        if kind == "P":
            self.last_frame[name] = time
            self.closed.pop(name, None)
        if kind == "Q" and name in self.last_frame:
            self.closed[name] = time
        due = [it for it in self.due if it[1:3] == ("source_on", name)]
        if kind == "Q" and due and time - self.began[name] < LOOKED:
            # It was there between two looks, and needn't be told: the next writer is.
            del self.began[name]
            self.due.remove(due[0])

    def nobody_read(self, name: str, words: list[str], time: int) -> None:
        """A pipe stays open when its writer has left, so no frame of the next writer is lost."""
        if words[0] == "frame" and name in self.first_frame and not self.stopping \
                and name not in self.judge.moved and not self.judge.lived.life.is_faulty:
            self.says(f"nobody read a frame of {name} at {time}")

    def source_rests(self, name: str, time: int) -> None:
        """A source that is silent or ends is told so."""
        last, closed = self.last_frame.get(name), self.closed.get(name)
        if last is None or not self.is_plain(name) or self.stopping or name not in self.began:
            return
        if closed is not None and time - closed > GONE and not self.is_missing(name, closed):
            self.was_told("source_missing", name, closed, closed + GONE)
        elif closed is None and time - last > SILENT + TOLD + 200_000:
            self.was_told("source_silent", name, last, last + SILENT + TOLD + 200_000)

    def is_missing(self, name: str, time: int) -> bool:
        """Whether a source was told as missing last, before a time: who came since then wrote no
        whole frame."""
        told = [max((it for it in self.kinds.get((kind, name), ()) if it <= time), default=-1)
                for kind in ("source_on", "source_missing")]
        return told[1] > told[0]

    def was_told(self, kind: str, name: str, since: int, until: int) -> None:
        """Whether a line of a kind was told in a time."""
        if not any(since <= at <= until for at in self.kinds.get((kind, name), ())):
            self.says(f"no {kind} of {name} between {since} and {until}")

    def writes(self, name: str, path: str, record: Record, names: set[int]) -> None:
        """Frames are stored: the store was told as open, and after all was locked, that there is
        room again."""
        if not names:
            return
        time = record.time
        self.last_stored[name] = time
        life = self.judge.lived.life
        if life.is_slow or name in self.judge.moved:
            return
        if name not in self.judge.opened:
            self.wants("store_open", name, time, time + TOLD)
        if name not in self.stored and not life.is_faulty and not self.has_told("syncs", name):
            self.wants("syncs", name, time, time + 2 * TOLD)
        self.stored.add(name)
        self.goes_on(name, path, time)

    def goes_on(self, name: str, path: str, time: int) -> None:
        """Where frames are stored again after all was locked, that is told: not what lasts for less
        than a tenth of a second."""
        if not self.locked.get(name) or self.stopping:
            self.runs.pop(name, None)
            return
        since, last = self.runs.get(name, (time, time))
        if time - last > 300_000:
            since = time
        self.runs[name] = (since, time)
        if time - since > 3 * TOLD:
            self.says(f"frames of {name} are stored since {since}, and it isn't told that there is"
                      f" room again at {time}")

    # -------------------------------------------------------------------------------------------
    # what is told

    def reads(self, said: dict, time: int) -> None:
        """A line came."""
        kind, name = said["kind"], said.get("camera", "")
        self.overdue(time)
        self.kinds.setdefault((kind, name), []).append(time)
        if "path" in said:
            self.paths.setdefault((kind, said["path"]), []).append(time)
        self.due = [it for it in self.due if it[1:3] != (kind, name)]
        if kind == "given_up":
            self.given_up[name] = self.given_up.get(name, 0) + said["frames"]
        if kind in ("all_locked", "room_again"):
            self.locked[name] = kind == "all_locked"
        if kind == "syncs":
            self.too_slow(said, time)
        if kind == "status":
            self.tells_given_up(said, time)
        self.one_number(said)
        self.once(said)
        self.only_changed(said)

    def overdue(self, time: int) -> None:
        """What was to be told by now was told."""
        late = [it for it in self.due if it[0] < time]
        # Where memory is refused a line may be missing.
        for _, kind, _, what in late if not self.stopping and not self.judge.more.memory.refused \
                else ():
            if kind == "stood_still" or not self.pauses:
                self.says(f"not told: {what}")
        self.due = [it for it in self.due if it[0] >= time]

    def too_slow(self, said: dict, time: int) -> None:
        """A disk that is too slow is told so: a block costs two syncs a flush, and three more."""
        camera = self.judge.cameras[said["camera"]]
        held = [self.judge.held(self.judge.present(it)) for it in camera.paths()]
        # A store that the station made has its own blocks.
        slots = max((it.geometry.slots for it in held if it), default=camera.slots)
        flushes = -(-slots // 64)
        cost = max(said["micros"], 1) * (2 * flushes + 3)
        may, rate = slots * SECOND / cost, SECOND / camera.period
        if rate > 2 * may:
            self.wants("too_slow", said["camera"], time, time + TOLD // 2)

    def tells_given_up(self, said: dict, time: int) -> None:
        """Frames that were given up are told, once a second at most."""
        name = said["camera"]
        if name not in self.judge.moved and self.given_up.get(name, 0) > said["given_up"]:
            self.says(f"more frames are told as given up than there are: {said}")
        if name not in self.judge.moved and said["given_up"] > self.given_up.get(name, 0):
            self.wants("given_up", name, time, time + 2 * TOLD)

    def one_number(self, said: dict) -> None:
        """The number of an event is its own: the time at which its line was read."""
        if said.get("label") and "event" in said:
            given = self.judge.given.get(said["label"], 0)
            if said["event"] - EPOCH < given - 1000:
                self.says(f"the order came at {given}: {said}")
            if self.numbers.setdefault(said["event"], said["label"]) != said["label"]:
                self.says(f"two orders have one event: {said}")

    def once(self, said: dict) -> None:
        """What is wrong with a file is told once."""
        told = self.paths.get((said["kind"], said.get("path", "")), [])
        if said["kind"] in ("one_absent", "not_a_store", "store_missing", "old_layout") \
                and len(told) > 1 and not self.judge.lived.life.is_faulty \
                and said["camera"] not in self.judge.moved:
            self.says(f"told again: {said}")

    def only_changed(self, said: dict) -> None:
        """A reload changes the cameras alone whose words are others."""
        if said["kind"] in ("camera_ended", "camera_started") and \
                said["camera"] not in self.judge.lived.life.changed:
            self.says(f"its words are the same: {said}")

    # -------------------------------------------------------------------------------------------
    # the end

    def ends(self, lived: Lived, lines: list) -> None:
        """A life has ended."""
        end = lived.end()
        self.overdue(end - SECOND)
        for name in self.last_frame:
            self.source_rests(name, end if not self.stopping else 0)
        self.old_layouts(lived)
        self.same_times(lived, lines)
        self.answers_are_there(lived)
        self.all_locked(lived)

    def old_layouts(self, lived: Lived) -> None:
        """A store of layout 1 is told at the start, with the command that upgrades it."""
        for camera in self.judge.cameras.values():
            at = self.judge.opened.get(camera.name)
            if at is None or lived.end() - at < 5 * SECOND or not self.is_plain(camera.name):
                continue
            for path in set(camera.paths()) & self.judge.world.old & set(lived.before):
                if ("old_layout", path) not in self.paths:
                    self.says(f"{path} has layout 1, and that isn't told")

    def same_times(self, lived: Lived, lines: list) -> None:
        """A line has one time and one label, in the output and in answers."""
        text = b"".join(it.data for it in lived.records if it.kind == "O" and it.number == 1)
        told = {(it[1], it[2] or b"") for it in map(LINE.match, text.split(b"\n")) if it}
        last = max((it[0] for it in told), default=b"")
        for _, _, said in lines if not self.judge.more.memory.refused else ():
            time = (said.get("time") or "").encode()
            if time < last and (time, (said.get("label") or "").encode()) not in told:
                self.says(f"the output has no line of this time and label: {said}")
                break

    def reads_all(self, lived: Lived, lines: list) -> None:
        """Who reads a pipe of answers, or comes next, gets each line, where none is told as
        dropped."""
        text = b"".join(it.data for it in lived.records if it.kind == "O" and it.number == 1)
        there = {((said.get("time") or "").encode(), (said.get("label") or "").encode())
                 for _, _, said in lines}
        last = max((it[0] for it in there), default=b"")
        for it in filter(None, map(LINE.match, text.split(b"\n"))):
            if it[1] < last and (it[1], it[2] or b"") not in there:
                self.says(f"nobody gets a line of {it[0].decode()}, and that isn't told")
                break

    def answers_are_there(self, lived: Lived) -> None:
        """A file of answers that was moved away is made anew with the next line."""
        moves = [int(it[1]) for it in self.script if it[0] == "move" and it[2] == "answers"]
        later = [it.time for it in lived.records if it.kind == "A" and moves
                 and it.time > max(moves)]
        if later and not lived.has_answers:
            self.says(f"answers was moved at {max(moves)}, and isn't made anew")

    def all_locked(self, lived: Lived) -> None:
        """Where frames wait since every block is locked, that is told."""
        files, end = self.judge.disk.present(), lived.end()
        for name, camera in self.judge.cameras.items():
            came = [it for at, it in self.judge.here[name] if at < end - 3 * SECOND]
            since = max(self.judge.opened.get(name, end), self.judge.room_at.get(name, 0))
            if not came or end - since < 5 * SECOND or lived.life.is_slow or self.stopping or \
                    name in self.judge.moved or name in self.judge.late:
                continue
            held = [self.judge.held(files.get(it)) for it in camera.paths()]
            if not all(held) or any(it.has_room() for it in held):
                continue
            newest = max((max(it.names.values()) for it in held if it.names), default=-1)
            if newest < came[-1] and not self.locked.get(name):
                self.says(f"every block of {name} is locked, and that isn't told")
