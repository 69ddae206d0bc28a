"""What the judge of tests/simulate asks of a start, of a camera's end, of saves that begin by
themselves, and of frames that a failing disk costs. Each question is a method whose name docs and
tests use."""
from __future__ import annotations

from typing import TYPE_CHECKING

import layout
from simulated_world import SECOND

if TYPE_CHECKING:
    from simulated_judge import Judge
    from simulated_run import Lived

# So long after a disk failed, or memory was refused, all that came is stored or told as lost.
WELL = 6 * SECOND
# Within so much time a frame is stored, where the disk works.
STORED = 2 * SECOND
# Within so much time what ended with its camera is told.
ENDED = SECOND


class Last:
    """The questions."""

    def __init__(self, judge: Judge) -> None:
        self.judge = judge

    def begins(self, lived: Lived) -> None:
        """A life begins."""
        self.lived = lived
        # The saves that are to be over, and since when.
        self.must_end: dict[str, int] = {}
        # The clips that wait to be saved by themselves, and those whose save has ended so.
        self.waits: set[tuple[str, int]] = set()
        self.ended: dict[tuple[str, int], dict] = {}

    # -------------------------------------------------------------------------------------------
    # a start

    def opens_in_turn(self, lived: Lived) -> None:
        """At the start the store with the newest frame is opened first, then those with a free
        segment, then the one with the oldest block."""
        life = lived.life
        if life.is_faulty or life.changed or "\nmove" in life.script:
            return
        paths = {it.number: it.data.decode() for it in reversed(lived.records) if it.kind in "CX"}
        for name, camera in self.judge.cameras.items():
            turn: list[str] = []
            for it in lived.reads:
                path = paths.get(it.number)
                # The table of clips is read as a store is opened, and no sooner.
                if path in camera.paths() and it.place == layout.SUPER and path not in turn:
                    turn.append(path)
            if len(turn) > 2 and not self.judge.told.has_told("not_in_order", name):
                self.is_the_turn(name, turn, lived)

    def is_the_turn(self, name: str, turn: list[str], lived: Lived) -> None:
        """Whether stores may be opened in this order."""
        before: tuple[int, int] = (0, -1)
        for path in turn[1:]:
            held = self.judge.held(lived.before.get(path))
            slots = self.judge.kept.slots_in(lived.before.get(path))
            if held is None or not held.names:
                continue
            is_free = len(held.blocks) < held.geometry.segments
            rank = (0, -1) if is_free else (1, min(it[1] for it in slots.values()))
            if rank < before:
                self.judge.says(f"the stores of {name} are opened in the order {turn}, and {path}"
                                f" is to come sooner: {rank}, {before}")
            before = max(before, rank)

    # -------------------------------------------------------------------------------------------
    # what is told

    def reads(self, said: dict, time: int) -> None:
        """A line came."""
        self.overdue(time)
        if said["kind"] == "status":
            self.counts_each_once(said, time)
            self.nothing_waits(said, time)
        if said["kind"] == "done":
            self.must_end.pop(said["label"], None)
            self.ends_its_saves(said["label"], time)
        if said["kind"] == "source_unusable":
            self.has_a_header(said)
        if "id" in said and "camera" in said:
            self.saves_once(said, time)

    def counts_each_once(self, said: dict, time: int) -> None:
        """A frame that came is stored, waits or is lost, and is counted once, also where a disk
        fails."""
        name = said["camera"]
        known = said["stored"] - self.judge.begin_next[name] + said["given_up"] + said["waiting"]
        came = len(self.judge.here[name])
        if known > came and name not in self.judge.moved | self.judge.late and \
                not self.judge.cameras[name].is_pattern():
            self.judge.says(f"{came} frames came, and {known} are counted: {said}")

    def nothing_waits(self, said: dict, time: int) -> None:
        """What came some time ago waits no more, where there is room, also after a disk has
        failed: it is stored, or told as lost."""
        name = said["camera"]
        kept = self.judge.kept
        known = said["stored"] - self.judge.begin_next[name] + said["given_up"]
        came = [it for at, it in self.judge.to_store(name) if at < time - STORED]
        since = max(self.judge.opened.get(name, time), self.judge.room_at.get(name, 0),
                    kept.script_pause(), *kept.lost_at.get(name, ()),
                    *kept.opened_again.get(name, ()))
        is_fast = all(int(it.split()[2]) < 10_000 for it in self.judge.script
                      if it.startswith("sync "))
        if known < len(came) and said["waiting"] and is_fast and self.is_well(time) and \
                said["room"] > 0 and time - since > WELL and "\nreads " not in \
                self.lived.life.script and not self.judge.told.locked.get(name) and \
                name not in self.judge.moved | self.judge.late | self.judge.broken and \
                not self.judge.cuts.get(name) and not self.judge.cameras[name].is_pattern():
            self.judge.says(f"{len(came)} frames came until {time - STORED}, and {known} are"
                            f" stored or lost: {said}")

    def is_well(self, time: int) -> bool:
        """Whether all has worked for some time."""
        rules = [it.split() for it in self.judge.script
                 if it.startswith(("bad ", "slow ", "refuse "))]
        return all(int(it[2]) < time - WELL for it in rules)

    def has_a_header(self, said: dict) -> None:
        """A source whose writer gave a header, and goes on, isn't told as unusable."""
        name = said["camera"]
        closes = [it for it in self.judge.script
                  if it.startswith(("close ", "part ")) and it.split()[2] ==
                  str(self.judge.cameras[name].pipe)]
        if name not in self.judge.late | self.judge.moved and not closes and \
                not self.judge.broken and said["why"] == "NotY4m":
            self.judge.says(f"its writer gave a header, and goes on: {said}")

    # -------------------------------------------------------------------------------------------
    # the end of a camera

    def ends_its_saves(self, label: str, time: int) -> None:
        """The saves of a camera that a reload ends are over then, and answered."""
        kept, asked = self.judge.kept, self.judge.asked
        if kept.orders.get(label, (0, []))[1] != ["reload"] or label in kept.joined:
            return
        names = {it["camera"] for it in self.judge.answers.get(label, ())
                 if it["kind"] == "camera_ended"}
        for other, (_, words) in kept.orders.items():
            if words[0] in ("save", "save!") and words[1] in names and other not in kept.over and \
                    asked.turns[other] < asked.turns[label] and other not in kept.joined:
                self.must_end[other] = time

    def overdue(self, time: int) -> None:
        """What was to be over is over."""
        for label, at in list(self.must_end.items()):
            if time - at > ENDED and not self.judge.more.memory.refused:
                del self.must_end[label]
                self.judge.says(f"its camera ended until {at}, and the save @{label} isn't over at"
                                f" {time}")

    # -------------------------------------------------------------------------------------------
    # saves that begin by themselves

    def saves_once(self, said: dict, time: int) -> None:
        """A save that begins by itself waits once, ends once, and isn't of an event that goes
        on."""
        which, kind = (said["camera"], said["id"]), said["kind"]
        if said.get("label"):
            if kind in ("kept", "released"):
                self.waits.discard(which)
                self.ended.pop(which, None)
            return
        if kind == "save_waits" and which in self.waits:
            self.judge.says(f"it waits already: {said}")
        if kind in ("saved", "not_saved") and which in self.ended and \
                self.ended[which].get("why") == "Cancelled":
            self.judge.says(f"it was told as {self.ended[which]}: {said}")
        if kind in ("saved", "not_saved", "released", "kept"):
            self.waits.discard(which)
            self.ended.pop(which, None)
        if kind == "save_waits":
            self.waits.add(which)
        if kind == "not_saved":
            self.ended[which] = said
        if kind in ("saved", "save_waits"):
            self.is_over(said, time)

    def is_over(self, said: dict, time: int) -> None:
        """The clips of an event are saved once it is over, also where it goes on after a start."""
        name = said["camera"]
        tags = {it[2] for it in self.judge.kept.versions(name, said["id"])}
        for event, (meant, over) in self.judge.events.items():
            is_open = name in meant - over and event not in self.judge.unsure and \
                (event in self.judge.pending or event in self.judge.kept.here)
            # What an order of several cameras doesn't say, each of them has for itself.
            ahead = [it for it in meant if "after" in self.judge.cameras[it].words]
            if is_open and tags == {event} and name not in self.judge.moved and \
                    (name in ahead or not ahead) and not self.judge.more.memory.refused:
                self.judge.says(f"the event {event} goes on: {said}")

    # -------------------------------------------------------------------------------------------
    # the end

    def ends(self, lived: Lived) -> None:
        """A life has ended."""
        self.overdue(lived.end())
        self.opens_in_turn(lived)
