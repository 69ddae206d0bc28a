"""What the judge of tests/simulate asks of three kinds of worlds: where memory is refused, where
clips are saved into a pipe that somebody reads, and where a camera's source is the pattern. Each
question is a method whose name docs and tests use."""
from __future__ import annotations

from typing import TYPE_CHECKING

import layout
from simulated_disk import Record
from simulated_world import EPOCH, SECOND, SIZE, Camera

if TYPE_CHECKING:
    from simulated_judge import Judge
    from simulated_run import Lived

SOON = 5 * SECOND
# So much later than it came a frame may have been read.
READ = 300_000
# So long after memory was refused last all works as before.
WELL = 3 * SECOND
# Within so much time a store is opened again that had no memory.
AGAIN = 5 * SECOND
# So many frames of the pattern have one look.
LOOKS = 256


def number_of(pixels: bytes) -> int | None:
    """The number of a frame of the pattern, as far as its pixels say it; None of other frames."""
    first = pixels[0]
    return first if pixels == bytes((first + it) % LOOKS for it in range(SIZE)) else None


class Memory:
    """The questions where memory is refused: what was told is so, and all works once there is
    memory again. Lines may be missing meanwhile."""

    def __init__(self, judge: Judge) -> None:
        self.judge = judge

    def begins(self, lived: Lived) -> None:
        """A life begins."""
        self.lived = lived
        self.refused = [it.time for it in lived.records if it.kind == "Z"]
        first = next((time for _, time, _ in self.judge.lines_of), lived.end())
        # Memory was refused before anything was told: then the station may end at once.
        self.at_start = any(it <= first + SECOND // 10 for it in self.refused)

    def lacked(self, since: int, until: int) -> bool:
        """Whether memory was refused in a time."""
        return any(since <= it <= until for it in self.refused)

    def is_unsure(self, label: str) -> bool:
        """Whether memory was refused while an order was answered, so that lines may be missing."""
        given = self.judge.given.get(label, 0)
        over = self.judge.done.get(label, given + SECOND)
        return self.lacked(given - SECOND, max(over, given + SECOND))

    def is_well(self, time: int) -> bool:
        """Whether memory was refused in this life, and has been there for some time."""
        return bool(self.refused) and self.refused[-1] < time - WELL

    def only_where_refused(self, said: dict, time: int) -> None:
        """That memory is refused is told only where it was."""
        if "NoMemory" in (said.get("why"), said.get("name")) and not self.lacked(0, time):
            self.judge.says(f"no memory was refused: {said}")

    def goes_on(self, lived: Lived) -> None:
        """Frames that came once there was memory again are stored."""
        end = lived.end()
        if not self.is_well(end) or "\nslow " in lived.life.script:
            return
        files = self.judge.disk.present()
        for name, camera in self.judge.cameras.items():
            came = [it for at, it in self.judge.here[name]
                    if self.refused[-1] + WELL < at < end - 3 * SECOND]
            held = [self.judge.held(files.get(it)) for it in camera.paths()]
            newest = max((max(it.names.values()) for it in held if it and it.names), default=-1)
            if came and newest < came[-1] and any(it is None or it.has_room() for it in held):
                self.judge.says(f"memory was refused until {self.refused[-1]}, and of {name} frame"
                                f" {came[-1]} isn't stored at {end}, but {newest}")

    def goes_on_with_events(self, lived: Lived) -> None:
        """An event that was answered goes on after a start that lacked memory: that is told, or
        what comes is locked."""
        for event, (meant, over) in self.judge.pending.items() if self.refused else ():
            until = min(self.judge.spans[event][1], lived.end()) - 2 * SECOND
            for name in meant - over - self.judge.moved if event not in self.judge.begun else ():
                opened = self.judge.opened.get(name, lived.end())
                tag = self.judge.kept.tags.get((event, name), event)
                ends = [self.judge.kept.begun_of(path, last)
                        for path in self.judge.cameras[name].paths()
                        for _, _, last, its in self.judge.table(path) if its == tag]
                came = [at for at, _ in self.judge.here[name] if opened < at < until - SECOND]
                if came and max(ends, default=0) < came[0] and opened + SOON < until and \
                        not self.judge.told.has_told("all_locked", name):
                    self.judge.says(f"event {event} of {name} doesn't go on after a start without"
                                    f" memory: it is locked up to {ends}")

    def answers(self, lived: Lived) -> None:
        """An order that comes once there is memory again is answered."""
        for label, at in self.judge.given.items():
            if self.is_well(at) and not self.lacked(at, lived.end()) and \
                    lived.end() - at > SOON and label not in self.judge.done:
                self.judge.says(f"memory was refused until {self.refused[-1]}, and @{label} is"
                                f" given at {at}, and not answered at {lived.end()}")

    def keeps(self, label: str) -> None:
        """A keep that comes once there is memory again has all frames that came since then."""
        given, lines = self.judge.given[label], self.judge.answers.get(label, [])
        words = self.judge.kept.orders[label][1] if label in self.judge.kept.orders else ["?"]
        if not self.is_well(given - SECOND) or words[0] != "keep" or "\nslow " in \
                self.lived.life.script:
            return
        for name in self.judge.cameras:
            mine = [it for it in lines if it.get("camera") == name]
            since = max(self.refused[-1] + WELL, given - int(words[2]) * SECOND) \
                if len(words) > 2 and words[2].isdigit() else given
            came = {it for at, it in self.judge.here[name] if since + READ < at < given - READ}
            have: set[int] = set().union(*(it.get("names", set()) for it in mine))
            is_short = any(it["kind"] in ("refused", "held") for it in mine)
            if mine and came - have and not is_short:
                self.judge.says(f"a keep, given at {given}, hasn't {sorted(came - have)}, and"
                                f" memory was refused until {self.refused[-1]}: {mine}")

    def reads_status(self, said: dict, time: int) -> None:
        """Frames are stored, wait, or are told as lost, also those that had no memory: not more
        than came, and, once all is well, not fewer."""
        name = said["camera"]
        came = self.judge.here[name]
        known = said["stored"] - self.judge.begin_next[name] + said["given_up"] + said["waiting"]
        # A pipe that is closed, since there is no memory to read it, loses what it held.
        if not self.refused or name in self.judge.moved | self.judge.late | self.judge.broken or \
                self.judge.cameras[name].is_pattern():
            return
        if known > len(came):
            self.judge.says(f"{len(came)} frames came: {said}")
        if said.get("stores", 1) < said.get("stores_wanted", 1):
            self.opens_all(said, time)
            return
        before = [it for at, it in came if at < time - SECOND]
        waits = self.judge.told.locked.get(name) or self.judge.kept.rooms_at.get(
            said.get("label"), {}).get(name, (0, 0))[0] == 0
        if self.is_well(time) and known < len(before) and not self.judge.cuts.get(name) and \
                not waits and not self.lost_a_stream(name) and \
                "\nslow " not in self.lived.life.script:
            self.judge.says(f"{len(before)} frames came until a second before {time}, and memory"
                            f" was refused until {self.refused[-1]}: {said}")

    def opens_all(self, said: dict, time: int) -> None:
        """A store that had no memory is tried again every second, as any that is absent."""
        refused = self.refused[-1]
        opened = self.judge.opened.get(said["camera"], time)
        if time - max(refused, opened) > AGAIN and not self.judge.single(said["camera"]) and \
                said["camera"] not in self.judge.moved and "\nslow " not in \
                self.lived.life.script:
            self.judge.says(f"memory was refused until {refused}, and not all stores are open:"
                            f" {said}")

    def lost_a_stream(self, name: str) -> bool:
        """Whether another writer of a source came while memory was refused: then its frames are
        lost up to the next header."""
        closes = [int(it.split()[1]) for it in self.judge.script if it.startswith("close ")]
        return any(self.lacked(it - SECOND, it + SECOND) for it in closes)


class Pipes:
    """The questions of a save into a pipe that somebody reads."""

    def __init__(self, judge: Judge) -> None:
        self.judge = judge

    def begins(self, lived: Lived) -> None:
        """A life begins."""
        self.sinks = self.judge.world.sinks
        # Of each pipe the texts that are written into it, by the descriptor: the newest one last.
        self.texts: dict[str, list[tuple[int, bytearray]]] = {it: [] for it in self.sinks}
        self.taken: dict[str, list[tuple[int, int, int]]] = {it: [] for it in self.sinks}
        for words in (it.split() for it in self.judge.script if it.startswith("taker ")):
            self.taken[words[3]].append((int(words[1]), int(words[2]), int(words[4])))
        # When something was written into each pipe last, and what was told of its saves.
        self.wrote: dict[str, int] = {}
        self.cancelled: list[tuple[str, int]] = []

    def takes(self, record: Record) -> None:
        """A pipe is opened to be written, or written."""
        path = self.sinks[record.number]
        if record.kind == "I":
            self.texts[path].append((record.place, bytearray()))
        for fd, text in reversed(self.texts[path]) if record.kind == "Y" else ():
            if fd == record.place:
                text += record.data
                break
        if record.data:
            self.wrote[path] = record.time

    def is_whole(self, said: dict) -> None:
        """A save into a pipe is told as saved once the whole text of a clip is written."""
        from simulated_judge import Wrong, names_in_text
        path, name, label = said["path"], said["camera"], said.get("label")
        words = self.judge.kept.orders[label][1] if label in self.judge.kept.orders else ["?"]
        wrong = [f"no text is written into {path}"]
        for _, text in self.texts[path]:
            try:
                names = names_in_text(bytes(text))
            except Wrong as why:
                wrong.append(str(why))
                continue
            if len(names) != said["frames"]:
                wrong.append(f"{len(names)} frames are written into {path}")
            elif words[2:3] == [f"#{words[2][1:]}"] or self.has_clip(name, said["id"], names):
                return
            else:
                wrong.append(f"no clip has what is written into {path}")
        self.judge.says(f"{wrong[-1]}: {said}")

    def has_clip(self, name: str, own: int, names: list[int]) -> bool:
        """Whether a clip of this id had these frames."""
        self.judge.sees_tables()
        kept, store = self.judge.kept, self.judge.cameras[name].paths()[own // 64]
        return name in self.judge.moved or any(
            kept.names(store, first, last) == names for first, last, _ in kept.versions(name, own))

    def was_left(self, said: dict, time: int) -> None:
        """A save into a pipe fails where nobody reads that any more, and else doesn't."""
        given = self.judge.given.get(said.get("label", ""), time)
        left = [until for _, until, _ in self.taken[said["path"]] if given <= until <= time]
        began = [since for since, _, _ in self.taken[said["path"]] if since <= time]
        if said["why"] == "CannotWrite" and not left and began:
            self.judge.says(f"its reader hasn't left: {said}")
        if said["why"] not in ("CannotWrite", "Cancelled", "Stopped", "NoSuchClip", "NotHeld",
                               "InUse"):
            self.judge.says(f"a pipe is there: {said}")

    def ends_with_its_reader(self, end: int) -> None:
        """A save is over soon after who read its text has left, or has all of it."""
        for label, (given, words) in self.judge.kept.orders.items():
            if words[0] != "save" or words[3] not in self.sinks or label in self.judge.kept.over:
                continue
            fds = self.texts[words[3]]
            written = len(fds[-1][1]) if fds else 0
            left = [until for since, until, _ in self.taken[words[3]]
                    if since <= self.wrote.get(words[3], 0) and given < until]
            is_read = any(since <= end < until for since, until, _ in self.taken[words[3]])
            if written and left and end - max(left) > SOON and not is_read and \
                    given < self.wrote[words[3]] < end - SOON and not self.judge.kept.stopping:
                self.judge.says(f"@{label} wrote {written} bytes into {words[3]}, which nobody"
                                f" reads since {max(left)}, and isn't over at {end}")

    def frees_its_place(self, label: str, words: list[str], time: int) -> None:
        """A save into a file is over soon, where no other save has its place any more."""
        given = self.judge.given[label]
        if words[0] != "save" or words[3] in self.judge.pipes:
            return
        kept = self.judge.kept
        others = [it for it, (_, said) in kept.orders.items() if said[0] == "save" and it != label
                  and said[3] in self.sinks and not kept.over.get(it, time) < given - SECOND]
        rests = all(until < given - SECOND or rate > 0 for of in self.taken.values()
                    for since, until, rate in of if since <= given)
        lines = self.judge.answers.get(label, [])
        is_late = time - given > 2 * SECOND or any(it["kind"] == "too_many_saves" for it in lines)
        if self.sinks and not others and rests and is_late and \
                not self.judge.lived.life.is_slow:
            self.judge.says(f"@{label} was given at {given}, and no other save goes on: {lines}")


class Pattern:
    """The questions of a camera whose source is the pattern."""

    def __init__(self, judge: Judge) -> None:
        self.judge = judge

    def begins(self, lived: Lived) -> None:
        """A life begins."""
        self.newest: dict[str, int] = {}
        self.times: dict[str, list[int]] = {}
        self.names = {it.name for it in self.judge.cameras.values() if it.is_pattern()}

    def stores(self, name: str, record: Record) -> None:
        """The frames of a pattern are stored one after the other, without a hole."""
        size = layout.HEAD + SIZE
        for at in range(0, len(record.data), size) if name in self.names else ():
            moment = layout.SLOT_HEAD.unpack_from(record.data, at)[3] - EPOCH
            number = number_of(record.data[at + layout.HEAD:at + size])
            before = self.newest.get(name)
            if number is None:
                self.judge.says(f"no frame of the pattern is stored in {name} at {record.time}")
                continue
            if self.is_calm(name) and number != (0 if before is None else (before + 1) % LOOKS):
                self.judge.says(f"frame {number} of the pattern of {name} comes after {before}")
            times = self.times.setdefault(name, [])
            if times and moment <= times[-1]:
                self.judge.says(f"the pattern of {name} has the times {times[-1]} and {moment}")
            self.newest[name] = number
            times.append(moment)

    def is_calm(self, name: str) -> bool:
        """Whether no frame of a camera is lost."""
        return name not in self.judge.moved | self.judge.gave_up and \
            not self.judge.lived.life.is_faulty

    def has_its_rate(self, lived: Lived) -> None:
        """The frames of a pattern come at its rate: not more of them in a time, and, where nothing
        waits, not fewer."""
        for name, times in self.times.items():
            camera = self.judge.cameras[name]
            is_fast = self.judge.kept.is_plain(name) and \
                not self.judge.told.has_told("all_locked", name)
            for at, one in enumerate(times) if self.is_calm(name) else ():
                more = sum(one <= it < one + 2 * SECOND for it in times[at:at + 400])
                most = 3 * SECOND // camera.period + 2
                least = (2 * SECOND - READ) // camera.period - 1
                if more > (most if not is_fast else 2 * SECOND // camera.period + 3):
                    self.judge.says(f"{more} frames of {name} came within 2 s of {one}")
                    break
                if is_fast and times[-1] > one + 2 * SECOND and more < least:
                    self.judge.says(f"only {more} frames of {name} came within 2 s of {one}")
                    break

    def goes_on(self, lived: Lived) -> None:
        """A pattern goes on as long as the station does."""
        end = self.judge.kept.stopping or lived.end()
        for name in self.names:
            at = self.judge.opened.get(name, lived.life.begins)
            since = max(self.times.get(name, [0])[-1], at)
            held = [self.judge.held(self.judge.present(it))
                    for it in self.judge.cameras[name].paths()]
            if self.judge.kept.is_plain(name) and end - since > 3 * SECOND and \
                    any(it is None or it.has_room() for it in held):
                self.judge.says(f"no frame of {name} came since {since}, until {end}")

    def keeps(self, label: str) -> None:
        """A keep has as many frames of a pattern as its seconds have, or says what it hasn't."""
        given, lines = self.judge.given[label], self.judge.answers.get(label, [])
        words = self.judge.kept.orders[label][1] if label in self.judge.kept.orders else ["?"]
        for name in self.names:
            camera = self.judge.cameras[name]
            mine = [it for it in lines if it.get("camera") == name]
            if len(words) < 3 or not mine or any(it["kind"] != "kept" for it in mine) or \
                    not self.judge.kept.is_plain(name):
                continue
            seconds = int(words[2])
            count = sum(it["last"] - it["first"] + 1 for it in mine)
            came = self.times.get(name, [given])[0] < given - seconds * SECOND - READ
            least = (seconds * SECOND - 2 * READ) // camera.period - 1
            if came and not least <= count <= (seconds * SECOND + READ) // camera.period + 2:
                self.judge.says(f"{count} frames came in {seconds} s: {mine}")

    def reads_status(self, said: dict, time: int) -> None:
        """As many frames of a pattern are stored, wait or are lost as have come by their rate."""
        name = said["camera"]
        if name not in self.names or not self.judge.kept.is_plain(name) or \
                not self.times.get(name):
            return
        camera, first = self.judge.cameras[name], self.times[name][0]
        known = said["stored"] - self.judge.begin_next[name] + said["given_up"] + said["waiting"]
        came = (time - first) // camera.period
        if not came - 2 * SECOND // camera.period < known <= came + 3:
            self.judge.says(f"{came} frames came since {first}: {said}")

    def goes(self, camera: Camera, path: str, block: int, time: int) -> None:
        """Of a pattern's blocks the oldest goes that no clip locks and that isn't the newest of
        its store."""
        kept, found = self.judge.kept, []
        for other in camera.paths():
            held = self.judge.held(self.judge.present(other))
            for it in held.blocks if held else ():
                slot = kept.slots[other].get(it * held.geometry.slots)
                if held.may_go(it) and slot:
                    found.append((slot[2], other, it))
        gone = kept.slots[path].get(block * camera.slots)
        if found and gone and min(found)[0] < gone[2]:
            self.judge.says(f"{path} gives up the block {block} of {gone[2]} at {time}, and"
                            f" {min(found)} is older")

    def follows(self, said: dict, names: list[int]) -> None:
        """A saved file has a pattern's frames each once, and in their order."""
        numbers = [it % LOOKS for it in names]
        if any(not 0 < (two - one) % LOOKS < LOOKS // 2 for one, two in zip(numbers, numbers[1:])):
            self.judge.says(f"its frames of the pattern aren't in order, {numbers}: {said}")


class More:
    """All of these questions."""

    def __init__(self, judge: Judge) -> None:
        self.judge = judge
        self.memory, self.pipes, self.pattern = Memory(judge), Pipes(judge), Pattern(judge)

    def begins(self, lived: Lived) -> None:
        """A life begins."""
        for it in (self.memory, self.pipes, self.pattern):
            it.begins(lived)

    def takes(self, record: Record) -> None:
        """A record comes."""
        if record.kind in "IY":
            self.pipes.takes(record)

    def reads(self, said: dict, time: int) -> None:
        """A line came."""
        self.memory.only_where_refused(said, time)
        if said["kind"] == "status":
            self.memory.reads_status(said, time)
            self.pattern.reads_status(said, time)
        if said["kind"] == "saved" and said["path"] in self.pipes.sinks:
            self.pipes.is_whole(said)
        if said["kind"] == "not_saved" and said["path"] in self.pipes.sinks:
            self.pipes.was_left(said, time)
        if said["kind"] == "done":
            self.is_done(said["label"], time)

    def is_done(self, label: str, time: int) -> None:
        """An order is answered."""
        words = self.judge.kept.orders[label][1] if label in self.judge.kept.orders else ["?"]
        self.pipes.frees_its_place(label, words, time)
        if words[0] == "keep" and not any(
                it["kind"] == "event_begun" for it in self.judge.answers.get(label, ())):
            self.memory.keeps(label)
            self.pattern.keeps(label)

    def ends(self, lived: Lived) -> None:
        """A life has ended."""
        self.memory.goes_on(lived)
        self.memory.answers(lived)
        self.memory.goes_on_with_events(lived)
        self.pipes.ends_with_its_reader(lived.end())
        self.pattern.has_its_rate(lived)
        self.pattern.goes_on(lived)
