#!/usr/bin/python3
"""A station for the page's tests: it writes stores as the layout says, takes the orders that the
page gives, and prints what docs/reference.md says.

    fake_station.py CONFIG

It films a pendulum into each camera's store of the configuration, in the size, format and rate of
`pattern`. Beside the station's orders it takes `!print LINE`, which prints a line of JSON, and
`!raw LINE`, which writes one as it is; `!pause CAMERA` and `!go CAMERA`, which stop and start its
frames; `!mute`, after which nothing is answered any more; `!absent CAMERA WHY` and `!there
CAMERA`, between which it has no store; `!source CAMERA WORDS`, which its status then says;
`!behind CAMERA SECONDS`, the same; `!making CAMERA PERCENT`; `!end CAMERA`, which ends its events
that go on; `!hang CAMERA`, after which it answers no keep, whose answer never ends; and `!saving
CAMERA`, whose clips can't be released. A camera's `scene` is what it films: a `pendulum`, also
`warm` or `cold`, or a dark `beam`. What it prints is JSON everywhere, unless the configuration
says otherwise of the answers; then it has words there that the page doesn't read. The orders that
it was given are in the file `ordered`."""
import datetime
import json
import math
import os
import re
import select
import sys
import time
import tomllib
from pathlib import Path

import numpy

sys.path.insert(1, str(Path(__file__).resolve().parent.parent.parent / "tools"))
import layout

EPOCH = datetime.datetime(1970, 1, 1, tzinfo=datetime.timezone.utc)
# After so many frames the pendulum is back.
SWING = 105
# No shorter time without frames is told, in microseconds.
LEAST_GAP = 250_000
LABELLED = re.compile(r"(?:@([A-Za-z0-9_-]{1,32}) )?(.*)")


class Film(layout.Ring):
    """A store in a file, whose frames show a pendulum."""

    def __init__(self, words: dict) -> None:
        size, form, rate = words.get("pattern", "64x48 YM12 25:1").split()
        width, height = map(int, size.split("x"))
        num, den = map(int, rate.split(":"))
        # Samples of more than 8 bits have two bytes each.
        self.bits = words.get("bits", 8)
        width *= 2 if self.bits > 8 else 1
        self.words, self.name, self.is_paused, self.given_up, self.still = (
            words,
            words["name"],
            False,
            0,
            None,
        )
        self.reel: dict[int, bytes] = {}
        # The tag of each clip.
        self.tags: dict[int, int] = {}
        # How many frames its source has lost, and the sequence of each frame.
        self.lost, self.sequences, self.tells_lost = 0, {}, False
        # A small image, since the file is written and not an image.
        super().__init__(1, 1, b"GREY", words.get("segments", 8), 1)
        self.geometry = layout.geometry_of(
            width, height, form.encode(), num, den, words.get("segments", 8), words.get("slots", 64)
        )
        new = words["store"] + ".new"
        self.file = os.open(new, os.O_RDWR | os.O_CREAT | os.O_TRUNC, 0o644)
        os.pwrite(self.file, layout.superblock(self.geometry).ljust(layout.FRONT, b"\0"), 0)
        os.ftruncate(self.file, self.geometry.disk_size())
        os.rename(new, words["store"])
        self.write = lambda at, data: os.pwrite(self.file, data, at)
        self.period, self.due = 1_000_000 * den // num, int(time.time() * 1e6)

    def scene(self) -> tuple:
        """What stands still: the brightness of each pixel, and both colours."""
        width, height = self.geometry.width, self.geometry.height
        down, across = numpy.mgrid[0:height, 0:width]
        luma = (40 + 70 * across / width + 50 * down / height).astype(numpy.uint8)
        luma[:: max(1, height // 6)] = 30
        luma[:, :: max(1, width // 8)] = 30
        ends = {"warm": ((100, 120), (140, 170)), "cold": ((140, 170), (100, 120))}
        ends = ends.get(self.words.get("scene"), ((110, 170), (150, 100)))
        colours = [
            numpy.linspace(*both, size).astype(numpy.uint8).tobytes()
            for both, size in zip(ends, layout.planes_of(width, height, self.geometry.format)[1:])
        ]
        if self.words.get("scene") == "beam":
            luma = numpy.random.default_rng(7).integers(6, 12, luma.shape).astype(numpy.uint8)
        return luma, b"".join(colours)

    def beam(self, luma, number: int) -> bytes:
        """A frame with a dim beam that wanders."""
        height, width = luma.shape
        down, across = numpy.mgrid[0:height, 0:width]
        x, y = width * (0.56 + 0.03 * math.cos(number * 0.05)), height * (
            0.48 + 0.03 * math.sin(number * 0.07)
        )
        far = ((across - x) / width * 4) ** 2 + ((down - y) / height * 3.2) ** 2
        light = 62 * numpy.exp(-far * 2.2) * (0.8 + 0.2 * numpy.cos(far * 26))
        return (luma + light).astype(numpy.uint8).tobytes() + self.still[1]

    def filmed(self, number: int) -> bytes:
        """The bytes of a frame. A scene that is named comes again after a swing, so that it costs
        little."""
        if "scene" not in self.words:
            return self.pixels(number)
        place = number % SWING
        if place not in self.reel:
            self.reel[place] = self.pixels(place)
        return self.reel[place]

    def pixels(self, number: int) -> bytes:
        """The bytes of a frame: a pendulum; of more than 8 bits a ramp that wanders."""
        if self.bits > 8:
            samples = numpy.arange(self.geometry.size // 2) * 3 + number
            return (samples % (1 << self.bits)).astype("<u2").tobytes()
        if self.still is None:
            self.still = self.scene()
        luma, width, height = self.still[0].copy(), self.geometry.width, self.geometry.height
        if self.words.get("scene") == "beam":
            return self.beam(luma, number)
        angle, arm, ball = 0.9 * math.cos(number * 0.12), height * 0.7, max(2, height // 10)
        parts = arm * numpy.linspace(0, 1, height)
        across = (width / 2 + parts * math.sin(angle)).astype(int).clip(0, width - 1)
        luma[(parts * math.cos(angle)).astype(int), across] = 235
        top, left = int(arm * math.cos(angle)) - ball, int(width / 2 + arm * math.sin(angle)) - ball
        box = luma[max(0, top) : top + 2 * ball, max(0, left) : max(0, left + 2 * ball)]
        down, across = numpy.mgrid[0 : box.shape[0], 0 : box.shape[1]]
        box[
            (down + max(0, top) - top - ball) ** 2 + (across + max(0, left) - left - ball) ** 2
            < ball * ball
        ] = 225
        return luma.tobytes() + self.still[1]

    def film(self) -> bool:
        """Stores the frames that are due, a few at a time, since orders come too; answers whether
        there was room."""
        for _ in range(8):
            if self.due > time.time() * 1e6:
                break
            if self.is_paused:
                self.due += self.period
                continue
            if self.next % self.geometry.slots == 0 and not self.begin():
                self.due += self.period
                self.given_up += 1
                return False
            index, slot = (
                self.blocks.index(self.next // self.geometry.slots),
                self.next % self.geometry.slots,
            )
            self.times[self.next] = moment = self.due
            self.sequences[self.next] = self.next + self.lost
            self.write(
                self.geometry.slot_at(index, slot),
                layout.head(
                    self.next,
                    self.sequences[self.next],
                    moment,
                    self.geometry.size,
                    self.bits if self.bits > 8 else 0,
                )
                + self.filmed(self.next),
            )
            self.write(
                self.geometry.segment_at(index) + layout.GATES_AT + slot, bytes([layout.OPEN])
            )
            self.next += 1
            self.due += self.period
        return True

    def catch_up(self) -> None:
        """Stores what came before an order, as the station does: on a busy machine frames are
        late."""
        now, end = time.time() * 1e6, time.monotonic() + 60
        while self.due <= now and time.monotonic() < end and self.film():
            pass

    def keep(self, first: int, last: int, event: int, tag: int) -> list[dict]:
        """Locks the frames of a time; answers a line for each clip, and what is missing of the
        time."""
        numbers = [number for number in sorted(self.held()) if first <= self.times[number] <= last]
        if not numbers:
            return [{"kind": "kept_none", "camera": self.name, "event": event}]
        lines = []
        for begin, end in layout.runs_of(numbers):
            if len(self.clips) == layout.CLIPS:
                return [
                    *lines,
                    {"kind": "refused", "camera": self.name, "number": 11, "name": "ClipTableFull"},
                ]
            before = set(self.clips)
            self.lock(begin, end, tag or event)
            (id_,) = set(self.clips) - before
            self.tags[id_] = tag or event
            lines.append(self.kept(id_, event))
        return lines

    def kept(self, id_: int, event: int) -> dict:
        """That a clip is kept."""
        (first, last), tag = self.clips[id_], self.tags[id_]
        line = {"kind": "kept", "camera": self.name, "id": id_, "first": first, "last": last}
        line |= {"from": stamp(self.times[first]), "to": stamp(self.times[last]), "event": event}
        line |= {"tag": tag} if tag != event else {}
        return line | ({"lost": self.lost_in([first, last])} if self.tells_lost else {})

    def lost_in(self, numbers: list[int]) -> int:
        """How many frames are lost between some."""
        ends = min(numbers), max(numbers)
        return self.sequences[ends[1]] - self.sequences[ends[0]] - (ends[1] - ends[0])

    def shortfall(self, first: int, last: int, event: int) -> list[dict]:
        """How much of a time is held, and where no frame is, where that isn't all."""
        held = [
            self.times[number]
            for number in sorted(self.held())
            if first <= self.times[number] <= last
        ]
        least, gaps, at = max(self.period * 3 // 2, LEAST_GAP), [], first
        for moment in [*held, last]:
            if moment - at > least:
                gaps.append((at, moment - at))
            at = moment
        inside = [number for number in sorted(self.held()) if first <= self.times[number] <= last]
        lost = self.lost_in(inside) if self.tells_lost and inside else 0
        if not held or not (gaps or lost):
            return []
        missing = sum(micros for _, micros in gaps)
        told = {"lost": lost} if self.tells_lost else {}
        holes = [
            (self.times[one], self.times[two] - self.times[one], self.lost_in([one, two]))
            for one, two in zip(inside, inside[1:])
            if self.tells_lost and self.lost_in([one, two])
        ]
        gaps = [(at, micros, 0) for at, micros in gaps] + holes
        front = {
            "kind": "held",
            "camera": self.name,
            "held_micros": last - first - missing,
            "asked_micros": last - first,
            "event": event,
        } | told
        return [
            front,
            *(
                {
                    "kind": "gap",
                    "camera": self.name,
                    "micros": micros,
                    "at": stamp(at),
                    "event": event,
                }
                | ({"lost": count} if self.tells_lost else {})
                for at, micros, count in gaps
            ),
        ]

    def grow(self, since: int, until: int, event: int, tag: int) -> list[dict]:
        """Locks what has come of an event whose end lies ahead, in a clip that is longer than those
        of before, which are released."""
        old = [
            id_
            for id_, clip in self.clips.items()
            if self.tags[id_] == (tag or event) and since <= self.times[clip[0]] <= until
        ]
        lines = self.keep(since, until, event, tag)
        if any(line["kind"] == "kept" for line in lines):
            for id_ in old:
                self.unlock(id_)
        return lines


def stamp(moment: int) -> str:
    """A time as the station prints it."""
    return (EPOCH + datetime.timedelta(microseconds=moment)).strftime("%Y-%m-%dT%H:%M:%S.%f")[
        :-3
    ] + "Z"


class Station:
    """The station: its cameras, its orders and its answers."""

    def __init__(self, path: str) -> None:
        self.config = tomllib.loads(Path(path).read_text(encoding="utf-8"))
        self.answers = self.config.get("answers")
        self.path = path
        self.films = {words["name"]: self.film_of(words) for words in self.config["camera"]}
        self.orders = os.open(self.config["orders"], os.O_RDWR | os.O_NONBLOCK)
        self.rest, self.is_mute, self.is_over = b"", False, False
        self.out = None
        self.full: set[str] = set()
        self.absent, self.sources, self.behind = {}, {}, {}
        self.clock, self.rule = {}, {}
        self.making: dict[str, str] = {}
        self.hanging, self.saving = set(), set()
        self.is_json = self.config.get("answers_form") == "json"
        self.number = 0
        # Events that go on: camera, since, until, number, tag.
        self.growing: list[tuple[str, int, int, int, int]] = []
        # The block to which each has grown.
        self.grown: dict[tuple, int] = {}

    def film_of(self, words: dict) -> "Film":
        """A camera."""
        film = Film(words)
        film.tells_lost = self.config.get("tells_lost", False)
        return film

    def reload(self) -> list[dict]:
        """Reads its file again: cameras come and go."""
        config = tomllib.loads(Path(self.path).read_text(encoding="utf-8"))
        new, lines = {words["name"]: words for words in config["camera"]}, []
        for name, film in list(self.films.items()):
            if new.get(name) != film.words:
                why = "changed" if name in new else "removed"
                lines.append({"kind": "camera_ended", "camera": name, "why": why})
                del self.films[name]
        ended = len(lines)
        for name, words in new.items():
            if name not in self.films:
                why = "changed" if any(it["camera"] == name for it in lines) else "added"
                self.films[name] = self.film_of(words)
                lines.append({"kind": "camera_started", "camera": name, "why": why})
        counts = {"cameras": len(new), "ended": ended, "started": len(lines) - ended}
        return [*lines, {"kind": "reloaded", "path": self.path} | counts]

    def say(self, line: dict, label: str | None = None) -> None:
        """Prints a line, with its time and its label."""
        front = {"time": stamp(int(time.time() * 1e6))} | ({"label": label} if label else {})
        line = json.dumps(front | line, separators=(",", ":"))
        print(line, flush=True)
        self.write(line if self.is_json else "words")

    def write(self, line: str) -> None:
        """Writes a line to the answers."""
        if not self.answers or self.is_mute:
            return
        try:
            file = os.open(
                self.answers, os.O_WRONLY | os.O_APPEND | os.O_NONBLOCK | os.O_CREAT, 0o644
            )
            os.write(file, line.encode() + b"\n")
            self.out, old = file, self.out
            if old is not None:
                os.close(old)
        except OSError:
            # Nobody reads, and nothing waits for it.
            return

    def run(self) -> None:
        """Films and takes orders until it is told to stop."""
        while not self.is_over:
            ready, _, _ = select.select([self.orders], [], [], 0.02)
            for name, film in self.films.items():
                has_room = film.film()
                if not has_room and name not in self.full:
                    self.full.add(name)
                    self.say({"kind": "all_locked", "camera": name})
            self.go_on()
            if ready:
                *lines, self.rest = (self.rest + os.read(self.orders, 65536)).split(b"\n")
                for line in lines:
                    self.take(line.decode(errors="replace"))

    def go_on(self) -> None:
        """Goes on with events whose end lay ahead."""
        for growing in list(self.growing):
            name, since, until, event, tag = growing
            film, now = self.films[name], int(time.time() * 1e6)
            if now < until:
                # As the station does it: block by block.
                block = film.next // film.geometry.slots
                if block != self.grown.setdefault(growing, block):
                    self.grown[growing] = block
                    film.grow(since, now, event, tag)
                continue
            self.growing.remove(growing)
            film.catch_up()
            lacks = film.shortfall(since, until, event)
            for line in [*film.grow(since, until, event, tag), *lacks]:
                self.say(line)
            end = {"kind": "event_not_whole", "event": event, "camera": name, "why": "Gaps"}
            end = end if lacks else {"kind": "event_whole", "event": event, "camera": name}
            lost = {"lost": lacks[0]["lost"] if lacks else 0} if film.tells_lost else {}
            self.say(end | lost)

    def take(self, line: str) -> None:
        """Does an order."""
        label, order = LABELLED.fullmatch(line).groups()
        if order.startswith("!"):
            self.command(order[1:])
        with open("ordered", "a", encoding="utf-8") as ordered:
            ordered.write(order + "\n")
        if order.startswith("!"):
            return
        is_late = order.startswith("keep") and self.hanging
        for found in [*self.answer(order), *([{"kind": "done"}] if label and not is_late else [])]:
            self.say(found, label)

    def command(self, order: str) -> None:
        """What a test asks for."""
        verb, _, rest = order.partition(" ")
        if verb == "print":
            self.say(json.loads(rest))
        elif verb == "raw":
            self.write(rest)
        elif verb == "mute":
            self.is_mute = True
        elif verb == "end":
            now = int(time.time() * 1e6)
            self.growing = [
                (it[0], it[1], now if it[0] == rest else it[2], *it[3:]) for it in self.growing
            ]
        elif verb in ("pause", "go"):
            self.films[rest].is_paused = verb == "pause"
        elif verb == "there":
            del self.absent[rest]
        elif verb in ("hang", "saving"):
            getattr(self, {"hang": "hanging", "saving": "saving"}[verb]).add(rest)
        elif verb == "lose":
            camera, _, count = rest.partition(" ")
            self.films[camera].lost += int(count)
        elif verb in ("absent", "source", "behind", "making", "clock", "rule"):
            camera, _, words = rest.partition(" ")
            {
                "absent": self.absent,
                "source": self.sources,
                "behind": self.behind,
                "making": self.making,
                "clock": self.clock,
                "rule": self.rule,
            }[verb][camera] = words

    def answer(self, order: str) -> list[dict]:
        """The lines that answer an order."""
        parts = order.split(" ")
        if parts[0] == "keep":
            return self.keep(parts[1:])
        if parts[0] == "release" and len(parts) in (3, 4):
            return self.release(*parts[1:])
        if order == "status":
            return [self.status(name, film) for name, film in self.films.items()]
        if order == "reload":
            return self.reload()
        if order == "stop":
            self.is_over = True
            return [{"kind": "stopped"}]
        return [{"kind": "bad_order", "line": order[:200]}]

    def release(self, name: str, id_: str, first: str | None = None) -> list[dict]:
        """Does a release."""
        film, number = self.films.get(name), int(id_)
        if film is None:
            return [{"kind": "no_camera", "camera": name}]
        if name in self.saving:
            return [{"kind": "saving", "camera": name}]
        if number not in film.clips:
            return [{"kind": "refused", "camera": name, "number": 12, "name": "NoSuchClip"}]
        if first is not None and film.clips[number][0] != int(first):
            return [{"kind": "not_released", "camera": name, "id": number, "first": int(first)}]
        film.unlock(number)
        self.full.discard(name)
        return [{"kind": "released", "camera": name, "id": number}]

    def status(self, name: str, film: Film) -> dict:
        """How a camera stands."""
        if name in self.making:
            return {
                "kind": "status_making",
                "camera": name,
                "path": film.words["store"],
                "percent": int(self.making[name]),
            }
        if name in self.absent:
            return {"kind": "absent", "camera": name, "why": self.absent[name]}
        counts = {"stored": film.next, "given_up": film.given_up, "waiting": 0}
        behind = round(float(self.behind.get(name, "0")) * 1e6)
        source = self.sources.get(name, "missing" if film.is_paused else "on")
        room = {
            "behind_micros": behind,
            "room": 0 if name in self.full else 3,
            "keeps": 2,
            "faults": 0,
            "source": source,
        }
        if film.tells_lost:
            room |= {"gaps": 0, "lost": film.lost, "estimated": 0}
            room |= {"clock_micros": int(self.clock[name])} if name in self.clock else {}
            room |= {"blocks": 7, "when_full": self.rule.get(name, "stop")}
        return {"kind": "status", "camera": name, **counts, **room}

    def keep(self, parts: list[str]) -> list[dict]:
        """Does a keep: `[CAMERA] [SECONDS] [+AFTER] [TAG]` or `[CAMERA] from T to T [TAG]`."""
        now, names = int(time.time() * 1e6), list(self.films)
        self.number = max(now, self.number + 1)
        if parts and not parts[0].lstrip("+").isdigit() and parts[0] != "from":
            if parts[0] not in self.films:
                return [{"kind": "no_camera", "camera": parts[0]}]
            names, parts = parts[:1], parts[1:]
        span = None
        if parts[:1] == ["from"] and parts[2:3] == ["to"]:
            span, parts = tuple(self.moment(text) for text in (parts[1], parts[3])), parts[4:]
        seconds = parts.pop(0) if not span and parts and parts[0].isdigit() else None
        after = parts.pop(0)[1:] if parts and parts[0].startswith("+") else None
        lines = []
        for name in names:
            film = self.films[name]
            if name in self.absent:
                lines.append({"kind": "absent", "camera": name, "why": self.absent[name]})
            elif name not in self.hanging:
                ahead = int(film.words.get("after", 0) if after is None else after) * 1_000_000
                before = int(film.words.get("keep", 60) if seconds is None else seconds) * 1_000_000
                tag = int(parts[0]) if parts else film.words.get("tag", 0)
                lines += self.keep_of(name, *(span or (now - before, now + ahead)), now, tag)
        return lines

    def keep_of(self, name: str, since: int, until: int, now: int, tag: int) -> list[dict]:
        """Keeps a time of a camera."""
        film, event = self.films[name], self.number
        film.catch_up()
        lines = film.keep(since, min(until, now), event, tag)
        if until > now:
            self.growing.append((name, since, until, event, tag))
            return [
                *lines,
                {"kind": "event_begun", "event": event, "from": stamp(since), "to": stamp(until)},
            ]
        return [*lines, *film.shortfall(since, until, event)]

    def moment(self, text: str) -> int:
        """The microseconds of a time."""
        return (
            datetime.datetime.fromisoformat(text.replace("Z", "+00:00")) - EPOCH
        ) // datetime.timedelta(microseconds=1)


if __name__ == "__main__":
    Station(sys.argv[1]).run()
