"""The worlds of tests/simulate: by a seed, which cameras a station has, what their sources bring,
who orders what, which disk fails, and when the program is killed or the power goes. A life is from
one start of the program to its end; what its script says follows from the seed and the lives before
it alone."""
from __future__ import annotations

import dataclasses
import functools
import random
import time

import layout
import simulated_rare_keeps
import simulated_rare_last
import simulated_rare_more
import simulated_rare_saves

# The time of day when a world begins, in microseconds since 1970.
EPOCH = 1_796_094_976_000_000
SECOND = 1_000_000
WIDTH, HEIGHT, SIZE = 16, 8, 128
NAMES = ("left", "right", "belt", "gate")
EIO, ENOSPC = 5, 28
# So many bytes of a header's beginning the station knows as such at the end of a frame.
BEGUN = 6
# How much is saved to names of this kind, and what stands beside the stores that is no file of
# the station: what has the name of an unfinished text, and a store of somebody else.
SAVED = 20
OTHERS = ("saved3.part", "saved7")
LINKED = ("saved5.part", "precious")
# From this seed on worlds have more of what is rare in others.
RARE = 10_000


def moment(at: int) -> str:
    """A time of the world, as an order has it."""
    whole = time.strftime("%Y-%m-%dT%H:%M:%S", time.gmtime((EPOCH + at) // SECOND))
    return f"{whole}.{(EPOCH + at) % SECOND:06}Z"


@functools.cache
def paths_of(name: str, stores: int) -> list[str]:
    """The files of a camera's stores."""
    if stores == 1:
        return [f"{name}.loop"]
    return [f"{name}.{it:03}.loop" for it in range(stores)]


@dataclasses.dataclass
class Camera:
    """A camera of a world, its stores, and what its source brings next."""

    name: str
    pipe: int
    segments: int
    slots: int
    stores: int
    period: int
    words: dict[str, object]
    says_numbers: bool
    says_times: bool
    frame: int = 0
    due: int = 0
    is_ahead: bool = False

    def geometry(self) -> layout.Geometry:
        """The shape of its stores."""
        rate = SECOND // self.period
        return layout.geometry_of(WIDTH, HEIGHT, b"GREY", rate, 1, self.segments, self.slots)

    def paths(self) -> list[str]:
        """Its stores' files."""
        return paths_of(self.name, self.stores)

    def is_pattern(self) -> bool:
        """Whether its frames are the station's own pattern."""
        return self.words.get("source") == "pattern"

    def header(self) -> str:
        """The first line of its source."""
        return f"YUV4MPEG2 W{WIDTH} H{HEIGHT} F{SECOND // self.period}:1 Ip A0:0 Cmono"

    def lines(self) -> str:
        """Its lines of the configuration."""
        given = {
            "name": self.name,
            "source": f"{self.name}.y4m",
            "store": f"{self.name}.loop",
            "bytes": self.geometry().disk_size() * self.stores,
            **self.words,
        }
        said = {it: str(value).lower() if isinstance(value, (bool, int)) else f'"{value}"'
                for it, value in given.items()}
        if self.is_pattern():
            del said["losses"]
        return "[[camera]]\n" + "".join(f"{it} = {value}\n" for it, value in said.items())


@dataclasses.dataclass
class Life:
    """A start of the program: its script, the order of each label, and how it ends: by `stop`,
    `kill` or `power`."""

    begins: int
    ends: int
    script: str
    end: str
    orders: dict[str, str]
    is_faulty: bool
    is_slow: bool
    downtime: int
    # Files that are put beside the stores before it begins, and the cameras that come or go.
    files: dict[str, str]
    changed: set[str]


class World:
    """All that isn't the program, by a seed."""

    def __init__(self, seed: int, cuts_anywhere: bool = False) -> None:
        self.seed, self.chance = seed, random.Random(f"world {seed}")
        # A writer may die within the last bytes of a frame, too.
        self.cuts_anywhere = cuts_anywhere
        pick = self.chance
        self.has_faults = pick.random() < 0.5
        self.kills_early = pick.random() < 0.3
        # The only folder into which orders may write, in some worlds.
        self.saves = "clips" if pick.random() < 0.15 else ""
        self.cameras = [self.camera(at) for at in range(pick.choice((1, 1, 1, 2, 2, 3)))]
        self.count = 0
        # The answers are a pipe, whose reader comes and goes: lines may be dropped.
        self.is_piped = pick.random() < 0.04
        # The scene that it plays, where it has one.
        self.play = simulated_rare_keeps.play_of(self)
        self.is_quiet = self.play is not None and self.play.is_alone
        if self.is_quiet:
            self.has_faults, self.is_piped, self.saves = False, False, ""
        # Stores of layout 1, and files with the name of a store that aren't one.
        self.old: set[str] = set()
        self.strange_files: set[str] = set()
        # What nobody may change.
        self.foreign: dict[str, bytes] = {}
        # Links beside the stores, and where they lead.
        self.links = {LINKED[0]: LINKED[1]}
        # The pipes into which clips are saved, and that somebody reads.
        self.sinks: tuple[str, ...] = ()
        # All that happens, where that is one scene.
        self.scene = simulated_rare_saves.scene_of(self) or \
            simulated_rare_more.scene_of(self) or simulated_rare_last.scene_of(self)

    def camera(self, at: int) -> Camera:
        """A camera of any kind."""
        pick = self.chance
        slots, segments = pick.randint(2, 8), pick.randint(3, 6)
        stores = pick.choice((1, 1, 2, 3, 4))
        numbers, times = pick.random() < 0.5, pick.random() < 0.3
        words: dict[str, object] = {"keep": pick.randint(1, 3)}
        if pick.random() < 0.3:
            words["after"] = pick.randint(1, 2)
        words["when_full"] = pick.choice(("stop", "stop", "stop", "release oldest",
                                          "release saved", "release oldest tag 7"))
        if pick.random() < 0.2:
            words["memory"] = pick.choice((1000, 5000, "1 s"))
        if pick.random() < 0.2:
            words["buffers"] = pick.choice((4, 32))
        if pick.random() < 0.15:
            words["tag"] = 7
        if pick.random() < 0.25:
            words["save_to"] = "clips"
            words["release"] = pick.random() < 0.5
        if times:
            words["times_from"] = "source"
        words["losses"] = "numbers" if numbers else "none"
        period = pick.choice((40_000, 50_000, 100_000))
        return Camera(NAMES[at], at, segments, slots, stores, period, words, numbers, times)

    def config(self, without: str = "") -> str:
        """The station's file, perhaps without a camera."""
        head = 'orders = "orders"\nanswers = "answers"\nanswers_form = "json"\n'
        if self.saves:
            head += f'saves = "{self.saves}"\n'
        return head + "".join(it.lines() for it in self.cameras if it.name != without)

    def files(self) -> dict[str, bytes]:
        """The files with which it begins."""
        other = layout.fresh(self.cameras[0].geometry())
        stores = self.scene.stores() if self.scene else self.stores()
        self.foreign = {OTHERS[0]: b"somebody's own", OTHERS[1]: other, LINKED[1]: b"precious"}
        return {**stores, **self.foreign}

    def stores(self) -> dict[str, bytes]:
        """The stores with which it begins: most are there, empty. Of several, the first is: else
        the station makes a single one."""
        found = {}
        for camera in self.cameras:
            for at, path in enumerate(camera.paths()):
                likely = 0.7 if camera.stores == 1 else 0.93 if at else 1
                if self.chance.random() < likely:
                    is_old = self.chance.random() < 0.03
                    if is_old:
                        self.old.add(path)
                    found[path] = layout.fresh(camera.geometry(), 1 if is_old else 2)
                elif at and self.chance.random() < 0.3:
                    self.strange_files.add(path)
                    found[path] = b"no store" * 100
        if self.play:
            found = self.play.files(found)
        return found

    def life(self, now: int, is_first: bool, is_last: bool) -> Life:
        """The next life, which begins now."""
        if self.scene:
            return self.scene.life(now, is_last)
        pick = self.chance
        span = pick.choice((10, 20) if self.is_quiet else (3, 6, 10, 20, 30)) * SECOND
        ends = ("stop", "kill", "kill", "power", "power", "power")
        end = "stop" if is_last else pick.choice(ends)
        lines = self.begins(now, is_first)
        if self.is_piped:
            at = now + pick.choice((0, SECOND, span // 2, span - SECOND))
            while at < now + span:
                until = at + pick.choice((SECOND, span))
                lines.append(f"reader {at} {until} {pick.choice((0, 2000, 100_000))}")
                at = until + pick.choice((SECOND, span // 3))
        crawls = pick.random() < 0.05
        syncs = (30_000, 60_000) if crawls else (50, 500, 3000, 8000)
        lines += [f"sync {it.name} {pick.choice(syncs)}" for it in self.cameras]
        faults = self.faults(now, now + span) if self.has_faults else []
        orders: dict[str, str] = {}
        events = []
        for camera in self.cameras:
            events += self.frames(camera, now, now + span)
        files: dict[str, str] = {}
        changed: set[str] = set()
        if not self.is_quiet:
            events += self.orders(now, now + span, orders)
            events += self.strange(now, now + span)
            files, changed = self.reloads(now, now + span, orders, events)
        if self.play:
            part = self.play.life(self, now, now + span, is_first, orders)
            events = [it for it in events if not part.is_silent(it)] + part.events
            lines += [it for it in part.lines if not it.startswith("bad")]
            crawls = crawls or part.is_slow
            faults += [it for it in part.lines if it.startswith("bad")]
        if self.seed >= RARE and not self.is_quiet:
            more, rare = self.rare(now, now + span, orders)
            lines += more
            events += rare
            crawls = crawls or bool(more)
            faults += [it for it in more if it.startswith("bad")]
        if end == "stop":
            events.append((now + span, self.order("stop", now + span, orders)))
            events.append((now + span + 100 * SECOND, f"kill {now + span + 100 * SECOND}"))
        else:
            at = now + pick.randint(span * 3 // 4 if self.is_quiet else SECOND // 2, span)
            if self.is_quiet:
                pass
            elif self.kills_early and pick.random() < 0.5:
                lines.append(f"changes {pick.randint(0, 150)}")
            elif pick.random() < 0.4:
                lines.append(f"lines {pick.randint(0, 60)}")
            events.append((at, f"kill {at}"))
        events.sort(key=lambda it: it[0])
        script = "\n".join(lines + faults + [it for _, it in events]) + "\n"
        down = pick.choice((100_000, SECOND, 5 * SECOND))
        is_faulty = any(it.startswith("bad") for it in faults)
        return Life(now, now + span, script, end, orders, is_faulty, bool(faults) or crawls, down,
                    files, changed)

    def begins(self, now: int, is_first: bool) -> list[str]:
        """How a script begins."""
        pick = self.chance
        lines = [
            f"seed {pick.getrandbits(62)}",
            f"begin {now} {EPOCH}",
            f"switch {pick.choice((1, 2, 4, 8, 16, 64))}",
            f"tick {pick.choice((1, 3, 10, 30))}",
            f"uneven {pick.choice((0, 0, 3, 6))}",
            "answers answers",
        ]
        for camera in self.cameras:
            camera.is_ahead = not is_first and pick.random() < 0.25
            lines.append(f"pipe {int(camera.is_ahead)} {camera.name}.y4m {camera.header()}")
        return [*lines, "orders orders"]

    def reloads(self, since: int, until: int, orders: dict[str, str],
                events: list[tuple[int, str]]) -> tuple[dict[str, str], set[str]]:
        """A camera is taken out of the station's file meanwhile, and perhaps comes back."""
        pick = self.chance
        if pick.random() >= 0.12:
            return {}, set()
        camera = pick.choice(self.cameras)
        camera_or_none = camera.name if len(self.cameras) > 1 else ""
        texts = {"next.0": self.config(camera_or_none), "next.1": self.config()}
        at = since
        for name in texts:
            at = min(pick.randint(at, until), until - 10) if at < until - 10 else until - 10
            events.append((at, f"move {at} {name} station.toml"))
            events.append((at + 1, self.order("reload", at + 1, orders)))
            at += pick.choice((0, 10_000, SECOND))
        return texts, {camera.name}

    def faults(self, since: int, until: int) -> list[str]:
        """What is wrong with the disk meanwhile."""
        pick, found = self.chance, []
        for _ in range(pick.randint(0, 3)):
            camera = pick.choice(self.cameras)
            name = pick.choice([*camera.paths(), camera.name, ".loop"])
            begin = pick.randint(since, until)
            end = begin + pick.choice((SECOND // 10, SECOND, 4 * SECOND))
            what = pick.random()
            if what < 0.5:
                stall = pick.choice((100_000, 400_000, 2 * SECOND))
                found.append(f"slow {begin} {end} {name} {stall}")
            elif what < 0.8:
                call = pick.choice(("sync", "write", "sync", "read"))
                found.append(f"bad {begin} {end} {name} {call} {EIO} {pick.choice((1, 3, 10))}")
            else:
                kind = pick.choice((".part", ".new", ".events", ".new"))
                call = pick.choice(("open", "write", "sync", "rename"))
                error = pick.choice((EIO, ENOSPC))
                if kind == ".new" and pick.random() < 0.5:
                    # The disk is full.
                    begin, end, call, error = since, until, "truncate", ENOSPC
                found.append(f"bad {begin} {end} {kind} {call} {error} {pick.choice((1, 2))}")
        return found

    def strange(self, since: int, until: int) -> list[tuple[int, str]]:
        """What happens to the computer meanwhile: its clock is set, or it stands still."""
        pick, found = self.chance, []
        if pick.random() < 0.1:
            at = pick.randint(since, until)
            found.append((at, f"clock {at} {pick.choice((-3600, -2, 2, 90, 3600)) * SECOND}"))
        if pick.random() < 0.1:
            at = pick.randint(since, until)
            found.append((at, f"pause {at} {pick.choice((200_000, SECOND, 4 * SECOND))}"))
        if pick.random() < 0.07:
            at, path = pick.randint(since, until), pick.choice(pick.choice(self.cameras).paths())
            found.append((at, f"move {at} {path} moved{at}"))
        if pick.random() < 0.05 and not self.is_piped:
            at = pick.randint(since, until)
            found.append((at, f"move {at} answers answers.{at}"))
        return found

    def frames(self, camera: Camera, since: int, until: int) -> list[tuple[int, str]]:
        """What a source brings meanwhile."""
        pick, found = self.chance, []
        at = max(camera.due, since + pick.randint(0, SECOND))
        while at < until:
            what = pick.random()
            if what < 0.01:
                at += pick.choice((SECOND // 5, SECOND, 3 * SECOND))
            elif what < 0.015:
                line = self.line(camera, at)
                cut = pick.randint(1, len(line) + SIZE)
                if not self.cuts_anywhere:
                    cut = min(cut, len(line) + 1 + SIZE - BEGUN)
                found.append((at, f"part {at} {camera.pipe} {camera.frame} {SIZE} {cut} {line}"))
                found.append((at + 1, f"close {at + 1} {camera.pipe}"))
                camera.frame += 1
                at += pick.choice((2, 1000, SECOND))
                continue
            elif what < 0.02:
                found.append((at, f"close {at} {camera.pipe}"))
                at += pick.choice((1000, SECOND))
            elif what < 0.03:
                camera.frame += pick.randint(1, 5)
            found.append((at, f"frame {at} {camera.pipe} {camera.frame} {SIZE}"
                              f" {self.line(camera, at)}"))
            camera.frame += 1
            at += camera.period + pick.randint(-camera.period // 20, camera.period // 20)
        camera.due = at
        return found

    def rare(self, since: int, until: int, orders: dict[str, str]
             ) -> tuple[list[str], list[tuple[int, str]]]:
        """What is rare elsewhere: a disk that is slow to read, a store of several that fails for a
        while, a save to a pipe that nobody reads and that is cancelled, and so many lines that not
        all of them wait for a reader."""
        pick = random.Random(f"rare {self.seed} {since}")
        camera, lines, found = pick.choice(self.cameras), [], []
        if pick.random() < 0.5:
            lines.append(f"reads {camera.name} {pick.choice((1000, 5000, 20_000))}")
        if pick.random() < 0.3 and camera.stores > 1:
            at = pick.randint(since + SECOND, until)
            lines.append(f"bad {at} {at + SECOND // 2} {pick.choice(camera.paths())} sync {EIO} 1")
        at = since + 2 * SECOND
        if pick.random() < 0.5 and until - at > 6 * SECOND:
            texts = [f"keep {camera.name} 1 55", f"save {camera.name} 0 nobody",
                     f"cancel {camera.name} 0"]
            found += [(at + it * 200_000, self.order(text, at + it * 200_000, orders))
                      for it, text in enumerate(texts)]
            later = at + 4 * SECOND
            found.append((later, self.order(f"release {camera.name} 0", later, orders)))
        if self.is_piped:
            found += [(at + it * 1000, self.order("help", at + it * 1000, orders))
                      for it in range(120)]
        return lines, found

    def line(self, camera: Camera, at: int) -> str:
        """The line of a frame."""
        words = ["FRAME"]
        if camera.says_times:
            words.append(f"Xt={EPOCH + at - 20_000}")
        if camera.says_numbers:
            words.append(f"Xn={camera.frame}")
        return " ".join(words)

    def order(self, text: str, at: int, orders: dict[str, str]) -> str:
        """The line of the script for an order, with a label of its own."""
        label = f"o{self.count}"
        self.count += 1
        orders[label] = text
        return f"order {at} @{label} {text}"

    def orders(self, since: int, until: int, orders: dict[str, str]) -> list[tuple[int, str]]:
        """What is ordered meanwhile."""
        pick, found = self.chance, []
        at = since + pick.randint(0, 2 * SECOND)
        busy = pick.choice((300_000, SECOND, 3 * SECOND))
        while at < until:
            line = self.order(self.any_order(at), at, orders)
            if pick.random() < 0.03 and at < until - 2 * SECOND:
                # Its end counts once its writer has closed the pipe, which the next one mustn't
                # open before that is read.
                found.append((at, f"unended {line[6:]}"))
                at += SECOND
                continue
            found.append((at, line))
            if pick.random() < 0.1 and at < until - 2 * SECOND:
                found += self.reused(at + pick.choice((0, 200_000, SECOND)), orders)
                at = found[-1][0]
            at += pick.choice((0, 1000, busy, busy, pick.randint(0, 2 * busy)))
        return found

    def reused(self, at: int, orders: dict[str, str]) -> list[tuple[int, str]]:
        """An event whose end lies ahead, of which a part is released, so that another clip gets its
        id: it stays locked when the event goes on."""
        pick = self.chance
        name = pick.choice(self.cameras).name
        texts = [f"keep {name} 1 +{pick.randint(2, 6)}"]
        texts += [f"release {name} {it}" for it in range(pick.randint(1, 4))]
        texts += [f"keep {name} {pick.randint(0, 2)} 55"]
        found = []
        for text in texts:
            found.append((at, self.order(text, at, orders)))
            at += pick.choice((1, 1000, 100_000))
        return found

    def any_order(self, at: int) -> str:
        """An order."""
        pick = self.chance
        camera = pick.choice(self.cameras)
        clip = pick.choice((0, 0, 1, 1, 2, 3)) + 64 * pick.randrange(camera.stores)
        what = pick.random()
        if what < 0.12:
            return f"keep {pick.choice((camera.name, ''))}".strip()
        if what < 0.35:
            whom = pick.choice((f"{camera.name} ", ""))
            after = pick.choice(("", f" +{pick.randint(1, 4)}"))
            tag = pick.choice(("", "", f" {pick.randint(1, 9)}"))
            return f"keep {whom}{pick.randint(0, 2)}{after}{tag}"
        if what < 0.4:
            since = at - pick.choice((0, 1, 5)) * SECOND
            until = since + pick.choice((0, 1, 3, 6)) * SECOND
            tag = pick.choice(("", " 7"))
            return f"keep {camera.name} from {moment(since)} to {moment(until)}{tag}"
        if what < 0.6:
            first = pick.choice(("", "", "", f" {pick.randint(0, 60)}"))
            return f"release {camera.name} {clip}{first}"
        if what < 0.75:
            bang = pick.choice(("", "!"))
            if pick.random() < 0.1:
                # A pipe that nobody reads.
                return f"save {camera.name} {clip} nobody"
            out = f"saved{pick.randint(0, SAVED)}"
            if self.saves and pick.random() < 0.7:
                out = f"{self.saves}/{out}"
            if pick.random() < 0.05:
                # What the station itself reads or writes.
                out = pick.choice((*camera.paths(), "station.toml", "answers", "orders",
                                   f"{camera.name}.loop.events", f"{camera.name}.y4m"))
            if pick.random() < 0.2:
                return f"save{bang} {camera.name} #{pick.choice((7, 1, 2))} {out}"
            return f"save{bang} {camera.name} {clip} {out}"
        if what < 0.78:
            return f"cancel {camera.name} {clip}"
        if what < 0.88:
            return "status"
        if what < 0.95:
            return "list"
        return pick.choice(("help", "keep nobody", "what is this", "keep 1 +4000", "reload"))
