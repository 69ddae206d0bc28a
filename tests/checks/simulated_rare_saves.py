"""What is rare in the other worlds of tests/simulate: saves, stores and sources in trouble. From
the seed 30,000 to 39,999 each world has one of these scenes, by its seed, and nothing else. A scene
says what the world's first camera is like, and what a life of it brings: lines of the script,
orders, and when its source rests."""
from __future__ import annotations

import dataclasses
import random
from collections.abc import Callable
from typing import TYPE_CHECKING, NamedTuple

import layout

if TYPE_CHECKING:
    from simulated_world import Camera, Life, World

SECOND = 1_000_000
EIO, ENOSPC = 5, 28
# The seeds of these worlds.
FIRST, LAST = 30_000, 39_999
# So many scenes have a place: a seed's remainder says which one is its scene.
PLACES = 20
# How many ids of clips are released when a life begins.
IDS = 6


@dataclasses.dataclass
class Act:
    """What a life has: how long it lasts and how it ends, where that matters; lines of its script;
    orders, and other lines that happen at a time; when its source rests, and whether its writer
    leaves then; how many numbers the next writer passes over, and one that stays; which files are
    there besides, and which cameras come or go."""

    span: int
    orders: list[tuple[int, str]]
    end: str = ""
    lines: list[str] = dataclasses.field(default_factory=list)
    others: list[tuple[int, str]] = dataclasses.field(default_factory=list)
    rests: list[tuple[int, int, bool]] = dataclasses.field(default_factory=list)
    jumps: int = 0
    lost: int = 0
    files: dict[str, str] = dataclasses.field(default_factory=dict)
    changed: set[str] = dataclasses.field(default_factory=set)


class Shape(NamedTuple):
    """What the first camera of a scene is like, and its words of the station's file: those that are
    left out are as in any world, and None is no word. Then what each life of it has."""

    camera: dict[str, object]
    words: dict[str, object]
    act: Callable[[Scene, int], Act]
    # The only folder into which orders may write.
    saves: str = ""
    # The pipes into which clips are saved, and that somebody reads.
    sinks: tuple[str, ...] = ()


class Scene:
    """The scene of a world."""

    def __init__(self, world: World, shape: Shape) -> None:
        self.world, self.chance = world, random.Random(f"scene {world.seed}")
        self.shape = shape
        world.has_faults = world.kills_early = world.is_piped = False
        world.saves = shape.saves
        del world.cameras[2:]
        self.first = first = world.cameras[0]
        for name, value in shape.camera.items():
            setattr(first, name, value)
        first.words["losses"] = "numbers" if first.says_numbers else "none"
        words = {"times_from": None, **shape.words}
        first.words = {it: value for it, value in {**first.words, **words}.items()
                       if value is not None}
        first.says_times = "times_from" in first.words
        world.sinks = shape.sinks
        if shape.saves:
            world.links.update({"clips/away": "..", "clips/leads": "../precious"})
        self.lived, self.begun = 0, 0

    def stores(self) -> dict[str, bytes]:
        """The stores with which it begins: all are there, empty."""
        return {path: layout.fresh(camera.geometry()) for camera in self.world.cameras
                for path in camera.paths()}

    def life(self, now: int, is_last: bool) -> Life:
        """The next life, which begins now."""
        from simulated_world import Life
        self.lived, self.begun = self.lived + 1, now
        act, orders = self.shape.act(self, now), {}
        until = now + act.span
        end = "stop" if is_last else act.end or self.chance.choice(("stop", "kill", "power"))
        events = [(at, self.world.order(text, at, orders)) for at, text in act.orders]
        for camera in self.world.cameras:
            rests = act.rests if camera is self.first else []
            events += self.frames(camera, now, until, rests, act)
        events += act.others
        if end == "stop":
            events.append((until, self.world.order("stop", until, orders)))
        last = until + (100 * SECOND if end == "stop" else 0)
        events.append((last, f"kill {last}"))
        events.sort(key=lambda it: it[0])
        syncs = [f"sync {it.name} {self.chance.choice((50, 500, 3000))}"
                 for it in self.world.cameras]
        script = [*self.world.begins(now, True), *syncs, *act.lines, *(it for _, it in events)]
        calls = {it.split()[0] for it in act.lines}
        down = self.chance.choice((100_000, SECOND))
        return Life(now, until, "\n".join(script) + "\n", end, orders,
                    bool(calls & {"bad", "refuse"}),
                    bool(calls & {"bad", "slow", "reads", "refuse"}), down, act.files,
                    act.changed)

    def frames(self, camera: Camera, since: int, until: int, rests: list[tuple[int, int, bool]],
               act: Act) -> list[tuple[int, str]]:
        """What a source brings meanwhile: frames, but where it rests."""
        from simulated_world import SIZE
        found, at = [], max(camera.due, since + self.chance.randint(0, SECOND // 2))
        if camera.is_pattern():
            return []
        left = sorted(rests)
        while at < until:
            if left and left[0][0] <= at:
                begin, at, is_left = left.pop(0)
                if is_left:
                    found.append((begin, f"close {begin} {camera.pipe}"))
                camera.frame += act.jumps if is_left else act.lost
                continue
            found.append((at, f"frame {at} {camera.pipe} {camera.frame} {SIZE}"
                              f" {self.world.line(camera, at)}"))
            camera.frame += 1
            at += camera.period + self.chance.randint(-camera.period // 20, camera.period // 20)
        camera.due = at
        return found

    def freed(self, at: int) -> list[tuple[int, str]]:
        """All clips are released, so that the next one has the id 0."""
        return [(at + it * 1000, f"release {self.first.name} {it}") for it in range(IDS)]

    def out(self, folder: str = "") -> str:
        """A name that no other save has."""
        self.world.count += 1
        return f"{folder}out{self.world.count}"


def saved_makes_room(scene: Scene, now: int) -> Act:
    """Every block is locked, and the clip that may go is one that a save has written."""
    name, at = scene.first.name, now + 4 * SECOND
    orders = [*scene.freed(now + SECOND), (at, f"keep {name} 30 55"),
              (at + SECOND, f"save {name} 0 {scene.out()}")]
    return Act(15 * SECOND, orders)


def saved_is_released(scene: Scene, now: int) -> Act:
    """Clips are saved by themselves, and then released."""
    at = now + scene.chance.randint(2, 4) * SECOND
    orders = [(at + it * 2 * SECOND, f"keep {scene.first.name} 1") for it in range(2)]
    return Act(14 * SECOND, orders, "kill")


def waits_for_a_disk(scene: Scene, now: int) -> Act:
    """A clip that is to be saved by itself can't be written for a while."""
    call = scene.chance.choice(("open", "write", "sync"))
    lines = [f"bad {now} {now + 10 * SECOND} .part {call} {EIO} 1"]
    return Act(85 * SECOND, [(now + 4 * SECOND, f"keep {scene.first.name} 1")], "", lines)


def cancelled(scene: Scene, now: int) -> Act:
    """A save is cancelled while it writes."""
    name, at = scene.first.name, now + 5 * SECOND
    orders = [*scene.freed(now + SECOND), (at, f"keep {name} 30")]
    for turn in range(3):
        at += SECOND
        after = scene.chance.choice((20_000, 60_000, 100_000, 200_000))
        orders += [(at, f"save {name} 0 {scene.out()}"), (at + after, f"cancel {name} 0")]
    lines = [f"reads {name}. 20000"] if scene.lived % 2 else \
        [f"slow {now} {now + 60 * SECOND} out 300000"]
    return Act(12 * SECOND, orders, "", lines)


def outside(scene: Scene, now: int) -> Act:
    """Orders say files that don't lie in the only folder for them."""
    name, at = scene.first.name, now + 4 * SECOND
    where = ["", "clips/../", "clips/away/", "./", "clips/"]
    orders = [*scene.freed(now + SECOND), (at, f"keep {name} 1")]
    orders += [(at + (it + 1) * 200_000, f"save {name} 0 {scene.out(folder)}")
               for it, folder in enumerate(where)]
    orders.append((at + 2 * SECOND, f"save! {name} 0 clips/leads"))
    return Act(8 * SECOND, orders)


def slow_opening(scene: Scene, now: int) -> Act:
    """Stores of which all are full are opened slowly, while frames come."""
    first = scene.first
    fill = first.stores * first.segments * first.slots * first.period
    if scene.lived == 1:
        return Act(fill + 4 * SECOND, [])
    reads = scene.chance.choice((40_000, 80_000, 120_000))
    opening = first.stores * (first.segments * first.slots + 10) * reads
    return Act(opening + 10 * SECOND, [(now + opening + 9 * SECOND, "status")], "",
               [f"reads {first.name}. {reads}"])


def rests(scene: Scene, now: int) -> Act:
    """A source is silent for long, or its writer leaves for long."""
    since = now + scene.chance.randint(3, 5) * SECOND
    is_left = scene.chance.random() < 0.5
    return Act(18 * SECOND, [], "", [], [], [(since, since + 6 * SECOND, is_left)])


def other_writers(scene: Scene, now: int) -> Act:
    """A writer leaves, and the next one's numbers are far from its own."""
    name, orders, pauses = scene.first.name, [], []
    at = now + 3 * SECOND
    for _ in range(3):
        pauses += [(at, at + SECOND, True), (at + 3 * SECOND, at + 5 * SECOND, False)]
        orders += [(at + 2 * SECOND, f"keep {name} 2"), (at + 4 * SECOND, "status")]
        at += 6 * SECOND
    return Act(at - now, orders, "", [], [], pauses, scene.chance.randint(2, 30))


def replaces(scene: Scene, now: int) -> Act:
    """Files are there that a save may replace, or may not."""
    name, at = scene.first.name, now + 4 * SECOND
    orders = [*scene.freed(now + SECOND), (at, f"keep {name} 1"),
              (at + SECOND, f"keep {name} 1")]
    saves = ["save {} 0 saved1", "save {} 1 saved1", "save! {} 0 saved7", "save {} 0 saved7",
             "save! {} 1 saved1"]
    orders += [(at + (it + 6) * 200_000, text.format(name)) for it, text in enumerate(saves)]
    return Act(8 * SECOND, orders)


def lost_while_read(scene: Scene, now: int) -> Act:
    """A store is moved away, or its disk fails, while saves read it, and none is made anew."""
    name, at = scene.first.name, now + 5 * SECOND
    path = scene.first.paths()[0]
    orders = [*scene.freed(now + SECOND), (at, f"keep {name} 30")]
    orders += [(at + 500_000 + it, f"save {name} 0 {scene.out()}") for it in range(6)]
    lines = [f"reads {name}. 20000",
             f"bad {now} {now + 60 * SECOND} {path}.new truncate {ENOSPC} 1"]
    lost = at + 600_000 + scene.chance.randint(0, 100_000)
    return Act(18 * SECOND, orders, "", lines, [(lost, f"move {lost} {path} moved{lost}")])


def stalled(scene: Scene, now: int) -> Act:
    """A disk stands still until memory is full, and goes on."""
    since = now + 3 * SECOND
    stall = scene.chance.choice((10, 14)) * SECOND
    return Act(24 * SECOND, [], "", [f"slow {since} {since + SECOND} {scene.first.name}. {stall}"])


def one_fails(scene: Scene, now: int) -> Act:
    """The disk of one store of several fails for a while."""
    path = scene.chance.choice(scene.first.paths()[1:])
    since = now + scene.chance.randint(3, 6) * SECOND
    until = since + scene.chance.choice((2, 4)) * SECOND
    return Act(20 * SECOND, [], "", [f"bad {since} {until} {path} sync {EIO} 1"])


def unlocks_fail(scene: Scene, now: int) -> Act:
    """The disk fails as a clip is released, while nothing comes."""
    name, path, at = scene.first.name, scene.first.paths()[0], now + 4 * SECOND
    orders, lines, pauses = scene.freed(now + SECOND), [], []
    for call in ("write", scene.chance.choice(("write", "sync"))):
        pauses.append((at + SECOND, at + 4 * SECOND, False))
        lines.append(f"bad {at + 3 * SECOND // 2} {at + 5 * SECOND // 2} {path} {call} {EIO} 1")
        orders += [(at, f"keep {name} 1 55"), (at + 2 * SECOND, f"release {name} 0"),
                   *scene.freed(at + 7 * SECOND)]
        at += 8 * SECOND
    return Act(at - now, orders, "", lines, [], pauses)


def another_of_its_id(scene: Scene, now: int) -> Act:
    """A clip that was saved by itself is released by an order, and another one gets its id, before
    the station has released it."""
    name, at, orders = scene.first.name, now + 3 * SECOND, []
    stall = scene.chance.choice((150_000, 250_000))
    lines = [f"slow {now} {now + 100 * SECOND} clips {2 * stall}",
             f"slow {now} {now + 100 * SECOND} {name}. {stall}"]
    for _ in range(4):
        after = at + scene.chance.randint(3 * SECOND // 2, 9 * SECOND // 2)
        orders += [(at, f"keep {name} 1"), (after, f"release {name} 0"),
                   (after + 1, f"keep {name} 0 +2")]
        at += 10 * SECOND
    return Act(at - now, orders, "", lines)


def to_come(scene: Scene, now: int) -> Act:
    """Events whose end lies ahead."""
    name, at = scene.first.name, now + 3 * SECOND
    orders = []
    for _ in range(4):
        ahead = scene.chance.randint(1, 4)
        orders.append((at, scene.chance.choice((f"keep {name} 1 +{ahead}", f"keep 1 +{ahead}"))))
        at += scene.chance.randint(1, 3) * SECOND
    return Act(at - now + 6 * SECOND, orders)


# No clip is saved by itself, none ends later than its order, and none goes by itself.
PLAIN: dict[str, object] = {"save_to": None, "release": None, "after": None, "tag": None,
                            "memory": None, "when_full": "stop"}
ITSELF = {**PLAIN, "save_to": "clips"}
ONE: dict[str, object] = {"stores": 1, "segments": 6, "slots": 8}
FULL: dict[str, object] = {"stores": 4, "segments": 3, "slots": 4, "period": 40_000}
# Each in its place: a further one comes last, so that the seeds of the others stay.
SHAPES = [
    Shape({**ONE, "segments": 3, "slots": 4}, {**PLAIN, "when_full": "release saved"},
          saved_makes_room),
    Shape(ONE, {**ITSELF, "release": True}, saved_is_released),
    Shape({**ONE, "period": 100_000}, ITSELF, waits_for_a_disk),
    Shape(ONE, PLAIN, cancelled),
    Shape(ONE, PLAIN, outside, "clips"),
    Shape(FULL, {**PLAIN, "memory": "60 s"}, slow_opening),
    Shape(FULL, {**PLAIN, "memory": 1000}, slow_opening),
    Shape(ONE, PLAIN, rests),
    Shape({**ONE, "says_numbers": True}, PLAIN, other_writers),
    Shape(ONE, PLAIN, replaces),
    Shape(ONE, PLAIN, lost_while_read),
    Shape({**ONE, "period": 40_000}, {**PLAIN, "memory": 1000, "buffers": 4}, stalled),
    Shape({"stores": 3, "segments": 4, "slots": 4}, PLAIN, one_fails),
    Shape(ONE, PLAIN, to_come),
    Shape(ONE, PLAIN, unlocks_fail),
    Shape(ONE, {**ITSELF, "release": True}, another_of_its_id),
]
# The places that are left have some of them once more.
SHAPES += SHAPES[2:6]


def scene_of(world: World) -> Scene | None:
    """The scene of a world, if it has one."""
    if FIRST <= world.seed <= LAST:
        return Scene(world, SHAPES[world.seed % PLACES])
    return None
