"""What is rare in the worlds of tests/simulate: keeps, saves, releases and starts that meet. From
the seed 20,000 to 29,999 each world plays a scene with its first camera, in each of its lives: what
its seed says, with other numbers. In most of these worlds nothing else happens."""
from __future__ import annotations

import dataclasses
import random
from typing import TYPE_CHECKING

if TYPE_CHECKING:
    from simulated_world import Camera, World

SECOND = 1_000_000
EIO, ENOSPC = 5, 28
# The seeds of these worlds.
FIRST, LAST = 20_000, 29_999
# The ids of a store's clips that a scene names.
IDS = 4


@dataclasses.dataclass
class Part:
    """A life of a scene: its time, lines of its script and what comes, and the orders by their
    labels."""

    world: World
    camera: Camera
    pick: random.Random
    since: int
    until: int
    is_first: bool
    orders: dict[str, str]
    lines: list[str] = dataclasses.field(default_factory=list)
    events: list[tuple[int, str]] = dataclasses.field(default_factory=list)
    # The times in which the camera brings no frame.
    silences: list[tuple[int, int]] = dataclasses.field(default_factory=list)
    is_slow: bool = False

    def order(self, at: int, text: str) -> None:
        """Somebody orders something, with the camera's name for a `*`, if the life lasts so
        long."""
        if at < self.until:
            text = text.replace("*", self.camera.name)
            self.events.append((at, self.world.order(text, at, self.orders)))

    def ids(self) -> list[int]:
        """The ids of the first clips of each store."""
        return [64 * store + it for it in range(IDS) for store in range(self.camera.stores)]

    def releases(self, at: int) -> None:
        """Somebody releases all that a scene has locked."""
        for own in self.ids():
            self.order(at, f"release * {own}")

    def rounds(self, every: int) -> range:
        """When a scene begins, again and again."""
        begin = self.since + self.pick.randint(SECOND, 3 * SECOND)
        return range(begin, max(begin, self.until - every), every)

    def is_silent(self, event: tuple[int, str]) -> bool:
        """Whether a frame of the camera doesn't come."""
        at, line = event
        words = line.split(" ")
        return words[0] == "frame" and int(words[2]) == self.camera.pipe and any(
            since <= at < until for since, until in self.silences)


class Scene:
    """A scene: how many stores its camera may have, and further words of its configuration."""

    STORES: tuple[int, ...] = (1, 2, 3)
    WORDS: dict[str, object] = {}
    SEGMENTS, SLOTS = (3, 6), (2, 8)
    # Of its camera's stores the first alone is there at the beginning.
    IS_ALONE = False

    def sets(self, camera: Camera, pick: random.Random) -> None:
        """Makes a world's first camera what the scene needs."""
        for word in ("tag", "after", "save_to", "release", "times_from", "memory"):
            camera.words.pop(word, None)
        camera.says_times = False
        camera.stores = pick.choice(self.STORES)
        camera.segments, camera.slots = pick.randint(*self.SEGMENTS), pick.randint(*self.SLOTS)
        camera.words["when_full"] = "stop"
        camera.words.update(self.WORDS)

    def comes(self, part: Part) -> None:
        """What comes in a life."""
        raise NotImplementedError


class Reused(Scene):
    """Parts of an event are released, and another clip gets their ids before it grows."""

    def comes(self, part: Part) -> None:
        for at in part.rounds(7 * SECOND):
            part.order(at, f"keep * 1 +{part.pick.randint(3, 5)}")
            at += part.pick.choice((1000, 100_000, SECOND))
            part.releases(at)
            part.order(at + part.pick.choice((1, 1000)), f"keep * {part.pick.randint(1, 3)} 55")


class Making(Scene):
    """All is locked in the first store of several, while the next one is made slowly."""

    STORES, SEGMENTS, SLOTS, IS_ALONE = (2, 3), (3, 3), (2, 4), True

    def comes(self, part: Part) -> None:
        name, end = part.camera.name, part.since + 4 * SECOND
        part.lines.append(f"slow {part.since} {end} {name}.001.loop.new 900000")
        for at in range(part.since + SECOND // 2, end, part.pick.choice((200_000, 400_000))):
            part.order(at, "keep * 30")


class Failing(Scene):
    """A store fails, while an event goes on."""

    STORES, SEGMENTS, SLOTS = (1, 1, 2, 3), (8, 12), (2, 4)

    def comes(self, part: Part) -> None:
        for at in part.rounds(10 * SECOND):
            after = part.pick.randint(4, 6)
            part.order(at, f"keep * 1 +{after}")
            if part.pick.random() < 0.5:
                # Its last part is locked while nothing else is written, and perhaps unknown.
                end = at + after * SECOND
                part.silences.append((end - SECOND, end + SECOND))
                self.fails(part, end, 2)
            else:
                self.fails(part, at + part.pick.randint(SECOND // 2, 4 * SECOND),
                           part.pick.choice((1, 2, 3)))
            part.releases(at + 9 * SECOND)

    @staticmethod
    def fails(part: Part, begin: int, every: int) -> None:
        """A store, or all of them, fail for some time, at one call of so many."""
        path = part.pick.choice((*part.camera.paths(), part.camera.name))
        end = begin + part.pick.choice((100_000, 300_000, 600_000))
        part.lines.append(f"bad {begin} {end} {path} sync {EIO} {every}")


class Locked(Scene):
    """All is locked while an event goes on and frames wait."""

    STORES, SEGMENTS = (1, 1, 2), (3, 3)

    def comes(self, part: Part) -> None:
        for at in part.rounds(11 * SECOND):
            for more in range(0, 4 * SECOND, 400_000):
                part.order(at + more, "keep * 30 55")
            part.order(at + 4 * SECOND, "keep * 1 +2")
            for more in (5, 6, 8):
                part.order(at + more * SECOND, "status")
            for own in range(12 * part.camera.stores):
                part.order(at + 9 * SECOND, f"release * {own // 12 * 64 + own % 12}")


class Saving(Scene):
    """Clips are saved by themselves, and then to be released, while another save reads them."""

    WORDS = {"save_to": "clips", "release": True}

    def comes(self, part: Part) -> None:
        part.lines.append(f"reads {part.camera.name} {part.pick.choice((500, 2000))}")
        for tag, at in enumerate(part.rounds(7 * SECOND), 60):
            part.order(at, f"keep * 1 {tag}")
            part.order(at + 1, f"keep * 2 {tag}")
            what = part.pick.choice((f"#{tag}", f"#{tag}", "0"))
            at += part.pick.choice((2, 1000))
            part.order(at, f"save * {what} nobody")
            part.order(at + 1, "list")
            for own in part.ids():
                part.order(at + 1_500_000, f"cancel * {own}")


class Slow(Scene):
    """The disk of several stores is slow: frames wait that come before a keep."""

    STORES = (2, 3)

    def comes(self, part: Part) -> None:
        part.is_slow = True
        for at in part.rounds(6 * SECOND):
            stall = part.pick.choice((200_000, 400_000))
            part.lines.append(f"slow {at} {at + 3 * SECOND} {part.camera.name}. {stall}")
            for more in range(SECOND // 2, 4 * SECOND, 700_000):
                part.order(at + more + part.pick.randint(0, 200_000), "keep * 2")
            part.releases(at + 5 * SECOND)


class Opening(Scene):
    """Stores are opened slowly, and what they hold is kept and saved meanwhile."""

    STORES = (3, 4)

    def comes(self, part: Part) -> None:
        part.is_slow = True
        pick = part.pick
        part.lines.append(f"reads {part.camera.name} {pick.choice((5000, 20_000))}")
        for more in (100_000, 500_000, SECOND):
            at = part.since + more + pick.randint(0, 200_000)
            part.order(at, pick.choice(("keep * 25 55", f"save * #55 saved{pick.randint(0, 20)}")))
        middle = (part.since + part.until) // 2
        part.releases(middle - SECOND)
        part.order(middle + SECOND, "keep * 25 55")


class Stores(Scene):
    """Clips of each store are saved."""

    STORES = (2, 3, 4)

    def comes(self, part: Part) -> None:
        for at in part.rounds(5 * SECOND):
            part.order(at, "keep * 20 55")
            for store in range(part.camera.stores):
                path = f"saved{part.pick.randint(0, 20)}"
                part.order(at + 300_000 * (store + 1), f"save! * {64 * store} {path}")
            part.releases(at + 3 * SECOND)


class Refused(Scene):
    """A lock fails on the disk, while no frame waits there."""

    def comes(self, part: Part) -> None:
        for at in part.rounds(10 * SECOND):
            path = part.pick.choice(part.camera.paths())
            if path == part.camera.paths()[0] or part.camera.stores == 1:
                part.silences.append((at, at + 6 * SECOND))
            begin = at + SECOND
            part.lines.append(f"bad {begin} {begin + 300_000} {path} sync {EIO} 1")
            part.order(begin + 100_000, "keep * 3 55")
            part.order(begin + 4 * SECOND, "keep * 3 56")
            part.releases(at + 8 * SECOND)


class Nobody(Scene):
    """Clips are to make room, and are released, while a save reads them that nobody takes."""

    SEGMENTS, WORDS = (3, 4), {"when_full": "release oldest"}

    def comes(self, part: Part) -> None:
        for at in part.rounds(9 * SECOND):
            part.order(at, "keep * 1 55")
            what = part.pick.choice(("0", "#55", str(64 * (part.camera.stores - 1))))
            part.order(at + 1000, f"save * {what} nobody")
            part.order(at + 2000, "list")
            for own in part.ids() if part.pick.random() < 0.5 else ():
                part.order(at + 300_000, f"release * {own}")
            for more in range(600_000, 5 * SECOND, 400_000):
                part.order(at + more, f"keep * 30 {60 + more % 7}")
            for own in part.ids():
                part.order(at + 6 * SECOND, f"cancel * {own}")


class Resumed(Scene):
    """An event goes on after a start, before a frame has said what its source's clock shows."""

    STORES, SEGMENTS, SLOTS, WORDS = (3, 4), (4, 6), (2, 2), {"times_from": "source"}

    def sets(self, camera: Camera, pick: random.Random) -> None:
        super().sets(camera, pick)
        camera.says_times, camera.period = True, 250_000

    def comes(self, part: Part) -> None:
        pick = part.pick
        part.silences.append((part.since, part.since + pick.randint(SECOND // 2, 2 * SECOND)))
        span = part.until - part.since
        part.releases(part.since + span * 13 // 20)
        part.order(part.since + span * 15 // 20, f"keep * 1 +{pick.randint(4, 6)}")


class Stopping(Scene):
    """Orders come right before a stop."""

    def comes(self, part: Part) -> None:
        for text in ("keep * 1 55", "list", "keep * 2", "list"):
            part.order(part.until - part.pick.choice((1, 2, 20, 1000, 20_000)), text)


class Unnoted(Scene):
    """The file of events can't be written for some time, in which one begins."""

    def comes(self, part: Part) -> None:
        if not part.is_first:
            return
        at = part.since + part.pick.randint(SECOND, 2 * SECOND)
        call = part.pick.choice(("open", "write", "sync", "rename"))
        name = f"{part.camera.name}.loop.events"
        part.lines.append(f"bad {at} {at + 2 * SECOND} {name} {call} {ENOSPC} 1")
        part.order(at + SECOND // 2, f"keep * 1 +{part.pick.randint(20, 40)}")


class Silent(Scene):
    """Nothing comes for a while, and then what came before and after that is kept."""

    SEGMENTS, SLOTS = (5, 6), (6, 8)

    def comes(self, part: Part) -> None:
        for at in part.rounds(4 * SECOND):
            part.silences.append((at, at + part.pick.randint(900_000, 1_500_000)))
            part.order(at + 1_900_000, f"keep * {part.pick.choice((2, 3))} 55")
            part.releases(at + 3 * SECOND)


SCENES: list[Scene] = [
    Reused(), Making(), Failing(), Locked(), Saving(), Slow(), Opening(), Stores(), Refused(),
    Nobody(), Resumed(), Stopping(), Unnoted(), Silent(),
]


class Play:
    """The scene of a world."""

    def __init__(self, world: World) -> None:
        pick = random.Random(f"scene {world.seed}")
        self.scene, self.camera = SCENES[world.seed % len(SCENES)], world.cameras[0]
        # Nothing else happens.
        self.is_alone = pick.random() < 0.7
        self.scene.sets(self.camera, pick)

    def files(self, files: dict[str, bytes]) -> dict[str, bytes]:
        """The files with which the world begins."""
        gone = self.camera.paths()[1:] if self.scene.IS_ALONE else []
        return {path: data for path, data in files.items() if path not in gone}

    def life(self, world: World, since: int, until: int, is_first: bool,
             orders: dict[str, str]) -> Part:
        """What comes in a life."""
        pick = random.Random(f"scene {world.seed} {since}")
        part = Part(world, self.camera, pick, since, until, is_first, orders)
        self.scene.comes(part)
        return part


def play_of(world: World) -> Play | None:
    """The scene of a world, if it has one."""
    return Play(world) if FIRST <= world.seed <= LAST else None
