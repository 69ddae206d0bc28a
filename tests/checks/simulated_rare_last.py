"""What is rare in the last worlds of tests/simulate: the station's file is read anew while
something is under way, disks fail while frames wait, clips that are saved by themselves are
cancelled or found again, and memory is refused for one thing alone. From the seed 60,000 to 69,999
each world has one of these scenes, by its seed, and nothing else."""
from __future__ import annotations

from typing import TYPE_CHECKING

from simulated_rare_saves import EIO, ITSELF, ONE, PLAIN, Act, Scene, Shape

if TYPE_CHECKING:
    from simulated_world import World

SECOND = 1_000_000
# The seeds of these worlds.
FIRST, LAST = 60_000, 69_999
# So many scenes have a place: a seed's remainder says which one is its scene.
PLACES = 20


class Pair(Scene):
    """A scene with a second camera, so that the first one may be taken away."""

    def __init__(self, world: World, shape: Shape) -> None:
        super().__init__(world, shape)
        if len(world.cameras) < 2:
            world.cameras.append(world.camera(1))

    def reloads(self, act: Act, at: int, text: str) -> None:
        """The station's file gets a text, and is read anew."""
        file = f"next.{len(act.files)}"
        act.files[file] = text
        act.changed.add(self.first.name)
        act.others.append((at, f"move {at} {file} station.toml"))
        act.orders.append((at + 1, "reload"))

    def ends(self, act: Act, at: int) -> None:
        """The first camera is taken away, or its words become others; mostly it comes back."""
        first, world = self.first, self.world
        text = world.config(first.name)
        if self.chance.random() < 0.3:
            words = first.words
            first.words = {**words, "keep": 9}
            text = world.config()
            first.words = words
        self.reloads(act, at, text)
        if self.chance.random() < 0.7:
            self.reloads(act, at + self.chance.choice((1, 3, 6)) * SECOND, world.config())


def ends_with_saves(scene: Pair, now: int) -> Act:
    """A camera ends while clips of it are saved, or wait for a reader or for their disk."""
    pick, name, at = scene.chance, scene.first.name, now + 4 * SECOND
    act = Act(18 * SECOND, [*scene.freed(now + SECOND), (at, f"keep {name} 30 55")])
    for more in range(pick.randint(1, 4)):
        out = pick.choice(("nobody", scene.out(), scene.out()))
        act.orders.append((at + SECOND + more, f"save {name} {pick.choice(('0', '#55'))} {out}"))
    if pick.random() < 0.5:
        act.lines.append(f"reads {name}. 20000")
    if pick.random() < 0.3:
        act.lines.append(f"bad {now} {now + 60 * SECOND} .part open {EIO} 1")
    scene.ends(act, at + SECOND + pick.choice((1000, 100_000, 400_000, 2 * SECOND)))
    act.orders.append((at + 12 * SECOND, "status"))
    return act


def ends_with_keeps(scene: Pair, now: int) -> Act:
    """A camera ends while keeps wait for a slow disk, and events go on."""
    pick, name = scene.chance, scene.first.name
    at, act = now + pick.randint(3, 5) * SECOND, Act(20 * SECOND, [])
    act.lines.append(f"slow {at - SECOND} {at + 2 * SECOND} {name}. "
                     f"{pick.choice((100_000, 200_000, 400_000))}")
    act.orders += [(at - SECOND // 2, f"keep {name} 1 +{pick.randint(4, 12)}"),
                   (at, f"keep {name} 1 55"), (at + 1, f"keep {name} 2 56"), (at + 2, "list")]
    scene.ends(act, at + pick.choice((3, 1000, 50_000)))
    act.orders += [(at + 12 * SECOND, "list"), (at + 13 * SECOND, f"keep {name} 1")]
    return act


def breaks(scene: Scene, now: int) -> Act:
    """A disk stands still until many frames wait, some of which the source has lost, and fails."""
    pick, name = scene.chance, scene.first.name
    since = now + 5 * SECOND
    stall = pick.choice((1, 2, 3)) * SECOND
    until = since + stall + pick.choice((1, 3)) * SECOND
    lines = [f"slow {since} {since + SECOND} {name}. {stall}",
             f"bad {since} {until} {name}. {pick.choice(('sync', 'write'))} {EIO} 1"]
    pauses = [(since - it * 300_000, since - it * 300_000 + 100, False) for it in range(1, 9)]
    act = Act(30 * SECOND, [], "", lines, [], pauses)
    act.lost = pick.randint(1, 9)
    act.orders += [(until + it * SECOND, "status") for it in (7, 9, 12, 14, 16)]
    if pick.random() < 0.5:
        pauses.append((until + 10 * SECOND, now + 30 * SECOND, False))
    return act


def goes_on_saved(scene: Scene, now: int) -> Act:
    """Events whose clips are saved by themselves go on after a kill."""
    pick, name = scene.chance, scene.first.name
    at = now + pick.randint(2, 4) * SECOND
    orders = [(at, f"keep {name} 1 +{pick.randint(3, 12)}"), (at + SECOND, f"keep {name} 1")]
    return Act(pick.choice((4, 5, 6, 9)) * SECOND, orders, "kill")


def found_again(scene: Scene, now: int) -> Act:
    """A store is opened again while clips of it wait to be saved by themselves, or are saved."""
    pick, name, at = scene.chance, scene.first.name, now + 3 * SECOND
    lines = [f"bad {now} {now + 25 * SECOND} .part {pick.choice(('open', 'sync'))} {EIO} 1"] \
        if pick.random() < 0.6 else [f"slow {now} {now + 25 * SECOND} .part 4000000"]
    for more in (3, 7):
        since = at + more * SECOND
        lines.append(f"bad {since} {since + SECOND} {name}. sync {EIO} 1")
    return Act(22 * SECOND, [(at, f"keep {name} 1"), (at + SECOND, f"keep {name} 1")], "", lines)


def cancelled(scene: Scene, now: int) -> Act:
    """A save that began by itself is cancelled while it writes."""
    pick, name, at, orders = scene.chance, scene.first.name, now + 5 * SECOND, []
    orders += scene.freed(now + SECOND)
    for _ in range(3):
        orders += [(at, f"keep {name} 30"),
                   (at + pick.choice((200_000, 400_000, 600_000)), f"cancel {name} 0"),
                   (at + 700_000, f"cancel {name} 0"), *scene.freed(at + 3 * SECOND)]
        at += 5 * SECOND
    return Act(at - now, orders, "", [f"reads {name}. 20000"])


def without_rows(scene: Scene, now: int) -> Act:
    """Memory is refused for single frames, while many wait, also at the very beginning."""
    pick, name = scene.chance, scene.first.name
    since = now + pick.choice((0, 200_000, 500_000, 2 * SECOND))
    lines = [f"sync {name}. {pick.choice((10_000, 25_000))}",
             f"refuse {since} {since + 3 * SECOND} {pick.choice((1, 2, 4))}"
             f" {pick.choice((1, 3, 20))} 128 129"]
    orders = [(since + it * SECOND, "status") for it in (8, 10, 12)]
    orders.append((since + 13 * SECOND, f"keep {name} 2"))
    return Act(17 * SECOND, orders, "", lines)


def without_orders(scene: Scene, now: int) -> Act:
    """The pipe of orders is moved away, and there is no memory to read it when it is back."""
    pick, name = scene.chance, scene.first.name
    gone = now + pick.randint(2, 4) * SECOND
    back = gone + pick.randint(2, 3) * SECOND
    lines = [f"refuse {back} {back + 400_000} 1 {pick.choice((1, 2, 3))} 2000 200000"]
    others = [(gone, f"move {gone} orders moved"), (back, f"move {back} moved orders")]
    orders = [(gone - SECOND, "status"), (gone + SECOND, "list"),
              *((back + it * SECOND, f"keep {name} 1") for it in (4, 5, 6))]
    return Act(back + 13 * SECOND - now, orders, "", lines, others)


def without_texts(scene: Scene, now: int) -> Act:
    """There is no memory for the text of a save."""
    pick, name, at = scene.chance, scene.first.name, now + 4 * SECOND
    lines = [f"refuse {at} {now + 60 * SECOND} {pick.choice((1, 2))} 4 200000 300000"]
    orders = [*scene.freed(now + SECOND), (at, f"keep {name} 30 55")]
    orders += [(at + it * SECOND, f"save {name} {pick.choice(('0', '#55'))} {scene.out()}")
               for it in range(1, 6)]
    return Act(12 * SECOND, orders, "", lines)


def without_events(scene: Scene, now: int) -> Act:
    """There is no memory for the list of events as one begins, or at the start."""
    pick, name, at = scene.chance, scene.first.name, now + 2 * SECOND
    if pick.random() < 0.5:
        # The list of them has room for four.
        since, every, size = at, 1, pick.choice((384, 384, 128))
    else:
        since, every, size = now, pick.choice((2, 4, 8)), pick.choice((128, 128, 16, 4096))
    lines = [f"refuse {since} {since + 80_000} {every} {pick.choice((1, 1, 2))} {size} {size + 1}"]
    orders = [(at, f"keep {name} {pick.randint(0, 1)} +{pick.randint(20, 50)}")]
    if scene.lived % 2 == 0:
        return Act(11 * SECOND, [], "kill", lines if since == now else [])
    return Act(3 * SECOND, orders, "kill", lines if since == at else [])


# Each in its place: a further one comes last, so that the seeds of the others stay.
LONG: dict[str, object] = {**ONE, "segments": 30, "period": 40_000, "says_numbers": True}
SHAPES = [
    Shape({**ONE, "slots": 4}, PLAIN, ends_with_saves),
    Shape(ONE, ITSELF, ends_with_saves),
    Shape(ONE, PLAIN, ends_with_keeps),
    Shape({**ONE, "stores": 2}, PLAIN, ends_with_keeps),
    Shape(LONG, PLAIN, breaks),
    Shape({**LONG, "segments": 8}, PLAIN, breaks),
    Shape({**ONE, "segments": 20}, ITSELF, goes_on_saved),
    Shape(ONE, {**ITSELF, "release": True}, goes_on_saved),
    Shape({**ONE, "segments": 12}, ITSELF, found_again),
    Shape(ONE, ITSELF, cancelled),
    Shape({**ONE, "segments": 20, "period": 40_000}, PLAIN, without_rows),
    Shape(LONG, {**PLAIN, "buffers": 4}, without_rows),
    Shape(ONE, PLAIN, without_orders),
    Shape(ONE, PLAIN, without_texts),
    Shape(ONE, ITSELF, without_texts),
    Shape({**ONE, "segments": 30}, PLAIN, without_events),
]
# The places that are left have some of them once more.
SHAPES += [SHAPES[at] for at in (0, 2, 15, 15)]


def scene_of(world: World) -> Scene | None:
    """The scene of a world, if it has one."""
    if not FIRST <= world.seed <= LAST:
        return None
    shape = SHAPES[world.seed % PLACES]
    return (Pair if shape.act in (ends_with_saves, ends_with_keeps) else Scene)(world, shape)
