"""What is rare in further worlds of tests/simulate: memory that is refused, saves into a pipe that
somebody reads, and the pattern as a source. From the seed 50,000 to 59,999 each world has one of
these scenes, by its seed, and nothing else."""
from __future__ import annotations

from typing import TYPE_CHECKING

from simulated_rare_saves import ITSELF, ONE, PLAIN, Act, Scene, Shape

if TYPE_CHECKING:
    from simulated_world import World

SECOND = 1_000_000
# The seeds of these worlds.
FIRST, LAST = 50_000, 59_999
# So long after memory was refused last all works as before.
WELL = 4 * SECOND
# The pipes that somebody reads.
SINKS = ("taken0", "taken1")


def some_orders(scene: Scene, since: int, until: int, every: int) -> list[tuple[int, str]]:
    """Orders of all kinds, of the first camera."""
    pick, name, found, at = scene.chance, scene.first.name, [], since
    while at < until:
        own = pick.choice((0, 0, 1, 64 * (scene.first.stores - 1)))
        found.append((at, pick.choice((
            f"keep {name} 1", f"keep {name} 2 55", "keep 1", f"keep {name} 1 +{pick.randint(1, 3)}",
            f"release {name} {own}", f"release {name} 1", f"save {name} {own} {scene.out()}",
            f"save {name} #55 {scene.out()}", f"cancel {name} {own}", "list", "status", "help",
            "keep nobody", "what is this"))))
        at += pick.randint(every // 2, every * 3 // 2)
    return found


def well_again(scene: Scene, at: int) -> list[tuple[int, str]]:
    """What is ordered once there is memory again."""
    name = scene.first.name
    frees = [(at + it, f"release {name} {own + 64 * store}") for it, (own, store) in enumerate(
        (own, store) for own in range(8) for store in range(scene.first.stores))]
    return [*frees, (at + SECOND, "status"), (at + 2 * SECOND, f"keep {name} 1"),
            (at + 3 * SECOND, "list"), (at + 4 * SECOND, "status")]


def refused(scene: Scene, now: int) -> Act:
    """Memory is refused for some time, while orders come."""
    pick = scene.chance
    since = now + pick.randint(2, 4) * SECOND
    until = since + pick.choice((100_000, SECOND, 3 * SECOND))
    lines = [f"refuse {since} {until} {pick.choice((1, 2, 4, 16, 64))} 1000000"]
    orders = some_orders(scene, now + SECOND, until, 250_000)
    if pick.random() < 0.3:
        # It ends before there is memory again.
        return Act(until - now, orders, "", lines)
    orders += well_again(scene, until + WELL)
    return Act(until + WELL + 6 * SECOND - now, orders, "", lines if scene.lived % 2 else [])


def refused_once(scene: Scene, now: int) -> Act:
    """Memory is refused at single calls, while orders come."""
    pick, lines = scene.chance, []
    until = now + 10 * SECOND
    for _ in range(pick.choice((3, 10, 40))):
        at = pick.randint(now + SECOND, until)
        lines.append(f"refuse {at} {at + SECOND // 2} {pick.choice((1, 3, 10))} 1")
    orders = some_orders(scene, now + SECOND, until, 300_000)
    if pick.random() < 0.5:
        return Act(until - now, orders, "", lines)
    orders += well_again(scene, until + WELL)
    return Act(until + WELL + 6 * SECOND - now, orders, "", lines if scene.lived % 2 else [])


def refused_first(scene: Scene, now: int) -> Act:
    """Memory is refused while the station begins, which ends then, or goes on."""
    pick, at = scene.chance, now + scene.chance.choice((0, 1000, 5000, 20_000, 60_000))
    count, most = pick.choice((1, 2, 3, 20)), pick.choice((1, 1, 2, 4))
    lines = [] if scene.lived == 1 else [f"refuse {at} {at + 500_000} {count} {most}"]
    orders = [*well_again(scene, now + 2 * SECOND + WELL),
              (now + WELL + 7 * SECOND, f"keep {scene.first.name} 1 +20")]
    return Act(WELL + 8 * SECOND, orders, "", lines)


def refused_orders(scene: Scene, now: int) -> Act:
    """Memory is refused once as an event begins or a clip is saved; then the program is killed."""
    pick, name, at = scene.chance, scene.first.name, now + 3 * SECOND
    orders, lines = [(at, f"keep {name} 1 55")], []
    for text in (f"save {name} 0 {scene.out()}", f"keep {name} 0 +{pick.randint(20, 60)}"):
        at += 500_000
        orders.append((at, text))
        lines.append(f"refuse {at} {at + 30_000} {pick.choice((2, 4, 8, 16))} 1")
    if scene.lived % 2 == 0:
        return Act(10 * SECOND, [], "kill")
    return Act(at + SECOND // 2 - now, orders, "kill", lines)


def refused_writers(scene: Scene, now: int) -> Act:
    """Memory is refused while writers come and go, and a slow disk lets frames wait."""
    pick, name = scene.chance, scene.first.name
    since = now + 3 * SECOND
    until = since + pick.choice((SECOND, 3 * SECOND))
    lines = [f"refuse {since} {until} {pick.choice((1, 2, 4))} 1000000",
             f"slow {since} {since + SECOND} {name}. {pick.choice((100_000, 2 * SECOND))}"]
    rests = [(since + it * 300_000, since + it * 300_000 + 100_000, True) for it in range(6)]
    orders = [(since - SECOND, f"keep {name} 1"), *well_again(scene, until + WELL)]
    return Act(until + WELL + 6 * SECOND - now, orders, "", lines, [], rests)


def taken(scene: Scene, now: int) -> Act:
    """Clips are saved into pipes that somebody reads, fast or slowly, at once or later, to the end
    or not; some of these saves are cancelled."""
    pick, name = scene.chance, scene.first.name
    lines = [f"sink {it} {pick.choice((512, 1024, 4096, 65_536))}" for it in SINKS]
    at = now + 4 * SECOND
    orders = [*scene.freed(now + SECOND), (at, f"keep {name} 30")]
    for turn in range(pick.randint(2, 4)):
        at += SECOND
        sink, rate = pick.choice(SINKS), pick.choice((300, 1000, 5000, 1_000_000))
        comes = at + pick.choice((-SECOND // 2, -SECOND // 2, 1000, SECOND))
        stays = pick.choice((SECOND // 10, SECOND, 2 * SECOND, 40 * SECOND))
        lines.append(f"taker {comes} {comes + stays} {sink} {rate}")
        orders.append((at, f"save {name} {pick.choice(('0', '0', '#55'))} {sink}"))
        over = max(at, comes + stays) if stays < 40 * SECOND else at + 8000 * SECOND // rate
        if pick.random() < 0.4:
            ends = at + pick.choice((1000, 200_000, SECOND))
            orders.append((ends, f"cancel {name} 0"))
            over = max(comes + stays, ends)
        else:
            # Who came too late, or left, is waited for no longer.
            orders.append((over + 2 * SECOND, f"cancel {name} 0"))
            over += 2 * SECOND
        at = over + SECOND
        orders += [(at, f"save {name} 0 {scene.out()}"), (at + SECOND, "list")]
        if turn % 2:
            orders += [(at + 2 * SECOND, f"release {name} 0"),
                       (at + 3 * SECOND, f"keep {name} 2 55")]
            at += 3 * SECOND
    orders.sort(key=lambda it: it[0])
    return Act(at + 5 * SECOND - now, orders, "", lines)


def many_taken(scene: Scene, now: int) -> Act:
    """So many saves into a pipe that somebody holds open, and doesn't read, that no place is left;
    they are cancelled, and then he leaves."""
    pick, name = scene.chance, scene.first.name
    at, orders = now + 4 * SECOND, scene.freed(now + SECOND)
    until = at + 6 * SECOND
    lines = [f"sink {SINKS[0]} 512", f"sink {SINKS[1]} 512",
             f"taker {now} {until} {SINKS[0]} 0"]
    orders.append((at, f"keep {name} 30"))
    count = pick.choice((15, 16, 17))
    orders += [(at + SECOND + it, f"save {name} 0 {SINKS[0]}") for it in range(count)]
    orders += [(at + 3 * SECOND + it, f"cancel {name} 0") for it in range(count)]
    orders += [(until + 2 * SECOND + it, f"save {name} 0 {scene.out()}") for it in range(16)]
    orders.append((until + 6 * SECOND, f"release {name} 0"))
    return Act(until + 8 * SECOND - now, orders, "", lines)


def pattern(scene: Scene, now: int) -> Act:
    """The pattern is kept and saved, also as it comes."""
    pick, name = scene.chance, scene.first.name
    at, orders = now + pick.randint(2, 4) * SECOND, scene.freed(now + SECOND)
    for tag in range(60, 63):
        after = pick.choice(("", "", f" +{pick.randint(1, 3)}"))
        orders.append((at, f"keep {name} {pick.randint(1, 2)}{after} {tag}"))
        at += 4 * SECOND
        orders += [(at, f"save {name} #{tag} {scene.out()}"), (at + SECOND // 2, "status"),
                   (at + SECOND, "list")]
        orders += [(at + SECOND + it, f"release {name} {it + 64 * store}")
                   for it in range(4) for store in range(scene.first.stores)]
        at += 3 * SECOND
    return Act(at - now, orders)


def stalled_pattern(scene: Scene, now: int) -> Act:
    """The pattern comes while a disk stands still, until memory is full, and goes on."""
    pick, since = scene.chance, now + 3 * SECOND
    stall = pick.choice((500_000, 2 * SECOND, 9 * SECOND))
    orders = [(since + stall + 5 * SECOND, f"keep {scene.first.name} 1"),
              (since + stall + 6 * SECOND, "status")]
    lines = [f"slow {since} {since + SECOND} {scene.first.name}. {stall}"]
    return Act(stall + 13 * SECOND, orders, "", lines)


def stalled(scene: Scene, now: int) -> Act:
    """A disk stands still for as long as memory has room."""
    since = now + 3 * SECOND
    stall = scene.chance.choice((6, 7, 8)) * SECOND
    return Act(20 * SECOND, [], "", [f"slow {since} {since + SECOND} {scene.first.name}. {stall}"])


def of_pattern(camera: dict[str, object], rate: int, words: dict[str, object], act) -> Shape:
    """A scene whose first camera has the pattern, of so many frames a second."""
    return Shape({**camera, "period": SECOND // rate, "says_numbers": False},
                 {**PLAIN, **words, "source": "pattern", "pattern": f"16x8 GREY {rate}:1"}, act)


TWO = {"stores": 2, "segments": 4, "slots": 8}
SHAPES = [
    Shape(ONE, PLAIN, refused),
    Shape({**ONE, "slots": 4}, PLAIN, taken, "", SINKS),
    of_pattern({**ONE, "segments": 8}, 25, {}, pattern),
    Shape({**TWO, "says_numbers": True}, PLAIN, refused_once),
    Shape(ONE, PLAIN, taken, "", SINKS),
    of_pattern(ONE, 20, {"memory": 1000, "buffers": 4}, stalled_pattern),
    Shape(ONE, {**ITSELF, "release": True}, refused),
    Shape(ONE, PLAIN, many_taken, "", SINKS),
    of_pattern(TWO, 10, {}, pattern),
    Shape({**ONE, "segments": 30}, PLAIN, refused_orders),
    Shape(ONE, PLAIN, refused_first),
    Shape({**ONE, "says_numbers": True}, PLAIN, refused_writers),
    Shape({**ONE, "period": 40_000}, PLAIN, stalled),
]


def scene_of(world: World) -> Scene | None:
    """The scene of a world, if it has one."""
    return Scene(world, SHAPES[world.seed % len(SHAPES)]) \
        if FIRST <= world.seed <= LAST else None
