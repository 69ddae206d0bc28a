"""What is wrong with memory, pipes and patterns, which the judge of tests/simulate has to find: as
in simulated_wrong.py, each changes what a life told, or what it wrote."""
from __future__ import annotations

import random

import layout
from simulated_more import WELL, number_of
from simulated_run import Lived, told
from simulated_world import SECOND, SIZE, World
from simulated_wrong import said_otherwise, with_more


def cut_in_a_pipe(world: World, lived: Lived, chance: random.Random) -> Lived | None:
    """A save into a pipe is told as saved, and a part of its text isn't written."""
    paths = {said["path"] for _, _, said in told(lived.records) if said["kind"] == "saved"}
    mine = [at for at, it in enumerate(lived.records) if it.kind == "Y" and len(it.data) > 20
            and world.sinks[it.number] in paths]
    if not mine:
        return None
    records = list(lived.records)
    for at in mine:
        records[at] = records[at]._replace(data=records[at].data[:-7])
    return lived._replace(records=records)


def not_left(world: World, lived: Lived, chance: random.Random) -> Lived | None:
    """A save into a pipe is told as not written, whose reader hasn't left."""
    def change(line: dict) -> None:
        del line["frames"]
        line.update(kind="not_saved", why="CannotWrite")

    until = [int(it.split()[2]) for it in lived.life.script.split("\n") if it[:6] == "taker "]
    if not until or min(until) < lived.end():
        return None
    return said_otherwise(lived, "saved", change, chance, fits=lambda it: it["path"] in world.sinks)


def pattern_again(world: World, lived: Lived, chance: random.Random) -> Lived | None:
    """A frame of a pattern is stored as the one before it."""
    size = layout.HEAD + SIZE
    mine = [at for at, it in enumerate(lived.records) if it.kind == "W" and len(it.data) == size
            and any(it.data) and number_of(it.data[layout.HEAD:]) is not None]
    if len(mine) < 4 or lived.life.is_faulty:
        return None
    one, two = mine[2:4]
    records = list(lived.records)
    pixels = records[one].data[layout.HEAD:]
    records[two] = records[two]._replace(data=records[two].data[:layout.HEAD] + pixels)
    return lived._replace(records=records)


def fewer_of_a_pattern(world: World, lived: Lived, chance: random.Random) -> Lived | None:
    """A status tells of fewer frames of a pattern than have come by its rate."""
    def change(line: dict) -> None:
        line["stored"] -= 60

    names = {it.name for it in world.cameras if it.is_pattern()}
    if lived.life.is_slow or lived.life.is_faulty:
        return None
    return said_otherwise(lived, "status", change, chance, fits=lambda it: it["camera"] in names)


def lost_without_memory(world: World, lived: Lived, chance: random.Random) -> Lived | None:
    """A status lacks frames for which memory was refused."""
    def change(line: dict) -> None:
        line["stored"] -= 1000

    refused = [it.time for it in lived.records if it.kind == "Z"]
    lines = [it for it in told(lived.records) if it[2]["kind"] == "status" and refused
             and it[1] > refused[-1] + WELL + 2 * SECOND and it[2]["room"] > 1]
    if not lines or "\nclose " in lived.life.script or "\nslow " in lived.life.script or any(
            it[2]["kind"] == "all_locked" for it in told(lived.records)):
        return None
    said = chance.choice(lines)[2]
    return said_otherwise(lived, "status", change, chance, fits=lambda it: it == said)


def no_memory_was_refused(world: World, lived: Lived, chance: random.Random) -> Lived | None:
    """A refusal is told as one of memory, and none was refused."""
    def change(line: dict) -> None:
        line["name"] = "NoMemory"

    if any(it.kind == "Z" for it in lived.records):
        return None
    return said_otherwise(lived, "refused", change, chance, "name")


def no_order_is_answered(world: World, lived: Lived, chance: random.Random) -> Lived | None:
    """Once memory was refused no order is answered any more."""
    refused = [it.time for it in lived.records if it.kind == "Z"]
    if not refused or lived.end() < refused[-1] + 3 * WELL:
        return None
    records = [it for it in lived.records if it.kind != "A" or it.time < refused[-1]]
    asked = [it for it in lived.records if it.kind == "P" and it.time > refused[-1] + 2 * WELL
             and it.data]
    return with_more(lived._replace(records=records), 0, []) if asked else None


FORMS = {
    "a text in a pipe isn't whole": cut_in_a_pipe,
    "a reader hasn't left": not_left,
    "a frame of a pattern comes twice": pattern_again,
    "a pattern lacks frames": fewer_of_a_pattern,
    "frames without memory aren't counted": lost_without_memory,
    "no memory was refused": no_memory_was_refused,
    "orders aren't answered again": no_order_is_answered,
}
