"""What is wrong with starts, ends of cameras, saves that begin by themselves and frames that a disk
costs, which the judge of tests/simulate has to find: as in simulated_wrong.py, each changes what a
life told, or what it read."""
from __future__ import annotations

import json
import random

import layout
from simulated_disk import Record
from simulated_judge import held_in
from simulated_last import WELL
from simulated_run import Lived, told
from simulated_world import SECOND, World
from simulated_wrong import is_plain, said_otherwise, with_more


def opened_otherwise(world: World, lived: Lived, chance: random.Random) -> Lived | None:
    """Of several full stores the one with the youngest frames is opened before an older one."""
    paths = {it.number: it.data.decode() for it in reversed(lived.records) if it.kind in "CX"}
    numbers = {path: number for number, path in paths.items()}
    for camera in world.cameras if is_plain(world, lived) else ():
        turn = [paths.get(it.number) for it in lived.reads if it.place == layout.SUPER]
        mine = [it for it in dict.fromkeys(turn) if it in camera.paths()]
        full = [it for it in mine[1:] if it in lived.before]
        if len(mine) < 3 or len(full) < 2 or "stores are not in order" in str(lived.output):
            continue
        held = [held_in(lived.before[it]) for it in (full[0], full[-1])]
        if any(len(it.blocks) < it.geometry.segments for it in held):
            continue
        one, two = numbers[full[0]], numbers[full[-1]]
        other = {one: two, two: one}
        reads = [it._replace(number=other.get(it.number, it.number)) for it in lived.reads]
        return lived._replace(reads=reads)
    return None


def save_goes_on(world: World, lived: Lived, chance: random.Random) -> Lived | None:
    """A save of a camera that a reload has ended isn't told as over."""
    lines = told(lived.records)
    ended = {said["camera"]: time for _, time, said in lines if said["kind"] == "camera_ended"}
    mine = {said["label"] for _, time, said in lines if said["kind"] == "not_saved"
            and said["why"] == "Stopped" and "label" in said
            and time <= ended.get(said["camera"], 0) < lived.end() - 2 * SECOND}
    if not mine:
        return None
    label = chance.choice(sorted(mine))
    records = []
    for record in lived.records:
        if record.kind == "A":
            left = [it for it in record.data.split(b"\n")
                    if it and json.loads(it).get("label") != label]
            record = record._replace(data=b"".join(it + b"\n" for it in left))
        records.append(record)
    return lived._replace(records=records)


def still_waits(world: World, lived: Lived, chance: random.Random) -> Lived | None:
    """Frames that a failing disk cost are told as waiting, long after that."""
    def change(line: dict) -> None:
        line["waiting"] += line["given_up"]
        line["given_up"] = 0

    rules = [it.split() for it in lived.life.script.split("\n") if it.startswith(("bad", "slow"))]
    over = max((int(it[2]) for it in rules), default=lived.end())
    opened = [time for _, time, said in told(lived.records) if said["kind"] == "store_open"]
    lines = [said for _, time, said in told(lived.records) if said["kind"] == "status"
             and time > max(over, *opened, 0) + WELL + SECOND and said["given_up"] > 100
             and said["room"]]
    if not lines or len(world.cameras) > 1:
        return None
    one = chance.choice(lines)
    return said_otherwise(lived, "status", change, chance, fits=lambda it: it == one)


def counted_twice(world: World, lived: Lived, chance: random.Random) -> Lived | None:
    """Frames that a failing disk cost are counted twice."""
    def change(line: dict) -> None:
        line["given_up"] *= 2

    if not lived.life.is_faulty or world.cameras[0].is_pattern() or "\npipe 1" in \
            lived.life.script or "\nmove" in lived.life.script:
        return None
    came = sum(it.kind == "P" and it.number == 0 for it in lived.records)
    return said_otherwise(lived, "status", change, chance, fits=lambda it: it["given_up"] > came / 2
                          and it["camera"] == world.cameras[0].name)


def told_again(kind: str, why: str):
    """A line of a save that began by itself comes once more."""
    def form(world: World, lived: Lived, chance: random.Random) -> Lived | None:
        mine = [it for it in told(lived.records) if it[2]["kind"] == kind and "label" not in it[2]
                and it[2]["why"].startswith(why)]
        if not mine:
            return None
        index, time, said = chance.choice(mine)
        line = Record("A", time, 0, 0, json.dumps(said).encode() + b"\n")
        return with_more(lived, index, [line])

    return form


def unusable(world: World, lived: Lived, chance: random.Random) -> Lived | None:
    """A source is told as unusable whose writer goes on."""
    lines = told(lived.records)
    parts = [it for it in lived.life.script.split("\n") if it.startswith(("close", "part", "move"))]
    if parts or not lines or not is_plain(world, lived):
        return None
    index, time, said = chance.choice(lines)
    line = {"time": said["time"], "kind": "source_unusable", "camera": world.cameras[0].name,
            "why": "NotY4m"}
    return with_more(lived, index, [Record("A", time, 0, 0, json.dumps(line).encode() + b"\n")])


FORMS = {
    "the youngest store is opened first": opened_otherwise,
    "a save goes on without its camera": save_goes_on,
    "lost frames wait for ever": still_waits,
    "lost frames are counted twice": counted_twice,
    "a save waits again": told_again("save_waits", ""),
    "a cancelled save ends again": told_again("not_saved", "Cancelled"),
    "a source that goes on is unusable": unusable,
}
