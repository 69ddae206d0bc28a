"""What is wrong with a run that the judge of tests/simulate has to find, of saves, stores and the
ends of events: as simulated_wrong.py, and mostly of worlds that have a scene."""
from __future__ import annotations

import json
import random

from simulated_disk import Disk, Record
from simulated_run import Lived, told
from simulated_world import World
from simulated_wrong import said_otherwise, with_more


def with_line(lived: Lived, index: int, line: dict) -> Lived:
    """A life with a line more, after a record."""
    record = Record("A", lived.records[index].time, 0, 0, json.dumps(line).encode() + b"\n")
    return with_more(lived, index, [record])


def untold_here(lived: Lived, kind: str | None, label: str | None) -> Lived:
    """A life without the lines of a kind, or of a label."""
    records = []
    for record in lived.records:
        if record.kind == "A":
            lines = [it for it in record.data.split(b"\n") if it and not (
                json.loads(it)["kind"] == kind or label and json.loads(it).get("label") == label)]
            record = record._replace(data=b"".join(it + b"\n" for it in lines))
        records.append(record)
    return lived._replace(records=records)


def disk_at(lived: Lived, index: int) -> Disk:
    """The disk before a record."""
    disk = Disk(lived.before)
    for record in lived.records[:index]:
        disk.take(record)
    return disk


def saved_by(lived: Lived, order: str, chance: random.Random) -> tuple[int, int, dict] | None:
    """A save that was ordered with this word, and is told as done: the place of its line, its time
    and what it says."""
    mine = [it for it in told(lived.records) if it[2]["kind"] == "saved"
            and lived.life.orders.get(it[2].get("label"), "").startswith(f"{order} ")
            and disk_at(lived, it[0]).names.get(it[2]["path"])]
    return chance.choice(mine) if mine else None


def replaced(world: World, lived: Lived, chance: random.Random) -> Lived | None:
    """A file that a save has made is made once more, the same, in its place."""
    found = saved_by(lived, "save", chance)
    if not found or f"save! {found[2]['camera']}" in lived.life.script:
        return None
    index, time, said = found
    path, number = said["path"], max(disk_at(lived, index).files) + 1000
    text = bytes(disk_at(lived, index).names[path].now)
    more = [Record("C", time, number, 0, f"{path}.part".encode()),
            Record("W", time, number, 0, text), Record("S", time, number, 0, b""),
            Record("N", time, 0, 0, f"{path}.part\0{path}".encode()),
            Record("F", time, 0, index + 5, b"")]
    return with_more(lived, index, more)


def saved_outside(world: World, lived: Lived, chance: random.Random) -> Lived | None:
    """A save is told of a file beside the only folder for saves, and the file is there."""
    found = saved_by(lived, "save", chance) if world.saves else None
    if not found:
        return None
    index, time, said = found
    path, other = said["path"], said["path"].replace("/", "_")

    def change(line: dict) -> None:
        line["path"] = other

    changed = said_otherwise(lived, "saved", change, chance, fits=lambda it: it == said)
    return changed and with_more(changed, index - 1, [
        Record("V", time, 0, 0, f"{path}\0{other}".encode())])


def saved_never(world: World, lived: Lived, chance: random.Random) -> Lived | None:
    """A save that began by itself and waits isn't told as done."""
    waits = [it for it in told(lived.records) if it[2]["kind"] == "save_waits"]
    return untold_here(lived, "saved", None) if waits else None


def save_goes_on(world: World, lived: Lived, chance: random.Random) -> Lived | None:
    """A save whose store is lost isn't answered."""
    lines = told(lived.records)
    lost = [time for _, time, said in lines if said["kind"] == "store_absent"]
    ended = [said["label"] for _, time, said in lines
             if said["kind"] == "not_saved" and said.get("label")
             and any(abs(time - it) < 200_000 for it in lost)]
    return untold_here(lived, None, chance.choice(ended)) if ended else None


def removed_early(world: World, lived: Lived, chance: random.Random) -> Lived | None:
    """Frames are told as removed out of order, and memory isn't full."""
    opened = [it for it in told(lived.records) if it[2]["kind"] == "store_open"]
    camera = world.cameras[0].name
    names = [it for it in opened if it[2]["camera"] == camera]
    if not names or world.cameras[0].words.get("memory") == 1000 or world.is_piped:
        return None
    index, time, said = names[0]
    line = {"time": said.get("time"), "kind": "removed_out_of_order", "camera": camera,
            "frames": 4}
    return with_line(lived, index, line) if time - lived.life.begins < 500_000 else None


def event_ends_early(world: World, lived: Lived, chance: random.Random) -> Lived | None:
    """An event is told to end before the time that was ordered."""
    def change(line: dict) -> None:
        line["to"] = line["from"]

    def fits(said: dict) -> bool:
        return bool(said.get("label")) and said["from"] != said["to"]

    if world.is_piped or any("times_from" in it.words for it in world.cameras):
        return None
    return said_otherwise(lived, "event_begun", change, chance, fits=fits)


def failed_is_written(world: World, lived: Lived, chance: random.Random) -> Lived | None:
    """A store of several whose disk failed is written again soon, and isn't told as absent."""
    absent = [it for it in told(lived.records) if it[2]["kind"] == "one_absent"
              and it[2]["why"] == "MustReopen"]
    if not absent:
        return None
    index, time, said = absent[0]
    path, later = said["path"], [at for at, it in enumerate(lived.records)
                                 if it.time > time + 3_000_000]
    disk = disk_at(lived, index)
    number = next((it for it, of in disk.files.items() if of is disk.names.get(path)), None)
    if not later or number is None:
        return None
    record = Record("W", lived.records[later[0]].time, number, 0, b"")
    return with_more(untold_here(lived, "one_absent", None), later[0], [record])


FORMS = {
    "a save replaces a file unasked": replaced,
    "a save lies outside its folder": saved_outside,
    "a save that waits is never done": saved_never,
    "a save goes on without its store": save_goes_on,
    "frames go before memory is full": removed_early,
    "an event ends too early": event_ends_early,
    "a store that failed is written": failed_is_written,
}
