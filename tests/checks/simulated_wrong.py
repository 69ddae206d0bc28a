"""What is wrong with a run that the judge of tests/simulate has to find: each changes what a life
told, or what its files hold."""
from __future__ import annotations

import json
import random
from collections.abc import Callable, Iterator

import layout
from simulated_disk import Disk, Record
from simulated_judge import held_in
from simulated_run import Lived, told
from simulated_world import World


def without(lived: Lived, kind: str, chance: random.Random) -> Lived | None:
    """A line of a kind isn't told."""
    mine = [index for index, _, said in told(lived.records) if said["kind"] == kind]
    if not mine:
        return None
    index = chance.choice(mine)
    record = lived.records[index]
    left = [it for it in record.data.split(b"\n") if it and json.loads(it)["kind"] != kind]
    data = b"".join(it + b"\n" for it in left)
    records = list(lived.records)
    records[index] = record._replace(data=data)
    return lived._replace(records=records)


def with_more(lived: Lived, index: int, more: list[Record]) -> Lived:
    """A life with more records after one."""
    count = len(more)
    rest = [it._replace(place=it.place + count) if it.kind in "SF" and it.place > index else it
            for it in lived.records[index + 1:]]
    made = [it._replace(place=index + 1 + at) if it.kind == "S" else it
            for at, it in enumerate(more)]
    return lived._replace(records=[*lived.records[:index + 1], *made, *rest])


def kept(world: World, lived: Lived, chance: random.Random) -> Iterator[tuple]:
    """Clips that were told as kept, in any order: the place of the line, its time, what it says,
    the number of the store's file in the log, and the disk then."""
    cameras = {it.name: it for it in world.cameras}
    lines = [it for it in told(lived.records) if it[2]["kind"] == "kept"]
    for index, time, said in chance.sample(lines, min(4, len(lines))):
        camera = cameras[said["camera"]]
        if camera.words["when_full"] != "stop" or camera.words.get("release"):
            continue
        disk = Disk(lived.before)
        for record in lived.records[:index + 1]:
            disk.take(record)
        file = disk.names.get(camera.paths()[said["id"] // 64])
        number = next((it for it, of in disk.files.items() if of is file), None)
        if file is not None and number is not None:
            yield index, time, said, number, held_in(bytes(file.now)), bytes(file.now)


def changed(index: int, time: int, number: int, at: int, data: bytes, lived: Lived) -> Lived:
    """A life in which some bytes of a store are changed, and synced, after a line."""
    more = [Record("W", time, number, at, data), Record("S", time, number, 0, b"")]
    return with_more(lived, index, more)


def unlocked(world: World, lived: Lived, chance: random.Random) -> Lived | None:
    """A kept clip is unlocked, and no line says so."""
    for index, time, said, number, held, _ in kept(world, lived, chance):
        own = said["id"] % 64
        others = [it for it in held.clips if it[0] != own]
        if (own, said["first"], said["last"]) in [it[:3] for it in held.clips] and not any(
                first <= said["first"] <= last for _, first, last, _ in others):
            at = layout.SUPER + layout.ENTRY * own
            return changed(index, time, number, at, bytes([layout.CLOSED]), lived)
    return None


def frame_changed(world: World, lived: Lived, chance: random.Random) -> Lived | None:
    """A frame of a kept clip is another."""
    for index, time, said, number, held, image in kept(world, lived, chance):
        found = layout.read_once(lambda at, count: image[at:at + count], len(image))
        block, slot = divmod(said["first"], found.geometry.slots)
        place = next((it.place for it in found.segments if it.open and it.block == block), None)
        if place is not None:
            at = found.geometry.slot_at(place, slot) + layout.HEAD
            return changed(index, time, number, at, bytes(128), lived)
    return None


def frame_gone(world: World, lived: Lived, chance: random.Random) -> Lived | None:
    """The block of a kept clip is gone."""
    for index, time, said, number, held, image in kept(world, lived, chance):
        found = layout.read_once(lambda at, count: image[at:at + count], len(image))
        block = said["first"] // found.geometry.slots
        place = next((it.place for it in found.segments if it.open and it.block == block), None)
        if place is not None:
            at = found.geometry.segment_at(place)
            return changed(index, time, number, at, bytes([layout.CLOSED]), lived)
    return None


def said_otherwise(lived: Lived, kind: str, change: Callable[[dict], None],
                   chance: random.Random, key: str = "kind",
                   fits: Callable[[dict], bool] = bool) -> Lived | None:
    """A line says something else, one that fits, and has a member of this name."""
    mine = [(index, said) for index, _, said in told(lived.records)
            if said["kind"] == kind and key in said and fits(said)]
    if not mine:
        return None
    index, said = chance.choice(mine)
    record = lived.records[index]
    lines = [json.loads(it) for it in record.data.split(b"\n") if it]
    for line in lines:
        if line == said:
            change(line)
    data = b"".join(json.dumps(it).encode() + b"\n" for it in lines)
    records = list(lived.records)
    records[index] = record._replace(data=data)
    return lived._replace(records=records)


def fewer_stored(world: World, lived: Lived, chance: random.Random) -> Lived | None:
    """A status tells of more frames than came."""
    def change(line: dict) -> None:
        line["stored"] += 1000

    return said_otherwise(lived, "status", change, chance)


def other_frames(world: World, lived: Lived, chance: random.Random) -> Lived | None:
    """Frames are told as kept that aren't there."""
    def change(line: dict) -> None:
        line["last"] += 500

    def fits(said: dict) -> bool:
        is_freed = f" release {said['camera']} {said['id']}\n" in lived.life.script
        return said["camera"] in names and not is_freed

    names = {it.name for it in world.cameras if it.words["when_full"] == "stop"
             and not it.words.get("release")} - lived.life.changed
    return said_otherwise(lived, "kept", change, chance, fits=fits)


def other_kind(world: World, lived: Lived, chance: random.Random) -> Lived | None:
    """A line has a kind that the reference doesn't name."""
    def change(line: dict) -> None:
        line["kind"] = "done_so"

    return said_otherwise(lived, "done", change, chance)


def no_answer(world: World, lived: Lived, chance: random.Random) -> Lived | None:
    """An order isn't answered, though the station ended in order."""
    return without(lived, "done", chance) if lived.why().startswith("ended with 0") else None


def told_twice(world: World, lived: Lived, chance: random.Random) -> Lived | None:
    """An event is over twice."""
    for kind in ("event_whole", "event_not_whole"):
        mine = [it for it in told(lived.records) if it[2]["kind"] == kind]
        if mine:
            index, time, said = chance.choice(mine)
            line = Record("A", time, 0, 0, json.dumps(said).encode() + b"\n")
            return with_more(lived, index, [line])
    return None


def kept_late(world: World, lived: Lived, chance: random.Random) -> Lived | None:
    """A clip is told as released before it is told as kept."""
    lines = told(lived.records)
    for at, (index, _, said) in enumerate(lines):
        if said["kind"] != "kept" or not said.get("label") or said["camera"] in lived.life.changed:
            continue
        freed = next((it for it in lines[at + 1:] if it[2]["kind"] in ("kept", "released")
                      and it[2]["camera"] == said["camera"] and it[2]["id"] == said["id"]), None)
        if freed is None or freed[2]["kind"] != "released" or freed[0] <= index \
                or freed[2].get("label") is None:
            continue
        done = next((it for it in lines if it[2]["kind"] == "done"
                     and it[2]["label"] == freed[2]["label"]), None)
        own = json.dumps(said).encode()
        left = [it for it in lived.records[index].data.split(b"\n")
                if it and json.loads(it) != said]
        # An answer that comes after its end is another form.
        over = [it for it in lines if it[2].get("label") == said["label"]
                and it[2]["kind"] == "done"]
        if done is None or not over:
            continue
        records = list(lived.records)
        records[index] = records[index]._replace(data=b"".join(it + b"\n" for it in left))
        ends = over[0][0]
        records[ends] = records[ends]._replace(data=b"".join(
            it + b"\n" for it in records[ends].data.split(b"\n")
            if it and json.loads(it) != over[0][2]))
        late = own + b"\n" + json.dumps(over[0][2]).encode() + b"\n"
        line = Record("A", done[1], 0, 0, late)
        return with_more(lived._replace(records=records), done[0], [line])
    return None


def file_gone(world: World, lived: Lived, chance: random.Random) -> Lived | None:
    """A saved file is removed."""
    mine = [it for it in told(lived.records) if it[2]["kind"] == "saved"]
    if not mine:
        return None
    index, time, said = mine[0]
    return with_more(lived, index, [Record("U", time, 0, 0, said["path"].encode())])


def untold(*kinds: str) -> Callable[[World, Lived, random.Random], Lived | None]:
    """What is told of a camera, or of the computer, isn't told: all lines of these kinds."""
    def form(world: World, lived: Lived, chance: random.Random) -> Lived | None:
        life, end = lived.life, lived.end()
        mine = [time for _, time, said in told(lived.records) if said["kind"] in kinds]
        if not mine or life.is_slow or life.is_faulty or life.changed or world.is_piped or \
                end - max(mine) < 3_200_000 or "\nmove" in life.script:
            return None
        records = []
        for record in lived.records:
            if record.kind == "A":
                lines = [it for it in record.data.split(b"\n")
                         if it and json.loads(it)["kind"] not in kinds]
                record = record._replace(data=b"".join(it + b"\n" for it in lines))
            records.append(record)
        return lived._replace(records=records)

    return form


def otherwise(kind: str, key: str, more: int) -> Callable[..., Lived | None]:
    """A line of a kind says another number, of all that have one."""
    def form(world: World, lived: Lived, chance: random.Random) -> Lived | None:
        def change(line: dict) -> None:
            line[key] += more

        life = lived.life
        if life.is_slow or life.is_faulty or life.changed or world.is_piped:
            return None
        return said_otherwise(lived, kind, change, chance, key)

    return form


def retagged(world: World, lived: Lived, chance: random.Random) -> Lived | None:
    """A kept clip gets another tag in its store."""
    for index, time, said, number, held, _ in kept(world, lived, chance):
        own = said["id"] % 64
        if (own, said["first"], said["last"]) in [it[:3] for it in held.clips]:
            at = layout.SUPER + layout.ENTRY * own + 24
            return changed(index, time, number, at, (99).to_bytes(8, "little"), lived)
    return None


def stored_late(world: World, lived: Lived, chance: random.Random) -> Lived | None:
    """Frames that came before a keep are stored once that is answered."""
    lines = told(lived.records)
    whole = {it[2]["label"] for it in lines if it[2]["kind"] == "kept" and "label" in it[2]}
    whole -= {it[2].get("label") for it in lines if it[2]["kind"] in ("refused", "absent")}
    done = [it for it in lines if it[2]["kind"] == "done" and it[2]["label"] in whole]
    life = lived.life
    if not done or life.is_faulty or life.changed or world.is_piped or "\nmove" in life.script \
            or len(world.cameras) > 1:
        return None
    index, time, said = chance.choice(done)
    given = min(int(it.split()[1]) for it in life.script.split("\n") if f"@{said['label']} " in it)
    size = layout.HEAD + 128
    for record in reversed(lived.records[:index]):
        if record.kind == "W" and len(record.data) == size and any(record.data) \
                and record.time < given:
            return with_more(lived, index, [record._replace(time=time)])
    return None


def part_twice(world: World, lived: Lived, chance: random.Random) -> Lived | None:
    """An event tells a clip twice at its end."""
    mine = [it for it in told(lived.records)
            if it[2]["kind"] == "kept" and "label" not in it[2]]
    if not mine or world.is_piped:
        return None
    index, time, said = chance.choice(mine)
    line = Record("A", time, 0, 0, json.dumps(said).encode() + b"\n")
    return with_more(lived, index - 1, [line])


def read_released(world: World, lived: Lived, chance: random.Random) -> Lived | None:
    """A clip that a save reads is told as released."""
    def change(line: dict) -> None:
        words = lived.life.orders[line["label"]].split()
        line.update(kind="released", id=int(words[2]))

    def fits(said: dict) -> bool:
        words = lived.life.orders[said["label"]].split()
        mine = [it.split() for it in lived.life.script.split("\n") if it.startswith("order ")]
        saves = [it for it in mine if it[3:6] == ["save", *words[1:3]] and it[6:] == ["nobody"]]
        return bool(saves) and ends > int(saves[0][1]) + 3_000_000

    ends = lived.end()
    if "\npause" in lived.life.script or "\nmove" in lived.life.script:
        return None
    return said_otherwise(lived, "saving", change, chance, "label", fits)


def is_plain(world: World, lived: Lived) -> bool:
    """Whether nothing keeps the judge from asking what waits in a life."""
    life = lived.life
    return not (life.is_slow or life.is_faulty or life.changed or world.is_piped or any(
        it in life.script for it in ("\nmove", "\npart", "\npipe 1")))


def none_waits(world: World, lived: Lived, chance: random.Random) -> Lived | None:
    """A status tells that no frame waits, where every block is locked."""
    def change(line: dict) -> None:
        line["waiting"] = 0

    def fits(said: dict) -> bool:
        return said["waiting"] > 10 and not said["room"] and said["camera"] in names & locked

    names = {it.name for it in world.cameras if it.stores == 1}
    locked = {said["camera"] for _, _, said in told(lived.records) if said["kind"] == "all_locked"}
    if not is_plain(world, lived):
        return None
    return said_otherwise(lived, "status", change, chance, "waiting", fits)


def only_gaps(world: World, lived: Lived, chance: random.Random) -> Lived | None:
    """An event for which every block was locked is told to have gaps alone."""
    def change(line: dict) -> None:
        line["why"] = "Gaps"

    names = {it.name for it in world.cameras if "times_from" not in it.words}
    if not is_plain(world, lived):
        return None
    return said_otherwise(lived, "event_not_whole", change, chance, "why", lambda said:
                          said["why"] == "AllLocked" and said["camera"] in names)


def stopped_early(world: World, lived: Lived, chance: random.Random) -> Lived | None:
    """An order before a stop is answered by that."""
    def change(line: dict) -> None:
        line.update(kind="absent", why="Stopped")

    if not lived.why().startswith("ended with 0") or lived.life.changed or world.is_piped:
        return None
    return said_otherwise(lived, "kept", change, chance, "label")


FORMS = {
    "a store that opens isn't told": untold("store_open"),
    "how a disk syncs isn't told": untold("syncs"),
    "a set clock isn't told": untold("system_clock_steps"),
    "a source that begins isn't told": untold("source_on"),
    "a kept clip has another tag": otherwise("kept", "tag", 1),
    "a saved file has other frames": otherwise("saved", "id", 1),
    "an event is another order's": otherwise("event_begun", "event", -1_000_000),
    "a kept clip is unlocked": unlocked,
    "a kept frame is another": frame_changed,
    "a kept block is gone": frame_gone,
    "a status tells of more": fewer_stored,
    "frames are told as kept": other_frames,
    "a kind has no row": other_kind,
    "an order isn't answered": no_answer,
    "an event is over twice": told_twice,
    "a clip is released before it is kept": kept_late,
    "a saved file is gone": file_gone,
    "a kept clip has another tag in its store": retagged,
    "frames are stored after a keep": stored_late,
    "an event tells a clip twice": part_twice,
    "a clip is released that a save reads": read_released,
    "no frame waits where all is locked": none_waits,
    "an event has gaps where all is locked": only_gaps,
    "an order before a stop isn't done": stopped_early,
}
