"""A camera with several stores, which are one ring: left.000.loop, left.001.loop and so on."""
import asyncio
import contextlib
import io
import json
import os
import random
import threading
import types
import zipfile

import layout
import pytest
from conftest import SPOILT, Laboratory
from station_page import limits
from station_page.eye import Eye, Moments
from station_page.events import events_of
from station_page.heard import Heard
from station_page.held import Held
from station_page.reader import Clip, Gone, Reader
from station_page.rings import Lent, Stores
from station_page.watched import Watched
from station_page.words import read_line
from test_stations import settings_of

PERIOD = 40_000
BEGUN = 1_795_361_880_000_000


class Set:
    """A camera's several stores as the station fills them: into the segment that is free, and then
    where the oldest block of all may go."""

    def __init__(self, folder, stores=3, segments=3, slots=4, name="left"):
        self.folder, self.name, self.rings, self.paths = folder, name, {}, {}
        self.shape, self.time, self.active = (segments, slots), BEGUN, 0
        # The times of all frames that were ever stored, by store and number.
        self.times = {}
        for number in range(stores):
            self.join(number)

    def join(self, number):
        """A store is there."""
        segments, slots = self.shape
        self.rings[number] = layout.Ring(8, 6, b"GREY", segments, slots)
        self.paths[number] = self.folder / f"{self.name}.{number:03}.loop"
        self.put(number)

    def put(self, number):
        """Writes a store's image where its file is, or makes that."""
        path, ring = self.paths[number], self.rings[number]
        if not path.exists():
            path.write_bytes(bytes(ring.image))
        with open(path, "r+b") as file:
            file.write(bytes(ring.image))

    def victim(self, number):
        """The first number of the block that a store would remove, and its time."""
        ring = self.rings[number]
        block = layout.victim(ring.blocks, ring.clips.values(), ring.geometry.slots)
        first = None if block is None else block * ring.geometry.slots
        return None if first is None else (ring.times[first], number)

    def turn(self):
        """The store into which the next block comes."""
        free = [it for it, ring in self.rings.items() if None in ring.blocks]
        if not free:
            self.active = min(it for number in self.rings if (it := self.victim(number)))[1]
        elif self.active not in free:
            self.active = min(free)

    def store(self, count=1, wait=PERIOD):
        """Stores frames."""
        for _ in range(count):
            if self.rings[self.active].next % self.shape[1] == 0:
                self.turn()
            ring = self.rings[self.active]
            self.time += wait
            assert ring.store(wait=self.time - ring.time)
            self.times[self.active, ring.next - 1] = self.time
        for number in self.rings:
            self.put(number)
        return self

    def held(self):
        """The frames as (time, store, number), by their times."""
        found = [
            (self.times[store, it], store, it)
            for store, ring in self.rings.items()
            for it in ring.held()
        ]
        return sorted(found)

    def lock(self, store, first, last, tag):
        """Makes a clip; answers the id by which the station knows it."""
        ring, before = self.rings[store], set(self.rings[store].clips)
        ring.lock(first, last, tag)
        self.put(store)
        (id_,) = set(ring.clips) - before
        return store * 64 + id_

    def text(self, store, first, last):
        """A clip as YUV4MPEG2."""
        return layout.text_of(layout.read(bytes(self.rings[store].image)), first, last)

    def reader(self):
        """What reads it."""
        return Stores(str(self.folder / f"{self.name}.loop"))


@pytest.fixture(autouse=True)
def patient(monkeypatch):
    """However busy a machine is, a look reads all stores."""
    monkeypatch.setattr(limits, "RING_SECONDS", 1000)


def named(frame):
    """A frame as (time, store, number)."""
    return frame.time, frame.store, frame.number


# --------------------------------------------------------------------------------------- the ring


@pytest.mark.parametrize("seed", range(6))
def test_a_ring_holds_what_its_stores_hold_in_times_order(tmp_path, seed):
    choose = random.Random(seed)
    films = Set(tmp_path, choose.randint(1, 4), choose.randint(2, 4), choose.randint(1, 4))
    reader = films.reader()
    for _ in range(25):
        films.store(choose.randint(0, 9), choose.choice((PERIOD, PERIOD, 3_000_000)))
        ring, sources = reader.read()
        held = films.held()
        assert ring.count() == len(held) and ring.stores == (len(films.rings), len(films.rings))
        if not held:
            assert ring.newest() is None and ring.pieces() == [] and sources.newest(None) is None
            continue
        assert named(ring.newest()) == held[-1] and named(ring.oldest()) == held[0]
        assert named(sources.newest(None)[0]) == held[-1]
        times, moments = [it[0] for it in held], Moments(ring)
        for _ in range(5):
            place, by = choose.randrange(len(held)), choose.randint(-30, 30)
            moment, store, number = held[place]
            assert (
                named(ring.at(moment))
                == named(ring.at(moment + 1))
                == named(moments.at(moment))
                == held[place]
            )
            beside = held[min(max(place + by, 0), len(held) - 1)]
            assert named(ring.near(number, by, store)) == beside
            assert moments.beside(moment, 1) == (
                times[place + 1] if place + 1 < len(held) else None
            )
            assert moments.beside(moment, -1) == (times[place - 1] if place else None)
            source = sources.of(store)
            whole = bytes((number + it) % 256 for it in range(ring.geometry.size))
            assert source.frame(number) == whole
        assert named(ring.at(0)) == held[0] and moments.at(held[0][0] - 1) is None
        # Whatever has no hole in time is one piece.
        holes = sum(
            new - old > layout.longest_step(ring.geometry) for old, new in zip(times, times[1:])
        )
        pieces = ring.pieces()
        assert len(pieces) == holes + 1
        assert (
            (pieces[0].since, pieces[0].store, pieces[0].first),
            (pieces[-1].until, pieces[-1].ends, pieces[-1].last),
        ) == (held[0], held[-1])


@pytest.mark.parametrize("seed", range(4))
def test_what_goes_next_is_what_the_next_block_removes(tmp_path, seed):
    choose = random.Random(seed)
    films = Set(tmp_path, 3, 3, 2).store(18)
    reader = films.reader()
    for _ in range(20):
        held = films.held()
        if choose.random() < 0.3 and sum(len(ring.clips) for ring in films.rings.values()) < 3:
            _, store, number = choose.choice(held)
            films.lock(store, number, number, 7)
        ring, _ = reader.read()
        first, last, store, since, until = ring.removed_next()
        locked = {it for it, part in films.rings.items() for _ in part.clips}
        assert (films.times[store, first], films.times[store, last]) == (
            since,
            until,
        ) and not ring.is_all_locked()
        assert locked or ring.next_store() == store
        films.store(2)
        assert set(held) - set(films.held()) == {
            (films.times[store, it], store, it) for it in (first, last)
        }


def test_where_each_block_but_the_newest_of_each_store_is_locked_none_goes(tmp_path):
    films = Set(tmp_path, 2, 3, 2).store(8)
    assert (
        films.reader().read()[0].removed_next() is None
        and not films.reader().read()[0].is_all_locked()
    )
    films.store(4)
    films.lock(0, 0, 3, 7)
    assert (
        films.reader().read()[0].removed_next()[2] == 1
        and not films.reader().read()[0].is_all_locked()
    )
    films.lock(1, 0, 3, 7)
    ring, _ = films.reader().read()
    assert (
        ring.removed_next() is None and ring.is_all_locked() and abs(ring.locked() - 4 / 6) < 1e-9
    )


def test_clips_have_the_ids_of_the_station_and_their_own_stores_numbers(tmp_path):
    films = Set(tmp_path, 3).store(30)
    ids = [films.lock(store, 2, 5, 7) for store in (0, 1, 1, 2)]
    ring, sources = films.reader().read()
    assert ids == [0, 64, 65, 128] == [clip.id for clip in ring.clips]
    clip = ring.clip(65)
    assert (clip.first, clip.last, clip.since, clip.until) == (
        2,
        5,
        films.times[1, 2],
        films.times[1, 5],
    )
    assert [it.number for it in ring.part(65).frames_of(clip)] == [2, 3, 4, 5]
    assert ring.part(65).time_of(3) == films.times[1, 3] and ring.clip(66) is None
    assert ring.are_beside(64, 65) and not ring.are_beside(0, 64)


def test_a_store_alone_under_its_own_path_is_read_as_before(tmp_path):
    films = Set(tmp_path, 2).store(5)
    reader = films.reader()
    assert reader.read()[0].stores == (2, 2)
    alone = layout.Ring(4, 2, b"GREY", 3, 4)
    alone.store()
    (tmp_path / "left.loop").write_bytes(bytes(alone.image))
    reading, source = reader.read()
    assert (
        reading.stores is None
        and reading.newest() == reading.frames[0]
        and source.of(None) is source
    )
    assert reading.near(0, 0) == reading.newest() and reading.near(0, 0, 0) is None
    with pytest.raises(Gone):
        source.of(0)
    (tmp_path / "left.loop").unlink()
    assert reader.read()[0].count() == 5


def test_only_files_with_a_number_of_three_digits_below_256_are_a_cameras(tmp_path):
    films = Set(tmp_path, 1).store(3)
    image = bytes(films.rings[0].image)
    for name in (
        "left.01.loop",
        "left.0001.loop",
        "left.256.loop",
        "left.001.loop.new",
        "left.x01.loop",
        "leftx001.loop",
        "right.001.loop",
        "left.٠٠١.loop",
        "left.001",
    ):
        (tmp_path / name).write_bytes(image)
    assert films.reader().read()[0].stores == (1, 1)
    (tmp_path / "left.255.loop").write_bytes(image)
    assert films.reader().read()[0].stores == (2, 2)
    assert Stores(str(tmp_path / "left")).read()[0].stores == (1, 1)


def test_nothing_and_a_folder_are_refused_as_before(tmp_path):
    (tmp_path / "folder").mkdir()
    Set(tmp_path / "folder", 2).store(3)
    for path, why in ((tmp_path / "none.loop", "missing"), (tmp_path / "folder", "not a file")):
        for reader in (Stores(str(path)), Reader(str(path))):
            with pytest.raises(layout.Refused) as refused:
                reader.read()
            assert str(refused.value) == why


# -------------------------------------------------------------- stores that come, go, or are spoilt


def test_stores_join_and_leave_while_the_others_go_on(tmp_path):
    films = Set(tmp_path, 1).store(10)
    reader = films.reader()
    assert reader.read()[0].stores == (1, 1)
    films.join(1)
    films.store(8)
    ring, sources = reader.read()
    assert ring.stores == (2, 2) and ring.newest().store == 1
    old = sources.of(0)
    assert old.frame(4)
    # One is moved away: what was asked for of it before goes on as far as its file is open.
    films.paths[0].rename(tmp_path / "away.loop")
    assert old.frame(5) and Lent(str(films.paths[0]), (0, 0)).file < 0
    with pytest.raises(Gone):
        sources.of(0).frame(4)
    ring, sources = reader.read()
    assert ring.stores == (1, 1) and {
        it.store for it in map(ring.at, range(BEGUN, films.time, PERIOD))
    } == {1}
    assert ring.near(4, 0, 0) is None
    with pytest.raises(Gone):
        sources.of(0)
    # One is made anew in its place.
    films.rings[0] = layout.Ring(8, 6, b"GREY", 3, 4)
    films.put(0)
    assert reader.read()[0].stores == (2, 2)
    # Another file has the place of one whose frames are to be fetched, be it with the same ones.
    assert films.rings[0].store()
    films.put(0)
    _, sources = reader.read()
    late = sources.of(0)
    films.paths[0].rename(tmp_path / "later.loop")
    films.put(0)
    with pytest.raises(Gone):
        late.frame(0)


@pytest.mark.parametrize("spoilt", ["empty", "none", "other", "cut", "folder"])
def test_one_that_cannot_be_used_is_named_and_the_others_go_on(tmp_path, spoilt):
    films = Set(tmp_path, 3).store(30)
    path = films.paths[1]
    if spoilt == "other":
        ring = layout.Ring(4, 2, b"GREY", 3, 4)
        ring.store()
        path.write_bytes(bytes(ring.image))
    elif spoilt == "cut":
        os.truncate(path, 3000)
    elif spoilt == "folder":
        path.unlink()
        path.mkdir()
    else:
        path.write_bytes(b"x" * 5000 * (spoilt == "none"))
    reader = films.reader()
    ring, _ = reader.read()
    assert (
        list(ring.faults()) == [str(path)] and all(ring.faults().values()) and ring.stores == (2, 2)
    )
    assert {it.store for it in map(ring.at, (films.times[0, 4], films.time))} == {0, 2}
    if path.is_dir():
        path.rmdir()
    films.put(1)
    assert reader.read()[0].faults() == {}


def test_where_none_can_be_read_it_is_refused_as_one_store_is(tmp_path):
    films = Set(tmp_path, 2)
    for path in films.paths.values():
        path.write_bytes(b"")
    with pytest.raises(layout.Refused, match="NotFormatted"):
        films.reader().read()


def test_many_stores_are_shown_before_all_are_read_the_newest_first(tmp_path, monkeypatch):
    monkeypatch.setattr(limits, "RING_SECONDS", -1)
    films = Set(tmp_path, 4).store(40)
    for place, path in enumerate(films.paths.values()):
        os.utime(path, (1000 + place, 1000 + place))
    reader = films.reader()
    seen = []
    for _ in range(4):
        ring, _ = reader.read()
        seen.append((ring.stores, sorted(part.among for part in ring.each())))
    assert seen == [((1, 4), [3]), ((2, 4), [2, 3]), ((3, 4), [1, 2, 3]), ((4, 4), [0, 1, 2, 3])]


def test_a_store_that_was_not_changed_is_not_read_again_and_its_file_is_closed(
    tmp_path, monkeypatch
):
    monkeypatch.setattr(limits, "SETTLED_SECONDS", -1)
    films = Set(tmp_path, 3).store(40)
    reader, looks = films.reader(), []
    reader.read()
    for member in reader.members.values():
        plain = member.look
        monkeypatch.setattr(
            member,
            "look",
            lambda stamp, number=member.number, plain=plain: (looks.append(number), plain(stamp)),
        )
    opened = os.listdir("/proc/self/fd")
    assert (
        sum(
            str(tmp_path) in os.readlink(f"/proc/self/fd/{it}")
            for it in opened
            if os.path.lexists(f"/proc/self/fd/{it}")
        )
        == 1
    )
    for _ in range(3):
        reader.read()
    assert looks == []
    id_ = films.lock(0, 4, 4, 7)
    assert [clip.id for clip in reader.read()[0].clips] == [id_] and looks == [0]


def test_a_file_that_was_changed_just_now_is_read_again_whatever_its_time_says(tmp_path):
    films = Set(tmp_path, 2).store(20)
    reader = films.reader()
    reader.read()
    member = reader.members[0]
    films.lock(0, 4, 4, 7)
    member.mark = member.stamp()
    assert len(reader.read()[0].clips) == 1


def test_the_newest_frame_is_found_after_a_turn_before_the_next_look(tmp_path):
    films = Set(tmp_path, 2, 2, 2).store(3)
    _, sources = films.reader().read()
    place = None
    for _ in range(12):
        frame, place = sources.newest(place)
        assert named(frame) == films.held()[-1]
        films.store(1)
        if films.active == 0 and films.time > BEGUN + 8 * PERIOD:
            _, sources = films.reader().read()


def test_the_newest_picture_goes_on_where_several_stores_become_one_and_back(tmp_path):
    films = Set(tmp_path, 2).store(10)
    camera = types.SimpleNamespace(name="left", store=str(tmp_path / "a.loop"))
    watched = Watched(camera, films.reader())
    eye, alone = Eye(watched), layout.Ring(8, 6, b"GREY", 3, 4)
    for _ in range(6):
        alone.store()

    async def newest():
        """What a look finds, and the values of that frame."""
        watched.look()
        eye.peeked = 0
        frame = await eye.newest()
        store = getattr(frame, "store", None)
        assert eye.head(frame.number, store) == frame
        return frame, eye.data(frame.number, store)[0][0]

    (one, first), two = asyncio.run(newest()), films.held()[-1]
    assert named(one) == two and first == two[2]
    (tmp_path / "left.loop").write_bytes(bytes(alone.image))
    assert asyncio.run(newest()) == (layout.read_store(tmp_path / "left.loop").frames[-1], 5)
    (tmp_path / "left.loop").unlink()
    assert asyncio.run(newest()) == (one, first)


# --------------------------------------------------------------------- what numbers alone can't say


def clip_in(camera, id_, first, since, tag=0, event=None):
    """A clip of 10 frames, as the laboratory lists it."""
    found = {
        "camera": camera,
        "id": id_,
        "first": first,
        "last": first + 9,
        "event": event,
        "tag": tag,
        "order_tag": tag,
    }
    found |= {
        "frames": 10,
        "from_us": since,
        "to_us": since + 9 * PERIOD,
        "seconds": 0.4,
        "bytes": 1,
        "note": "",
        "fetched": False,
    }
    return found


def test_clips_of_an_event_are_in_the_order_of_their_times_over_several_stores():
    found = events_of(
        [
            clip_in("left", 0, 300, 10, event=8),
            clip_in("left", 64, 0, 20, event=8),
            clip_in("left", 1, 200, 5, event=8),
        ]
    )
    assert [(it["id"], it["first"]) for it in found[0]["clips"]] == [(1, 200), (0, 300), (64, 0)]
    # Of one store their numbers say it.
    found = events_of([clip_in("left", 0, 300, 10, event=8), clip_in("left", 1, 200, 50, event=8)])
    assert [it["id"] for it in found[0]["clips"]] == [1, 0]


def test_clips_of_two_stores_with_the_same_numbers_may_be_of_one_press():
    whole = clip_in("right", 0, 0, 0, tag=7) | {"to_us": 19 * PERIOD, "last": 19, "frames": 20}
    parts = [clip_in("left", 0, 0, 0, tag=7), clip_in("left", 64, 0, 10 * PERIOD, tag=7)]
    assert len(events_of([whole, *parts])) == 1
    assert len(events_of([whole, parts[0], parts[1] | {"id": 1}])) == 2


def test_what_a_clip_has_grown_to_is_in_its_own_store():
    heard = Heard()
    begun = {
        "kind": "event_begun",
        "event": 8,
        "from": "1970-01-01T00:00:00Z",
        "to": "1970-01-01T00:01:00Z",
    }
    kept = {
        "kind": "kept",
        "camera": "left",
        "id": 64,
        "first": 0,
        "last": 9,
        "from": begun["from"],
        "to": begun["to"],
        "event": 8,
        "tag": 7,
    }
    for line in (begun, kept):
        heard.take(read_line(json.dumps(line)))
    assert heard.number_of("left", Clip(65, 0, 19, 7, 1, 2)) == 8
    assert heard.number_of("left", Clip(1, 0, 19, 7, 1, 2)) is None


def test_a_clip_that_has_grown_is_asked_for_in_its_own_store(tmp_path):
    films = Set(tmp_path, 2, 3, 8).store(40)
    for store in (0, 1):
        films.lock(store, 8, 14 if store else 22, 8 * 10**15)
    ring, _ = films.reader().read()
    told = types.SimpleNamespace(until=1)
    heard = types.SimpleNamespace(told=lambda number: told, number_of=lambda name, clip: clip.tag)
    watched = Watched(types.SimpleNamespace(name="left"), None)
    watched.reading = ring
    held = Held(types.SimpleNamespace(heard=heard, cameras={"left": watched}))
    for id_, last in ((2, 22), (66, 14)):
        found = held.longer(watched, 8, lambda clip: ring.are_beside(clip.id, id_))
        assert (found.id // 64, found.last) == (id_ // 64, last)
    assert held.longer(watched, 8) is None


# ------------------------------------------------------------------------------------ over the page


@contextlib.contextmanager
def answering(lab, films):
    """A station that does what the page orders, and releases clips of these stores."""
    orders = os.open(lab.folder / "orders", os.O_RDWR | os.O_NONBLOCK)
    answers, is_over = os.open(lab.folder / "answers", os.O_RDWR | os.O_NONBLOCK), threading.Event()
    given = []

    def say(label, *lines):
        for line in (*lines, {"kind": "done"}):
            os.write(answers, (json.dumps({"label": label} | line) + "\n").encode())

    def run():
        rest = b""
        while not is_over.wait(0.02):
            with contextlib.suppress(BlockingIOError):
                rest += os.read(orders, 65536)
            *lines, rest = rest.split(b"\n")
            for line in lines:
                label, order = line.decode()[1:].split(" ", 1)
                given.append(order)
                words = order.split()
                if words[0] == "release":
                    store, id_ = divmod(int(words[2]), 64)
                    films.rings[store].unlock(id_)
                    films.put(store)
                    say(label, {"kind": "released", "camera": "left", "id": int(words[2])})
                elif words[0] == "keep":
                    say(label, *films.keep(int(words[-1])))
                else:
                    say(label)

    thread = threading.Thread(target=run)
    thread.start()
    try:
        yield given
    finally:
        is_over.set()
        thread.join()
        os.close(orders)
        os.close(answers)


@pytest.fixture
def lab(make, tmp_path):
    """A laboratory whose camera has three stores, and those."""
    lab = make(station=False, page=False, cameras=[{"name": "left"}])
    lab.films = Set(lab.folder, 3, 3, 4).store(50)
    lab.start_page()
    lab.until(lambda: lab.camera().get("stores") == [3, 3], "stores")
    return lab


def test_the_state_of_a_camera_with_several_stores(lab):
    held, found = lab.films.held(), lab.camera()
    (_, first_store, first), (_, last_store, last) = held[0], held[-1]
    assert found["newest"] == [last, held[-1][0], last_store] and found["oldest"] == [
        first,
        held[0][0],
        first_store,
    ]
    assert found["frames"] == len(held) and found["stores"] == [3, 3]
    first, last, store, since, until = found["removed_next"]
    assert (since, store, first) == held[0] and until == lab.films.times[store, last]
    assert abs(found["seconds"] - len(held) * PERIOD / 1e6) < 1e-6


def test_frames_are_named_by_their_store_and_number(lab):
    held = lab.films.held()
    for place in (0, 7, len(held) - 1):
        moment, store, number = held[place]
        for path in (
            f"frames/{store}.{number}.jpg",
            f"frames/{store}.{number}/picture",
            f"newest.jpg?number={store}.{number}",
        ):
            found = lab.ask(f"/api/cameras/left/{path}")
            assert found.status == 200, found.body
            named = [found.headers[f"X-Frame-{it}"] for it in ("Time", "Store", "Number")]
            assert named == [str(moment), str(store), str(number)]
        value = lab.ask(f"/api/cameras/left/frames/{store}.{number}/value?x=3&y=1").json()
        assert value["values"] == {"value": (number + 11) % 256}
        counts = lab.ask(f"/api/cameras/left/frames/{store}.{number}/light").json()["counts"]
        assert sum(counts) == 48 and counts[number % 256]
        frame = {"number": number, "time": moment, "store": store}
        assert lab.ask(f"/api/cameras/left/frame?time={moment + 9}").json() == frame
        assert lab.ask(f"/api/cameras/left/frame?number={store}.{number}").json() == frame
    (_, store, number), (moment, other, next_) = held[2], held[13]
    assert lab.ask(f"/api/cameras/left/frame?number={store}.{number}&by=11").json() == {
        "number": next_,
        "time": moment,
        "store": other,
    }
    newest = lab.ask("/api/cameras/left/newest.jpg").headers
    assert (int(newest["X-Frame-Time"]), int(newest["X-Frame-Store"])) == held[-1][:2]
    for path, status in (
        ("frames/4.jpg", 404),
        ("frames/9.4.jpg", 404),
        ("frames/0.999.jpg", 404),
        ("frames/999.4.jpg", 400),
        ("frame?number=1.2.3", 400),
        ("frame?number=4", 404),
        ("frames/4/value?x=0&y=0", 404),
    ):
        assert lab.ask(f"/api/cameras/left/{path}").status == status, path


def test_pictures_of_moments_and_steps_go_over_all_stores(lab):
    from test_push import Open

    held = lab.films.held()
    page = Open(lab)
    shown, _ = page.next("picture")
    assert (shown["time"], shown["store"], shown["number"]) == held[-1]
    for place in (3, 12, 25):
        page.look(moment=held[place][0] + 5)
        shown, _ = page.picture("left")
        assert (shown["time"], shown["store"], shown["number"]) == held[place]
    page.close()
    moment = lab.post("/api/step", {"moment": held[3][0], "by": 20}).json()["moment"]
    assert moment == held[23][0]


def test_clips_are_fetched_noted_and_released_by_the_stations_ids(lab):
    films, number = lab.films, 1795361880123456
    with answering(lab, films) as given:
        held = films.held()
        runs = [(store, [it for _, at, it in held[6:16] if at == store]) for store in range(3)]
        clips = [
            (films.lock(store, them[0], them[-1], number), store, them)
            for store, them in runs
            if them
        ]
        assert len(clips) == 2
        (event,) = lab.until(
            lambda: [it for it in lab.ask("/api/events").json()["events"] if len(it["clips"]) == 2],
            "event",
        )
        assert event["number"] == number and (event["from_us"], event["to_us"]) == (
            held[6][0],
            held[15][0],
        )
        for id_, store, them in clips:
            found = lab.ask(f"/api/clips/left/{id_}.y4m")
            assert found.status == 200 and found.body == films.text(store, them[0], them[-1])
            lines = (
                lab.ask(f"/api/clips/left/{id_}.csv?first={them[0]}")
                .body.decode()
                .split("\r\n")[1:-1]
            )
            assert [tuple(map(int, it.split(",")[:2])) for it in lines] == [
                (it, films.times[store, it]) for it in them
            ]
            assert lab.ask(f"/api/clips/left/{id_}.jpg").headers["X-Frame-Number"] == str(
                them[len(them) // 2]
            )
            assert lab.ask(f"/api/clips/left/{id_}.csv?first={them[0] + 1}").status == 404
        found = lab.ask(f"/api/event.zip?clips={event['key']}&what=y4m,png")
        with zipfile.ZipFile(io.BytesIO(found.body)) as archive:
            texts = [archive.read(it) for it in sorted(archive.namelist()) if it.endswith(".y4m")]
            assert sum(it.endswith(".png") for it in archive.namelist()) == 10
        ordered = sorted(clips, key=lambda it: films.times[it[1], it[2][0]])
        assert texts == [films.text(store, them[0], them[-1]) for _, store, them in ordered]
        named = [{key: it[key] for key in ("camera", "id", "first")} for it in event["clips"]]
        assert lab.post("/api/event/note", {"clips": named, "note": "run 7"}).status == 200
        assert {it["note"] for it in lab.ask("/api/clips").json()["clips"]} == {"run 7"}
        assert lab.post("/api/event/release", {"clips": named}).status == 200
        assert lab.ask("/api/clips").json()["clips"] == []
        assert sorted(it for it in given if it != "status") == sorted(
            f"release left {it['id']} {it['first']}" for it in named
        )


def test_a_keep_is_told_with_the_clips_of_all_stores(lab):
    films, number = lab.films, 1795361880123456

    def keep(_):
        """Locks the last ten frames."""
        for store in range(3):
            if them := [it for _, at, it in films.held()[-10:] if at == store]:
                id_ = films.lock(store, them[0], them[-1], number)
                told = {
                    "kind": "kept",
                    "camera": "left",
                    "id": id_,
                    "first": them[0],
                    "last": them[-1],
                    "event": number,
                }
                yield told | {word: "2026-11-22T15:38:00Z" for word in ("from", "to")}

    films.keep = keep
    with answering(lab, films):
        answer = lab.post("/api/keep", {"seconds": 1, "note": "run 8"})
        assert answer.status == 200
        clips = answer.json()["answers"][0]["clips"]
    held = films.held()[-10:]
    assert len(clips) == len({store for _, store, _ in held})
    assert (
        min(it["from_us"] for it in clips) == held[0][0]
        and max(it["to_us"] for it in clips) == held[-1][0]
    )
    assert {it["note"] for it in lab.ask("/api/clips").json()["clips"]} == {"run 8"}


def test_a_camera_records_while_others_of_its_stores_are_made_and_says_which_cannot_be_used(lab):
    with answering(lab, lab.films), open(lab.folder / "answers", "w") as answers:
        for line in (
            {"kind": "making", "path": "left.003.loop", "percent": 25},
            {"kind": "one_absent", "path": "left.004.loop", "why": "Busy"},
        ):
            answers.write(json.dumps(line | {"camera": "left"}) + "\n")
        answers.flush()
        lab.until(lambda: ("one absent", "left") in lab.alerts(), "warning")
        assert lab.camera()["kind"] != "making"
    text = next(it["text"] for it in lab.status()["alerts"] if it["kind"] == "one absent")
    assert "left.004.loop" in text and "another program has the store open" in text


def test_a_store_that_is_moved_away_or_spoilt_is_told_and_the_rest_is_shown(lab):
    films = lab.films
    films.lock(0, films.rings[0].held()[0], films.rings[0].held()[0], 7)
    films.paths[0].rename(lab.folder / "away.loop")
    lab.until(lambda: lab.camera()["stores"] == [2, 2], "a store less")
    assert lab.ask("/api/clips").json()["clips"] == [] and ("lost", "left") not in lab.alerts()
    _, store, number = next(it for it in films.held() if it[1] == 1)
    assert lab.ask(f"/api/cameras/left/frames/{store}.{number}.jpg").status == 200
    films.paths[1].write_bytes(b"x" * 5000)
    lab.until(lambda: ("one absent", "left") in lab.alerts(), "warning")
    text = next(it["text"] for it in lab.status()["alerts"] if it["kind"] == "one absent")
    assert str(films.paths[1]) in text and lab.camera()["stores"] == [1, 1]
    films.paths[1].unlink()
    films.put(0)
    lab.until(
        lambda: lab.camera()["stores"] == [2, 2] and ("one absent", "left") not in lab.alerts(),
        "store again",
    )
    assert len(lab.ask("/api/clips").json()["clips"]) == 1
    for path in films.paths.values():
        path.unlink(missing_ok=True)
    lab.until(lambda: ("lost", "left") in lab.alerts() and "newest" not in lab.camera(), "loss")


def test_as_long_as_not_all_is_read_no_program_is_told_that_these_are_all_clips(make):
    lab = make(station=False, page=False, cameras=[{"name": "left"}])
    films = Set(lab.folder, 3, 3, 4).store(50)
    (lab.folder / "spoilt").mkdir()
    (lab.folder / "spoilt" / "sitecustomize.py").write_text(SPOILT)
    lab.spoil("hangs", "left.000.loop")
    os.utime(films.paths[0], (1000, 1000))
    lab.start_page(
        bounds=lab.bounds | {"RING_SECONDS": -1, "DISK_SECONDS": 1},
        PYTHONPATH=str(lab.folder / "spoilt"),
    )
    found = lab.until(lambda: (it := lab.camera()).get("stores") == [2, 3] and it, "two of three")
    assert "clips" not in found
    lab.spoil("hangs", "")
    assert (
        lab.until(lambda: (it := lab.camera()).get("stores") == [3, 3] and it, "all")["clips"] == []
    )


def test_another_stations_page_gives_frames_and_clips_of_several_stores_on(lab, tmp_path):
    (tmp_path / "hub").mkdir()
    hub, films = Laboratory(tmp_path / "hub"), lab.films
    hub.config = None
    settings_of(hub.folder, ("north", lab.port))
    try:
        hub.start_page("--settings", "page.toml")
        state = hub.until(
            lambda: next((it for it in hub.status()["cameras"] if it.get("newest")), None), "camera"
        )
        assert state["name"] == "north:left" and state["stores"] == [3, 3]
        _, store, number = films.held()[7]
        found = hub.ask(f"/api/cameras/north%3Aleft/frames/{store}.{number}.jpg")
        assert (found.status, found.headers["X-Frame-Store"], found.headers["X-Frame-Number"]) == (
            200,
            str(store),
            str(number),
        )
        first = films.rings[1].held()[0]
        id_ = films.lock(1, first, first, 7)
        lab.until(lambda: lab.ask("/api/clips").json()["clips"], "clip")
        assert id_ == 64 and hub.ask(f"/api/clips/north%3Aleft/{id_}.y4m").body == films.text(
            1, first, first
        )
    finally:
        hub.close()
