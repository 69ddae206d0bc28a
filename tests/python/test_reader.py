"""What is read of a store."""
import datetime
import os
import random
import stat

import conftest
import lapyrei
import layout
import numpy as np
import pytest
import stores
from conftest import DAY, FORMATS, bytes_of, is_same, put, random_ring, ring, with_flags

DATA = conftest.TOP / "tests/rust/test_store_cases/data"
REFUSALS = {
    "refused 4 NotFormatted": lapyrei.NotFormatted,
    "refused 5 Damaged": lapyrei.Damaged,
}


def judge(path, image):
    """A store is read as the layout reads its image, or is refused as it."""
    put(path, image)
    wanted = layout.read(bytes(image))
    if not isinstance(wanted, layout.Refused):
        with lapyrei.open(path) as store:
            is_same(store, wanted)
        return "read"
    with pytest.raises(lapyrei.Refused) as refused:
        lapyrei.open(path)
    assert refused.value.text == wanted.text and str(path) in str(refused.value)
    kind = next(it for text, it in REFUSALS.items() if wanted.text.startswith(text))
    assert type(refused.value) is kind
    return wanted.text


@pytest.mark.parametrize("path", sorted(DATA.glob("*.loop")), ids=lambda it: it.name)
def test_the_stores_of_the_store_s_own_tests_are_read(path, tmp_path):
    assert judge(tmp_path / "a.loop", path.read_bytes()) == "read"


@pytest.mark.parametrize("seed", range(10))
def test_random_rings_and_what_spoilt_bytes_make_of_them(tmp_path, seed):
    choose, kinds = random.Random(seed), set()
    for _ in range(40):
        it = random_ring(choose)
        image, places = bytearray(it.image), [
            0,
            8,
            12,
            36,
            44,
            100,
            512,
            520,
            2560,
            2568,
            2816,
            2817,
            3072,
            3096,
        ]
        for _ in range(choose.choice((0, 0, 1, 2))):
            at = choose.choice([*places, choose.randrange(len(image))]) % len(image)
            image[at] = choose.choice((0, 1, 0xA5, choose.randrange(256)))
        if choose.random() < 0.1:
            del image[choose.randrange(len(image)) :]
        kinds.add(judge(tmp_path / "a.loop", image))
    assert len(kinds) > 3


@pytest.mark.parametrize("seed", range(4))
def test_what_kills_and_losses_of_power_leave_is_read(tmp_path, seed):
    """A writer's calls, each a write and its sync, are cut anywhere; of a write that isn't synced
    each sector is new, old or zero, as tests/checks/power_check has it."""
    choose, records = random.Random(seed), []
    random.seed(seed)
    it = layout.Ring(16, 30, choose.choice(FORMATS), 3, 2)
    base = bytes(it.image)

    def write(at, data):
        records.extend([("W", at, bytes(data)), ("S", 0, b"")])
        it.put(at, data)

    it.write = write
    for place in range(14):
        it.store()
        if place in (3, 9):
            it.lock(it.next - 2, it.next - 1, place)
        if place == 11:
            it.unlock(0)
    for cut in range(len(records) + 1):
        image = stores.after_power_loss(base, records[:cut], stores.at_random)
        assert judge(tmp_path / "a.loop", image) == "read"


def test_what_a_format_leaves_that_was_stopped_is_refused_or_read(tmp_path):
    whole, found = layout.fresh(layout.geometry_of(8, 8, b"GREY", 1, 1, 3, 2)), set()
    for size in range(0, len(whole), 512):
        found.add(judge(tmp_path / "a.loop", whole[:size]))
    for closed in (whole, b"\0" + whole[1:], b""):
        found.add(judge(tmp_path / "a.loop", closed))
    assert found == {"read", "refused 4 NotFormatted", "refused 5 Damaged 1"}


def test_a_folder_a_pipe_and_nothing_are_refused_by_name(tmp_path):
    os.mkfifo(tmp_path / "pipe")
    put(tmp_path / "shut.loop", ring(3))
    cases = {"pipe": "not a file", "none.loop": "missing", "none": "missing"}
    for name, why in cases.items():
        with pytest.raises(lapyrei.CannotOpen, match=f"{name}: {why}"):
            lapyrei.open(tmp_path / name)
    (tmp_path / "empty").mkdir()
    with pytest.raises(lapyrei.CannotOpen, match="no store"):
        lapyrei.open(tmp_path / "empty")
    with pytest.raises(lapyrei.CannotOpen, match="no store is named"):
        lapyrei.open([])


def test_a_store_in_a_folder_that_may_not_be_written_is_read(tmp_path):
    path = put(tmp_path / "a.loop", ring(3))
    os.chmod(path, stat.S_IRUSR)
    os.chmod(tmp_path, stat.S_IRUSR | stat.S_IXUSR)
    before = os.stat(path)
    assert len(lapyrei.open(path)) == 3
    os.chmod(tmp_path, stat.S_IRWXU)
    after = os.stat(path)
    assert (before.st_mtime_ns, before.st_size) == (after.st_mtime_ns, after.st_size)


# ------------------------------------------------------------------------------- what is known


def test_a_store_says_what_it_is(tmp_path):
    store = lapyrei.open(put(tmp_path / "left.loop", ring(20, b"YM12")))
    assert (store.shape, store.dtype, store.format) == ((11, 6, 8), np.uint8, "YM12")
    assert (store.rate, store.ndim) == (25, 3)
    assert (store.camera, store.is_grey, len(store)) == ("left", False, 11)
    assert store.runs == [[(9, 19)]] and store.parts[0].next == 20
    assert store.times.tolist() == [DAY + n * 40000 for n in range(9, 20)]
    assert store.when[0] == np.datetime64("2025-11-26T18:40:00.360000")
    assert store.times.dtype == np.int64 and store.numbers.dtype == np.int64
    assert store.sequences.tolist() == [n + 1 for n in range(9, 20)]
    assert set(store.flags.tolist()) == {0x2000} and set(store.bits.tolist()) == {8}
    assert store.heads.dtype.names == ("number", "sequence", "flags", "time", "length")
    assert "11 frames" in repr(store) and "2025-11-26T18:40:00.360000Z" in repr(store)


def test_what_is_given_out_is_the_reader_s_own(tmp_path):
    store = lapyrei.open(put(tmp_path / "a.loop", ring(5)))
    for vector in (store.heads, store.numbers, store.times, store.sequences, store.flags, store[0]):
        vector[...] = 0
    assert store.numbers.tolist() == [0, 1, 2, 3, 4] and store.times[0] == DAY
    assert store[0].tobytes() == bytes(range(48))


@pytest.mark.parametrize("form", FORMATS)
@pytest.mark.parametrize("size", [(8, 6), (7, 5), (1, 1), (2, 1), (1, 2)])
def test_pictures_have_the_shape_and_the_bytes_of_their_planes(tmp_path, form, size):
    it = ring(7, form, size)
    store = lapyrei.open(put(tmp_path / "a.loop", it))
    recording = layout.read(bytes(it.image))
    is_same(store, recording)
    (width, height), divided = size, layout.DIVIDED[form]
    if divided is None:
        assert store[0].shape == (height, width)
        return
    small = (-(-height // divided[1]), -(-width // divided[0]))
    assert [plane.shape for plane in store[0]] == [(height, width), small, small]
    assert [plane.shape for plane in store.array()] == [
        (7, height, width),
        (7, *small),
        (7, *small),
    ]


def test_an_empty_store_has_no_frames(tmp_path):
    store = lapyrei.open(put(tmp_path / "a.loop", ring(0)))
    assert len(store) == 0 and list(store) == [] and store.times.shape == (0,)
    assert store.array().shape == (0, 6, 8) and store.clips == store.events == []
    assert "without a frame" in repr(store) and len(store.between(0, 10**18)) == 0
    for place in (0, -1):
        with pytest.raises(IndexError):
            store[place]
    with pytest.raises(lapyrei.Gone):
        store.nearest([5])


def test_frames_are_chosen_by_place_slice_list_and_mask(tmp_path):
    store = lapyrei.open(put(tmp_path / "a.loop", ring(12)))
    assert [int(it[0, 0]) for it in store] == store.numbers.tolist()
    assert (store[-1] == store[len(store) - 1]).all()
    assert store[2:5].numbers.tolist() == store.numbers[2:5].tolist()
    assert store[::-2].numbers.tolist() == store.numbers[::-2].tolist()
    assert store[[4, 1]].numbers.tolist() == store.numbers[[4, 1]].tolist()
    assert store[store.sequences % 3 == 0].sequences.tolist() == [3, 6, 9, 12]
    assert len(store[[]]) == 0 and len(store[:0]) == 0
    assert int(store[2:5][1][0, 0]) == store.numbers[3]
    for place in (len(store), -len(store) - 1):
        for read in (store.read, store.luma, store.rgb, store.raw):
            with pytest.raises(IndexError):
                read(place)
    for wrong in (1.0, "1", [0.5]):
        with pytest.raises((TypeError, IndexError)):
            store[wrong]


def test_a_picture_is_read_into_an_array_of_the_caller(tmp_path):
    grey = lapyrei.open(put(tmp_path / "a.loop", ring(3)))
    out = np.zeros((6, 8), np.uint8)
    assert grey.read(1, out) is out and out.tobytes() == grey[1].tobytes()
    colour = lapyrei.open(put(tmp_path / "b.loop", ring(3, b"YM12")))
    planes = lapyrei.Planes(out, np.zeros((3, 4), np.uint8), np.zeros((3, 4), np.uint8))
    colour.read(2, planes)
    assert bytes_of(planes) == bytes_of(colour[2])
    wrong = [np.zeros((6, 9), np.uint8), np.zeros((6, 8), np.uint16), np.zeros((8, 6), np.uint8).T]
    for it in [*wrong, lapyrei.Planes(out, out, out)]:
        with pytest.raises(ValueError, match="out has to be"):
            grey.read(0, it)


def test_a_frame_is_found_by_its_number(tmp_path):
    store = lapyrei.open(put(tmp_path / "a.loop", ring(20)))
    assert store.index(9) == 0 and store.numbers[store.index(15)] == 15
    for number in (8, 20, -1, 2**63):
        with pytest.raises(lapyrei.Gone):
            store.index(number)


# ------------------------------------------------------------------------------- deep samples


@pytest.mark.parametrize("bits", [9, 10, 12, 14, 16])
@pytest.mark.parametrize("form", FORMATS)
def test_deep_frames_are_uint16_of_half_the_bytes_of_a_row(tmp_path, form, bits):
    it = layout.Ring(8, 4, form, 3, 2)
    for _ in range(5):
        it.store()
    image = with_flags(it.image, it.geometry, 0x2000 | bits << 24)
    store = lapyrei.open(put(tmp_path / "a.loop", image))
    assert set(store.bits.tolist()) == {bits} and store.dtype == np.uint16
    assert store.shape == (5, 4, 4)
    picture = store[1]
    luma = picture if form == b"GREY" else picture.y
    first = layout.read(image).frames[int(store.numbers[1])]
    assert luma.dtype == np.uint16 and luma[0, 1] == first[2] | first[3] << 8
    assert bytes_of(picture) == first and bytes_of(store.array()) != b""
    if form == b"YM12":
        assert picture.cb.shape == (2, 2) and picture.cb[0, 0] == first[32] | first[33] << 8
    assert store.rgb(0).dtype == np.uint16 and store.rgb(0).max() < 1 << bits or form == b"GREY"


def test_a_frame_that_came_while_the_station_stood_still_is_late(tmp_path):
    it = ring(6, size=(8, 4))
    image = bytearray(it.image)
    at = it.geometry.slot_at(1, 0) + 12
    image[at : at + 4] = (0x2000 | 1 << 29 | 12 << 24).to_bytes(4, "little")
    store = lapyrei.open(put(tmp_path / "a.loop", image))
    assert store.late.tolist() == [False, False, False, True, False, False]
    assert store.bits.tolist() == [8, 8, 8, 12, 8, 8]


def test_frames_of_several_depths_are_told_apart(tmp_path):
    it = ring(6, size=(8, 4))
    image = bytearray(it.image)
    at = it.geometry.slot_at(1, 0) + 12
    image[at : at + 4] = (12 << 24).to_bytes(4, "little")
    store = lapyrei.open(put(tmp_path / "a.loop", image))
    assert store.bits.tolist() == [8, 8, 8, 12, 8, 8]
    assert store[0].shape == (4, 8) and store[3].shape == (4, 4) and store[3].dtype == np.uint16
    for ask in (lambda: store.shape, lambda: store.dtype, store.array):
        with pytest.raises(lapyrei.MixedDepths, match="8, 12 bits"):
            ask()
    assert store[store.bits == 8].array().shape == (5, 4, 8)


@pytest.mark.parametrize("bits, width", [(1, 8), (7, 8), (17, 8), (31, 8), (12, 7)])
def test_a_depth_that_no_frame_has_is_refused_by_name(tmp_path, bits, width):
    it = ring(2, size=(width, 4))
    store = lapyrei.open(put(tmp_path / "a.loop", with_flags(it.image, it.geometry, bits << 24)))
    for read in (store.read, store.luma, store.rgb):
        with pytest.raises(lapyrei.UnknownDepth, match=f"{bits} bits"):
            read(0)
    assert store.raw(0).tobytes() == layout.read(bytes(it.image)).frames[0]


def test_deep_colours_in_rows_of_no_whole_samples_are_refused(tmp_path):
    it = ring(2, b"YM12", (6, 4))
    store = lapyrei.open(put(tmp_path / "a.loop", with_flags(it.image, it.geometry, 10 << 24)))
    with pytest.raises(lapyrei.UnknownDepth, match="no whole samples"):
        store[0]


# ------------------------------------------------------------------------------- by time


def test_frames_of_a_time_are_found_whatever_names_it(tmp_path, monkeypatch):
    store = lapyrei.open(put(tmp_path / "a.loop", ring(12)))
    first, last = DAY + 120_000, DAY + 240_000
    utc = datetime.timezone.utc
    days = [datetime.datetime.fromtimestamp(it / 1e6, utc) for it in (first, last)]
    monkeypatch.setenv("TZ", "Asia/Tokyo")
    import time

    time.tzset()
    pairs = [
        (first, last),
        (np.int64(first), np.uint64(last)),
        tuple(days),
        tuple(it.astimezone().replace(tzinfo=None) for it in days),
        (np.datetime64(first, "us"), np.datetime64(last, "us")),
        ("2025-11-26T18:40:00.12Z", "2025-11-26T18:40:00.240Z"),
        ("2025-11-27T03:40:00.120", "2025-11-27T03:40:00.24"),
        ("03:40:00.12", "03:40:00.24"),
        (str(first / 1e6), f"{last // 1000000}.{last % 1000000:06}"),
    ]
    for pair in pairs:
        assert store.between(*pair).numbers.tolist() == [3, 4, 5, 6], pair
    monkeypatch.undo()
    time.tzset()
    assert len(store.between(last, first)) == 0
    for wrong in (1.5, None, True, "noon", "25:00", b"1", "2025-13-01T00:00"):
        with pytest.raises(lapyrei.BadTime):
            store.between(wrong, last)


def test_a_time_of_the_day_needs_frames_that_have_days(tmp_path):
    store = lapyrei.open(put(tmp_path / "a.loop", ring(5, start=0)))
    with pytest.raises(lapyrei.BadTime, match="no times of the day"):
        store.between("10:00", "11:00")
    assert store.between("0.04", "0.08").numbers.tolist() == [1, 2]


def test_the_nearest_frames_of_times(tmp_path):
    store = lapyrei.open(put(tmp_path / "a.loop", ring(5, start=0)))
    wanted = [-9, 0, 19_999, 20_000, 20_001, 159_999, 10**9]
    assert store.nearest(wanted).tolist() == [0, 0, 0, 0, 1, 4, 4]
    assert store.nearest(41_000) == 1
    assert store.nearest(np.array(wanted).astype("datetime64[us]")).tolist() == [
        0,
        0,
        0,
        0,
        1,
        4,
        4,
    ]
    assert store.nearest(np.zeros((2, 3), int)).shape == (2, 3)
    with pytest.raises(lapyrei.BadTime):
        store.nearest([0.5])


def test_a_clock_that_was_set_back_changes_no_order_of_a_file(tmp_path):
    it = ring(3)
    it.time -= 10_000_000
    it.store(), it.store()
    store = lapyrei.open(put(tmp_path / "a.loop", it))
    assert store.numbers.tolist() == [0, 1, 2, 3, 4]
    back = DAY - 10_000_000
    assert store.between(back, DAY - 1).numbers.tolist() == [3, 4]
    assert store.nearest([back]).tolist() == [3]


def test_a_time_that_no_clock_gives_is_shown_as_the_greatest(tmp_path):
    it = ring(3)
    image = bytearray(it.image)
    at = it.geometry.slot_at(0, 2) + 16
    image[at : at + 8] = b"\xff" * 8
    store = lapyrei.open(put(tmp_path / "a.loop", image))
    assert store.times.tolist() == [DAY, DAY + 40000, 2**63 - 1]
    assert int(store.heads["time"][2]) == 2**64 - 1 and len(store.between(DAY, 2**62)) == 2


# ------------------------------------------------------------------------------- clips, events


def test_clips_are_their_frames(tmp_path):
    it = ring(20)
    it.lock(12, 16, 7)
    it.lock(18, 18, 0)
    store = lapyrei.open(put(tmp_path / "a.loop", it))
    clip, other = store.clips
    assert (clip.id, clip.first, clip.last, clip.tag, clip.part) == (0, 12, 16, 7, 0)
    assert clip.numbers.tolist() == [12, 13, 14, 15, 16] and clip.times[0] == clip.since
    assert clip.until == DAY + 16 * 40000 and int(clip[1][0, 0]) == 13
    assert store.clip(1).numbers.tolist() == other.numbers.tolist() == [18]
    with pytest.raises(lapyrei.NoSuchEvent, match="no clip 2"):
        store.clip(2)


def locked(spans, count=24, **more):
    """A ring with clips, each (first, last, tag)."""
    it = ring(count, **more)
    for span in spans:
        it.lock(*span)
    return it


@pytest.mark.parametrize(
    "spans, wanted",
    [
        # Of one run a keep would have made one clip.
        ([(14, 16, 0), (17, 19, 0)], [["0"], ["1"]]),
        ([(14, 18, 0), (16, 20, 0)], [["0"], ["1"]]),
        ([(14, 18, 0), (14, 18, 0)], [["0"], ["1"]]),
        # A held frame lies between.
        ([(14, 15, 0), (18, 19, 0)], [["0"], ["1"]]),
        ([], []),
    ],
)
def test_clips_of_several_keeps_are_several_events(tmp_path, spans, wanted):
    store = lapyrei.open(put(tmp_path / "a.loop", locked(spans)))
    assert [[str(it.id) for it in event.clips] for event in store.events] == wanted


def test_clips_of_the_runs_of_one_time_are_one_event(tmp_path):
    it = ring(12)
    it.lock(2, 2, 0)
    for _ in range(9):
        it.store()
    # Held: 0..2 by the clip, and 12..20.
    it.lock(0, 2, 5), it.lock(12, 14, 5), it.lock(12, 15, 6)
    it.unlock(0)
    store = lapyrei.open(put(tmp_path / "a.loop", it))
    assert store.runs == [[(0, 2), (12, 20)]]
    event, other = store.events
    assert [clip.id for clip in event.clips] == [1, 2] and event.tag == 5 and event.name == "1"
    assert event.numbers.tolist() == [0, 1, 2, 12, 13, 14]
    assert (event.since, event.until) == (DAY, DAY + 14 * 40000)
    assert other.name == "3" and store.event("2").name == "1" and store.event(3).name == "3"
    with pytest.raises(lapyrei.NoSuchEvent, match="there are: 1, 3"):
        store.event("7")


def test_clips_of_an_event_that_the_station_numbered_are_that_event(tmp_path):
    """Whatever lies between them, and also while one of them grows."""
    it, number = ring(24), 1_795_361_880_123_456
    it.lock(13, 14, number), it.lock(17, 18, number), it.lock(13, 15, number), it.lock(
        17, 18, 2**64 - 1
    )
    store = lapyrei.open(put(tmp_path / "a.loop", it))
    event, other = store.events
    assert event.numbers.tolist() == [13, 14, 15, 17, 18] and len(event.clips) == 3
    assert event.number == number and other.number is None and other.name == "3"
    assert store.event(number).name == store.event(str(number)).name == "0"


# ------------------------------------------------------------------------------- several files


def parts_in(folder, count=3, each=7, name="left"):
    """Several stores of a camera, one after the other in time, each with numbers from 0."""
    for index in range(count):
        it = ring(each, start=DAY + index * each * 40000)
        put(folder / f"{name}.{index:03}.loop", it)


def test_the_stores_of_a_folder_are_one_ring(tmp_path):
    parts_in(tmp_path)
    wanted = [DAY + n * 40000 for n in range(21)]
    paths = sorted(str(it) for it in tmp_path.iterdir())
    for where in (tmp_path, tmp_path / "left.loop", paths, paths[::-1], [tmp_path / "left.loop"]):
        store = lapyrei.open(where)
        assert store.times.tolist() == wanted and store.camera == "left" and len(store.parts) == 3
        assert [int(it[0, 0]) for it in store] == [*range(7)] * 3
    assert store.index(3, part=1) == 10
    assert store.between(DAY + 240_000, DAY + 320_000).numbers.tolist() == [6, 0, 1]


def test_blocks_of_several_files_lie_in_time_s_order(tmp_path):
    """The newest store in time isn't the last by its name."""
    early, late = ring(5), ring(5, start=DAY + 5 * 40000)
    put(tmp_path / "a.000.loop", late), put(tmp_path / "a.001.loop", early)
    store = lapyrei.open(tmp_path)
    assert (np.diff(store.times) > 0).all() and len(store) == 10


def test_a_keep_over_two_files_is_one_event(tmp_path):
    first, second = ring(7), ring(7, start=DAY + 7 * 40000)
    first.lock(4, 6, 2), second.lock(0, 3, 2), second.lock(5, 6, 2)
    put(tmp_path / "a.000.loop", first), put(tmp_path / "a.001.loop", second)
    store = lapyrei.open(tmp_path)
    assert [(it.name, len(it)) for it in store.events] == [("0.0", 7), ("1.1", 2)]
    assert store.event("1.0").name == "0.0" and store.clip(1, part=1).numbers.tolist() == [5, 6]


def test_files_that_are_no_ring_are_refused_by_name(tmp_path):
    put(tmp_path / "left.loop", ring(3)), put(tmp_path / "right.loop", ring(3))
    with pytest.raises(lapyrei.Unlike, match="several cameras: left, right"):
        lapyrei.open(tmp_path)
    put(tmp_path / "wide.loop", ring(3, size=(9, 6)))
    with pytest.raises(lapyrei.Unlike, match="wide.loop: has frames of 9x6 GREY 25:1, and .*left"):
        lapyrei.open([tmp_path / "left.loop", tmp_path / "wide.loop"])
    put(tmp_path / "spoilt.loop", b"x" * 9000)
    with pytest.raises(lapyrei.NotFormatted, match="spoilt.loop"):
        lapyrei.open([tmp_path / "left.loop", tmp_path / "spoilt.loop"])


def test_files_that_come_are_found_by_a_refresh(tmp_path):
    parts_in(tmp_path, 2)
    store = lapyrei.open(tmp_path)
    put(tmp_path / "left.002.loop", ring(7, start=DAY + 14 * 40000))
    old = store[:]
    assert store.refresh() and len(store) == 21 and len(store.parts) == 3 and len(old) == 14
    assert not store.refresh()
    os.unlink(tmp_path / "left.001.loop")
    with pytest.raises(lapyrei.Changed, match="isn't there any more"):
        store.refresh()
    assert int(store[8][0, 0]) == 1


# ------------------------------------------------------------------------------- colours


def test_rgb_is_what_the_standard_says():
    from lapyrei.colour import rgb_of

    def colour(y, cb, cr, *words, bits=8, full=False):
        kind = np.uint8 if bits == 8 else np.uint16
        planes = tuple(np.array([[it]], kind) for it in (y, cb, cr))
        return rgb_of(planes, bits, *words, full=full)[0, 0].tolist()

    # The primaries of BT.601 and BT.709, in limited range, as the standards' tables have them.
    assert colour(16, 128, 128) == [0, 0, 0] and colour(235, 128, 128) == [255, 255, 255]
    for y, cb, cr, rgb in [
        (81, 90, 240, [255, 0, 0]),
        (145, 54, 34, [0, 255, 0]),
        (41, 240, 110, [0, 0, 255]),
    ]:
        assert np.abs(np.array(colour(y, cb, cr)) - rgb).max() <= 1
    for y, cb, cr, rgb in [
        (63, 102, 240, [255, 0, 0]),
        (173, 42, 26, [0, 255, 0]),
        (32, 240, 118, [0, 0, 255]),
    ]:
        assert np.abs(np.array(colour(y, cb, cr, "bt709")) - rgb).max() <= 1
    assert (
        colour(0, 128, 128, full=True) == [0, 0, 0]
        and colour(255, 128, 128, full=True) == [255] * 3
    )
    assert colour(76, 85, 255, full=True) == [254, 0, 0]
    assert colour(940, 512, 512, bits=10) == [1023] * 3 and colour(64, 512, 512, bits=10) == [0] * 3
    assert colour(0, 0, 0) == [0, 136, 0] and colour(255, 255, 255)[1] < 255
    with pytest.raises(ValueError, match="bt601"):
        colour(1, 1, 1, "bt555")


@pytest.mark.parametrize("form", FORMATS)
def test_each_pixel_takes_the_sample_that_stands_for_it(tmp_path, form):
    store = lapyrei.open(put(tmp_path / "a.loop", ring(2, form, (7, 5))))
    rgb, picture, divided = store.rgb(1), store[1], layout.DIVIDED[form]
    assert rgb.shape == (5, 7, 3)
    if divided is None:
        assert all((rgb[:, :, it] == picture).all() for it in range(3))
        return
    from lapyrei.colour import rgb_of

    for row in range(5):
        for column in range(7):
            one = picture.y[row, column], *(
                it[row // divided[1], column // divided[0]] for it in picture[1:]
            )
            wanted = rgb_of(tuple(np.array([[it]]) for it in one), 8)[0, 0]
            assert (rgb[row, column] == wanted).all()
