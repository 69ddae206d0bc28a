"""Laws that hold of every ring and every way to choose of its frames."""
import struct
import tempfile
from pathlib import Path

import lapyrei
import layout
import numpy as np
import pytest
from conftest import FORMATS, bytes_of, is_same, put
from hypothesis import HealthCheck, given, settings
from hypothesis import strategies as some
from lapyrei import events, files, films, times

CALM = settings(
    max_examples=60, deadline=None, database=None, suppress_health_check=list(HealthCheck)
)

calls = some.lists(
    some.one_of(
        some.tuples(
            some.just("store"), some.sampled_from((0, 1, 40000, 10**7)), some.integers(1, 3)
        ),
        some.tuples(some.just("lock"), some.integers(0, 99), some.integers(0, 9)),
        some.tuples(some.just("unlock"), some.integers(0, 5), some.none()),
    ),
    max_size=40,
)
rings = some.tuples(
    some.integers(1, 6),
    some.integers(1, 5),
    some.sampled_from(FORMATS),
    some.integers(2, 5),
    some.integers(1, 4),
    some.sampled_from((1, 2)),
    calls,
)


def image_of(words):
    """A ring's image after these calls."""
    width, height, form, segments, slots, version, calls_ = words
    it = layout.Ring(width, height, form, segments, slots, version=version)
    it.time = 0
    for kind, one, two in calls_:
        if kind == "store":
            it.store(two, one)
        elif kind == "lock" and it.held():
            number = it.held()[one % len(it.held())]
            it.lock(number, number, two)
        elif kind == "unlock" and one in it.clips:
            it.unlock(one)
    return bytes(it.image)


def opened(image, work):
    """What a work answers of a store that has this image."""
    with tempfile.TemporaryDirectory() as folder:
        path = put(Path(folder) / "a.loop", image)
        return work(path)


@CALM
@given(rings)
def test_each_ring_is_read_as_the_layout_has_it(words):
    image = image_of(words)
    opened(image, lambda path: is_same(lapyrei.open(path), layout.read(image)))


@CALM
@given(
    rings,
    some.lists(some.tuples(some.integers(0, 2**16), some.integers(0, 255)), max_size=4),
    some.integers(0, 3),
)
def test_whatever_bytes_a_file_has_it_is_read_as_the_layout_has_it_or_refused(words, spoilt, cut):
    image = bytearray(image_of(words))
    for at, value in spoilt:
        image[at % len(image)] = value
    del image[len(image) - cut * 200 if cut else len(image) :]
    wanted = layout.read(bytes(image))

    def judge(path):
        if not isinstance(wanted, layout.Refused):
            return is_same(lapyrei.open(path), wanted)
        with pytest.raises(lapyrei.Refused) as refused:
            lapyrei.open(path)
        assert refused.value.text == wanted.text

    opened(bytes(image), judge)


@CALM
@given(some.binary(max_size=6000))
def test_no_bytes_at_all_raise_anything_but_a_refusal(data):
    def judge(path):
        try:
            lapyrei.open(path)
        except lapyrei.Refused:
            pass

    opened(data, judge)
    opened(layout.superblock(layout.geometry_of(1, 1, b"GREY", 1, 1, 2, 2)) + data, judge)


@CALM
@given(rings, some.data())
def test_frames_are_chosen_as_numpy_chooses(words, data):
    def judge(path):
        store = lapyrei.open(path)
        count, places = len(store), np.arange(len(store))
        part = data.draw(some.slices(count))
        assert store[part].numbers.tolist() == store.numbers[part].tolist()
        mask = np.array(
            data.draw(some.lists(some.booleans(), min_size=count, max_size=count)), bool
        )
        assert store[mask].numbers.tolist() == store.numbers[mask].tolist()
        first, last = sorted(
            data.draw(some.tuples(some.integers(0, 10**7), some.integers(0, 10**7)))
        )
        inside = [n for n in places if first <= store.times[n] <= last]
        assert store.between(first, last).numbers.tolist() == store.numbers[inside].tolist()
        for moment in (
            data.draw(some.lists(some.integers(-(10**6), 10**7), max_size=4)) if count else []
        ):
            far = np.abs(store.times - moment)
            assert far[int(store.nearest(moment))] == far.min()
        for place in part.indices(count)[:1] if count and part.indices(count)[0] < count else []:
            assert bytes_of(store[place]) == store.raw(place).tobytes()

    opened(image_of(words), judge)


@CALM
@given(rings, rings)
def test_a_refresh_is_a_new_opening_or_says_that_the_store_changed(old, new):
    def judge(path):
        store = lapyrei.open(path)
        Path(path).write_bytes(image_of(new))
        try:
            store.refresh()
        except (lapyrei.Changed, lapyrei.Refused):
            return
        fresh = lapyrei.open(path)
        assert (store.heads == fresh.heads).all() and len(store.clips) == len(fresh.clips)

    opened(image_of(old), judge)


@CALM
@given(
    some.lists(
        some.tuples(
            some.integers(0, 2), some.integers(0, 30), some.integers(0, 6), some.integers(0, 1)
        ),
        max_size=12,
    )
)
def test_each_clip_is_of_one_event_whose_clips_follow_one_another(words):
    spans = [
        events.Span(
            part, id_, 100 * part + start, 100 * part + start + more, tag, start, start + more + 1
        )
        for id_, (part, start, more, tag) in enumerate(words)
    ]
    found = events.grouped(spans)
    assert sorted(span for event in found for span in event) == sorted(spans)
    for event in found:
        for one, other in zip(event, event[1:]):
            assert one.end == other.start and one.tag == other.tag
            assert one.part != other.part or other.first != one.last + 1


@CALM
@given(some.lists(some.integers(0, 2**63 - 1), max_size=20), some.integers(1, 10**6))
def test_film_times_rise_by_a_millisecond_at_least(moments, period):
    found, is_exact = films.film_times(np.array(moments, np.int64), period)
    assert (
        len(found) == len(moments)
        and (np.diff(found) >= 1000).all()
        and (found % 1000 == 0).all()
        or period >= 1000
    )
    assert (np.diff(found) >= 1000).all() and (not len(found) or found[0] == 0)
    if is_exact and moments:
        assert np.abs(found - (np.array(moments) - moments[0])).max() <= 500


@CALM
@given(some.integers(0, 2**63 - 1))
def test_each_time_is_told_and_read_back(moment):
    text = times.utc(moment)
    assert not text or times.moment_in(text, None) == moment
    assert bool(text) == (times.DAYS_BEGIN <= moment < 253402300800_000000)


def test_a_part_of_a_frame_s_bytes_is_that_part(tmp_path):
    """As the page reads: by bytes, from the file and the reading alone."""
    it = layout.Ring(8, 6, b"YM12", 3, 2)
    for _ in range(5):
        it.store()
    opened_ = files.StoreFile(put(tmp_path / "a.loop", it))
    reading = files.read_steadily(opened_, files.Known())
    place = next(it.place for it in reading.segments if it.block == 1)
    assert opened_.part(reading.geometry, place, 3, 2, 4) == bytes([5, 6, 7, 8])
    with pytest.raises(lapyrei.Gone):
        opened_.part(reading.geometry, place, 1, 0, 4)
    assert struct.unpack("<Q", opened_.read_at(layout.FRONT + 8, 8)) == (0,)
