"""What is written and locked by the C library: each call, each refusal by its name, and what stays
of it. LAPYREI names the library; without it all of these are left out, and said so."""
import datetime
import errno
import fcntl
import os
import random
import resource
import signal
import subprocess
import sys
import tempfile
import threading
import time
from fractions import Fraction
from pathlib import Path

import conftest
import lapyrei
import layout
import numpy as np
import pytest
import stores
from conftest import DAY, FORMATS, bytes_of, is_same, put, ring, until, with_flags
from lapyrei import writing
from lapyrei.store import form_of
from test_stores import is_alike

pytestmark = pytest.mark.usefixtures("library")
SHAPE, PERIOD = (6, 8), 40000
CAPI = conftest.TOP / "c"


def path_in(folder, name="a.loop"):
    """A path in a folder."""
    return str(folder / name)


def small(folder, segments=3, slots=4, form="GREY", shape=SHAPE, **more):
    """A small store."""
    return lapyrei.create(path_in(folder), shape, 25, form, segments=segments, slots=slots, **more)


def times_of(count, start=DAY):
    """So many times, a period apart."""
    return start + PERIOD * np.arange(count)


def pictures(store, count, first=0, bits=8):
    """Pictures of a store, each sample of which is another."""
    form = form_of(store.geometry, bits)
    planes = []
    for place, shape in enumerate(form.planes):
        grow = np.arange(count * shape[0] * shape[1], dtype=np.uint32) + 37 * first + 11 * place
        planes.append((grow % 2**bits).astype(form.dtype).reshape(count, *shape))
    return planes[0] if len(planes) == 1 else lapyrei.Planes(*planes)


def grey(*bytes_):
    """Grey pictures of one byte each."""
    return np.array(bytes_, np.uint8)[:, None, None] * np.ones((1, *SHAPE), np.uint8)


def filled(folder, count, start=DAY, **more):
    """A small store of so many frames, each of the byte of its number."""
    store = small(folder, **more)
    store.append(grey(*range(count)), times_of(count, start))
    return store


def child(program, *words, **more):
    """Runs a program of Python that has the module."""
    text = f"import sys\nsys.path[1:1] = {conftest.sys.path!r}\nimport lapyrei\n" + program
    words = [sys.executable, "-B", "-c", text, *map(str, words)]
    return subprocess.run(words, capture_output=True, text=True, **more)


def image_of(store):
    """What the layout's own reader says of a store's file."""
    return layout.read(Path(store.parts[0].path).read_bytes())


# ------------------------------------------------------------------------------- calls


@pytest.mark.parametrize("form", [it.decode() for it in FORMATS])
@pytest.mark.parametrize("shape", [(6, 8), (5, 3), (1, 1)])
def test_what_is_written_is_listed_and_exported_to_the_same_bytes(tmp_path, loop_cli, form, shape):
    with small(tmp_path, form=form, shape=shape) as store:
        assert store.format == form and store.shape == (0, *shape) and len(store) == 0
        first = pictures(store, 7)
        assert store.append(first, times_of(7)).tolist() == list(range(7))
        one = store[3]
        planes = one if form == "GREY" else list(one)
        assert store.append(planes, DAY + 10**6).tolist() == [7]
        store.lock(5, 6, tag=2**64 - 1)
        assert store.append([one, one], [DAY + 2 * 10**6, DAY + 3 * 10**6]).tolist() == [8, 9]
        store.append(pictures(store, 5, 9), times_of(5, DAY + 4 * 10**6))
        is_same(store, image_of(store))
        seen = [bytes_of(it) for it in store]
    read = is_alike(loop_cli, path_in(tmp_path))
    assert [bytes_of(it) for it in read] == seen
    assert bytes_of(read[read.index(6)]) == bytes_of(
        first[6] if form == "GREY" else tuple(it[6] for it in first)
    )


def test_each_reading_call_sees_what_was_written_at_once(tmp_path):
    with small(tmp_path) as store:
        store.append(grey(1), DAY)
        assert len(store) == 1 and store[-1][0, 0] == 1 and store.times.tolist() == [DAY]
        store.append(grey(2, 3), [DAY + 1, DAY + 2])
        assert store.numbers.tolist() == [0, 1, 2] and [it[0, 0] for it in store] == [1, 2, 3]
        assert store.parts[0].next == 3 and store.runs == [[(0, 2)]] and store.room == 1
        clip = store.lock(1, 2, tag=5)
        assert (clip.id, clip.tag, len(clip)) == (0, 5, 2) and [it.tag for it in store.clips] == [5]
        assert store.events[0].tag == 5 and store.event(0).numbers.tolist() == [1, 2]
        assert store.index(2) == 2 and store.between(DAY + 1, DAY + 1).numbers.tolist() == [1]
        assert not store.refresh() and store.array().shape == (3, *SHAPE)
        store.unlock(clip)
        assert store.clips == [] and clip[0][0, 0] == 2


def test_times_numbers_counts_bits_and_marks_are_read_back(tmp_path):
    with small(tmp_path, slots=8) as store:
        store.append(grey(1, 2), times_of(2), sequences=[7, 2**32 - 1], late=[False, True])
        store.append(grey(3), DAY + 10**6, late=True)
        store.append(grey(4), DAY + 2 * 10**6, sequences=3)
        store.append_raw(np.zeros(48, np.uint8), DAY + 3 * 10**6, flags=0x2000)
    read = lapyrei.open(path_in(tmp_path))
    assert read.sequences.tolist() == [7, 2**32 - 1, 0, 3, 4]
    assert read.late.tolist() == [False, True, True, False, False]
    assert read.times.tolist() == [DAY, DAY + PERIOD, *(DAY + it * 10**6 for it in (1, 2, 3))]
    assert read.flags[-1] == 0x2000 and set(read.bits.tolist()) == {8}


@pytest.mark.parametrize("bits", [9, 10, 12, 16])
@pytest.mark.parametrize("form", ["GREY", "YM12", "YM24"])
def test_deep_samples_are_stored_in_the_low_bits(tmp_path, form, bits):
    with small(tmp_path, form=form, bits=bits) as store:
        assert store.dtype == np.uint16 and store.shape[1:] == SHAPE and store.geometry.width == 16
        whole = pictures(store, 3, bits=bits)
        store.append(whole, times_of(3))
        first = whole[0] if form == "GREY" else [it[0] for it in whole]
        # Also where they come in the other order of bytes.
        other = first.astype(">u2") if form == "GREY" else tuple(it.astype(">u2") for it in first)
        store.append(other, DAY + 10**6)
        is_same(store, image_of(store))
    with lapyrei.open(path_in(tmp_path), "r+") as store:
        assert store.bits.tolist() == [bits] * 4 and bytes_of(store[3]) == bytes_of(store[0])
        # As the newest frame has them.
        store.append(store[0], DAY + 2 * 10**6)
        assert store.bits.tolist() == [bits] * 5
        if bits > 9:
            planes = [np.full(it, 2**bits - 1, np.uint16) for it in store.form.planes]
            most = f"a sample is {2**bits - 1}, and {bits - 1} bits hold {2**(bits - 1) - 1} at"
            with pytest.raises(ValueError, match=most):
                store.append(planes[0] if form == "GREY" else tuple(planes), bits=bits - 1)
    one = first if form == "GREY" else tuple(first)
    assert bytes_of(lapyrei.open(path_in(tmp_path))[0]) == bytes_of(one)


def test_samples_of_two_bytes_say_their_bits(tmp_path):
    with small(tmp_path, shape=(6, 16)) as store:
        with pytest.raises(lapyrei.UnknownDepth, match="say how many bits"):
            store.append(np.zeros((6, 8), np.uint16))
        for bits in (7, 17, 0):
            with pytest.raises(lapyrei.UnknownDepth, match="9 to 16"):
                store.append(np.zeros((6, 8), np.uint16), bits=bits)
        with pytest.raises(ValueError, match="a sample is 4096, and 12 bits hold 4095 at most"):
            store.append(np.full((6, 8), 4096, np.uint16), bits=12)
        assert len(store) == 0
        store.append(np.full((6, 8), 4095, np.uint16), bits=12)
        assert store.bits.tolist() == [12] and store[0].max() == 4095


def test_a_group_is_stored_in_commits_that_end_with_their_blocks(tmp_path):
    with small(tmp_path, segments=4, slots=100) as store:
        seen = []
        append = store._handle.append
        store._handle.append = lambda *words: seen.append(words[2]) or append(*words)
        assert store.room == 64
        assert store.append(grey(*[1] * 230), times_of(230)).tolist() == list(range(230))
        assert seen == [64, 36, 64, 36, 30] and store.room == 64
        store.append(grey(*[1] * 60), times_of(60, DAY + 10**8))
        assert store.room == 10 and (np.diff(store.times) > 0).all()


def test_grey_in_one_piece_isnt_copied(tmp_path):
    stack = np.zeros((4, *SHAPE), np.uint8)
    form = form_of(layout.geometry_of(8, 6, b"GREY", 25, 1, 3, 4), 8)
    stacks = writing.stacks_of(stack, form)
    assert np.shares_memory(writing.bytes_of(stacks, 1, 3), stack)
    raw = np.zeros((4, 48), np.uint8)
    assert np.shares_memory(writing.bytes_of([raw], 0, 4), raw)
    with small(tmp_path) as store:
        wide = np.arange(2 * 6 * 16, dtype=np.uint8).reshape(2, 6, 16)
        store.append(wide[:, ::-1, ::2], times_of(2))
        assert (store[1] == wide[1, ::-1, ::2]).all()


def test_frames_of_another_store_keep_their_times_counts_and_bits(tmp_path):
    deep = lapyrei.open(put(tmp_path / "b.loop", with_flags(*deep_ring())))
    clip = deep.clips[0]
    with small(tmp_path, shape=(6, 8), bits=12) as store:
        assert len(store.append(clip)) == len(clip)
        for name in ("times", "sequences", "flags", "bits"):
            assert (getattr(store, name) == getattr(clip, name)).all()
        assert (store.array() == clip.array()).all()
        with pytest.raises(lapyrei.BadTime):
            store.append(clip)
    with small(tmp_path, overwrite=True) as store:
        with pytest.raises(lapyrei.WrongSize, match="8x6 GREY, and these are 16x6 GREY"):
            store.append(clip)


def test_frames_that_go_while_they_are_copied_are_told(tmp_path):
    with filled(tmp_path, 12) as store:
        turned = store[[*range(4, 12), *range(4)]]
        with pytest.raises(lapyrei.Gone) as gone:
            # The first block goes for the copy of the second.
            store.append(turned, times_of(12, 2 * DAY))
        assert list(gone.value.stored) == list(range(12, 20))
        assert store.numbers.tolist() == list(range(8, 20)) and store[-1][0, 0] == 11


def test_appends_that_nothing_reads_between_dont_read_the_store(tmp_path, monkeypatch):
    with filled(tmp_path, 1) as store:
        seen = []
        read_again = lapyrei.store.Part.read_again
        note = lambda part: seen.append(part) or read_again(part)  # noqa: E731
        monkeypatch.setattr(lapyrei.store.Part, "read_again", note)
        for place in range(1, 5):
            store.append(grey(place), DAY + place * PERIOD)
            store.append(grey(place), np.array([DAY + place * PERIOD + 1]))
        assert not seen and len(store) == 9 and len(store) == 9 and len(seen) == 1


def deep_ring():
    """An image of frames of 12 bits, with a clip, its geometry and their flags."""
    it = ring(9, size=(16, 6))
    it.lock(4, 7, 3)
    return it.image, it.geometry, 12 << layout.BITS_AT


def test_an_old_store_gets_tags_by_an_upgrade(tmp_path):
    with small(tmp_path, version=1) as store:
        assert store.parts[0].version == 1
        store.append(grey(1, 2), times_of(2))
        with pytest.raises(lapyrei.OldLayout) as refused:
            store.lock(0, 1, tag=3)
        assert refused.value.number == 21
        assert store.lock(0, 1).tag == 0
        assert store.upgrade() is True and store.upgrade() is False
        assert store.parts[0].version == 2 and store.lock(1, 1, tag=3).tag == 3
    assert lapyrei.open(path_in(tmp_path)).parts[0].version == 2


def test_the_frames_of_a_time_are_locked_as_runs(tmp_path):
    with filled(tmp_path, 4) as store:
        store.lock(2, 2, tag=9)
        for place in range(4, 16):
            store.append(grey(place), DAY + place * PERIOD)
        assert store.runs == [[(0, 3), (8, 15)]]
        clips = store.lock_between(DAY + 3 * PERIOD, DAY + 9 * PERIOD, tag=4)
        assert [(it.first, it.last, it.tag) for it in clips] == [(3, 3, 4), (8, 9, 4)]
        when = datetime.datetime.fromtimestamp((DAY + 15 * PERIOD) / 1e6, datetime.timezone.utc)
        assert store.lock_between(store.when[-1], when)[0].numbers.tolist() == [15]
        for span in ((DAY + 4 * PERIOD, DAY + 7 * PERIOD), (DAY + 9 * PERIOD, DAY), (0, 1)):
            with pytest.raises(lapyrei.ClipEmpty, match="no frame is held of that time"):
                store.lock_between(*span)
        before = [it.id for it in store.clips]
        with pytest.raises(lapyrei.BadTime):
            store.lock_between("yesterday", DAY)
        assert [it.id for it in store.clips] == before


def test_of_the_runs_of_a_time_all_are_locked_or_none(tmp_path):
    with filled(tmp_path, 4) as store:
        store.lock(2, 2)
        for place in range(4, 16):
            store.append(grey(place), DAY + place * PERIOD)
        for _ in range(62):
            store.lock(8, 8)
        with pytest.raises(lapyrei.ClipTableFull):
            store.lock_between(0, 2 * DAY)
        assert len(store.clips) == 63


# ------------------------------------------------------------------------------- times


def test_times_rise(tmp_path):
    with filled(tmp_path, 3) as store:
        newest = int(store.times[-1])
        bad = [
            (grey(1), newest), (grey(1), newest - 1), (grey(1, 2), [newest + 2, newest + 2]),
            (grey(1, 2, 3), [newest + 1, newest + 3, newest + 2]), (grey(1, 2), None),
            (grey(1, 2), [newest + 1]), (grey(1), [newest + 1, newest + 2]), (grey(1), -1),
            (grey(1), 2**64), (grey(1), 1.5), (grey(1), "noon"), (grey(1), True),
            (grey(1, 2), np.array([1e15, 2e15])),
        ]
        for frames, times in bad:
            with pytest.raises(lapyrei.BadTime):
                store.append(frames, times)
        assert len(store) == 3
        store.append(grey(7), newest + 1)
        store.append(grey(8, 9), store.when[-1:] + np.array([1, 2]))
        store.append(grey(9), "2027-01-01T00:00:00Z")
        assert len(store) == 7 and (np.diff(store.times) > 0).all()


def test_one_picture_without_a_time_is_of_now(tmp_path):
    with small(tmp_path) as store:
        before = time.time_ns() // 1000
        store.append(grey(1))
        assert before <= store.times[0] <= time.time_ns() // 1000
        # Where the clock was set back.
        ahead = before + 10**12
        store.append(grey(1), ahead)
        store.append(grey(1))
        assert store.times[-1] == ahead + 1


# ------------------------------------------------------------------------------- refusals


@pytest.mark.parametrize(
    "frames, fault, says",
    [
        (np.zeros((6, 7), np.uint8), lapyrei.WrongSize, r"have the shape \(6, 8\).*have \(6, 7\)"),
        (np.zeros(48, np.uint8), lapyrei.WrongSize, "shape"),
        (np.zeros((1, 1, 6, 8), np.uint8), lapyrei.WrongSize, "shape"),
        (np.zeros((0, 6, 8), np.uint8), lapyrei.WrongSize, "there is no frame"),
        ([], lapyrei.WrongSize, "shape"),
        (7, lapyrei.WrongSize, "shape"),
        (np.zeros((6, 8)), TypeError, "samples are uint8, and these are float64"),
        (np.zeros((6, 8), np.int8), TypeError, "int8"),
        (np.zeros((6, 8), bool), TypeError, "bool"),
        (np.zeros((6, 8), np.uint32), TypeError, "uint32"),
        (np.zeros((6, 8), np.uint16), lapyrei.UnknownDepth, "say how many bits"),
    ],
)
def test_arrays_that_arent_its_pictures_are_refused(tmp_path, frames, fault, says):
    with filled(tmp_path, 2) as store:
        before = image_of(store)
        with pytest.raises(fault, match=says):
            store.append(frames)
        assert image_of(store) == before and store.append(grey(3), 2 * DAY).tolist() == [2]


@pytest.mark.parametrize(
    "frames, fault",
    [
        (np.zeros((6, 8), np.uint8), lapyrei.WrongSize),
        ((np.zeros((6, 8), np.uint8),) * 3, lapyrei.WrongSize),
        ((np.zeros((6, 8), np.uint8),) * 2, lapyrei.WrongSize),
        (
            (np.zeros((2, 6, 8), np.uint8), np.zeros((2, 3, 4), np.uint8),
             np.zeros((1, 3, 4), np.uint8)),
            lapyrei.WrongSize,
        ),
        (
            (np.zeros((6, 8), np.uint8), np.zeros((3, 4), np.uint8), np.zeros((3, 4), float)),
            TypeError,
        ),
    ],
)
def test_planes_that_arent_its_pictures_are_refused(tmp_path, frames, fault):
    with small(tmp_path, form="YM12") as store:
        with pytest.raises(fault):
            store.append(frames)
        assert len(store) == 0


def test_raw_bytes_of_another_length_or_type_are_refused(tmp_path):
    with small(tmp_path) as store:
        for array in (np.zeros(47, np.uint8), np.zeros((2, 49), np.uint8), np.uint8(3)):
            with pytest.raises(lapyrei.WrongSize, match="48 bytes each"):
                store.append_raw(array)
        with pytest.raises(TypeError, match="bytes are uint8"):
            store.append_raw(np.zeros(48, np.int8))
        for more in ({"flags": 2**32}, {"sequences": -1}):
            with pytest.raises(ValueError, match="0 to 2"):
                store.append_raw(np.zeros(48, np.uint8), DAY, **more)
        with pytest.raises(TypeError, match="whole numbers"):
            store.append_raw(np.zeros(48, np.uint8), DAY, flags=1.5)
        with pytest.raises(lapyrei.WrongSize, match="one for each of 1"):
            store.append_raw(np.zeros(48, np.uint8), DAY, sequences=[1, 2])
        assert len(store) == 0


def test_what_cant_be_locked_or_unlocked_is_refused_by_name(tmp_path):
    with filled(tmp_path, 6) as store:
        with pytest.raises(lapyrei.ClipEmpty) as refused:
            store.lock(3, 2)
        assert str(refused.value).endswith("a.loop: refused 9 ClipEmpty: the clip is empty")
        with pytest.raises(lapyrei.ClipNotHeld) as refused:
            store.lock(4, 9)
        assert (refused.value.number, refused.value.detail) == (10, 6)
        assert refused.value.text.startswith("refused 10 ClipNotHeld 6: ")
        for id_ in (0, 63, 64, 2**32 - 1):
            with pytest.raises(lapyrei.NoSuchClip):
                store.unlock(id_)
        for words in ((-1, 2), (0, 2**64), (0, 0, -1)):
            with pytest.raises(ValueError, match="isn't 0 to"):
                store.lock(*words)
        with pytest.raises(TypeError):
            store.lock(0.0, 1)
        for _ in range(64):
            store.lock(0, 0)
        with pytest.raises(lapyrei.ClipTableFull):
            store.lock(0, 0)
        old = store.clips[5]
        store.unlock(5)
        assert store.lock(1, 1).id == 5
        # The id is another clip's by now.
        with pytest.raises(lapyrei.NoSuchClip):
            store.unlock(old)
        assert len(store.clips) == 64


def test_where_all_is_locked_a_group_keeps_what_was_stored_before(tmp_path):
    with filled(tmp_path, 6, segments=2) as store:
        store.lock(0, 5)
        with pytest.raises(lapyrei.AllLocked) as refused:
            store.append(grey(6, 7, 8, 9), times_of(4, 2 * DAY))
        assert refused.value.number == 6 and list(refused.value.stored) == [6, 7]
        assert store.numbers.tolist() == list(range(8)) and store[-1][0, 0] == 7
        with pytest.raises(lapyrei.AllLocked) as refused:
            store.append(grey(8), 3 * DAY)
        assert list(refused.value.stored) == []
        store.unlock(0)
        assert store.append(grey(8), 3 * DAY).tolist() == [8]


def test_newest_blocks_are_kept_and_bad_keeps_refused(tmp_path):
    filled(tmp_path, 12).close()
    for keep in (0, 3, 99):
        with pytest.raises(lapyrei.BadKeep):
            lapyrei.open(path_in(tmp_path), "r+", keep=keep)
    with lapyrei.open(path_in(tmp_path), "r+", keep=2) as store:
        store.lock(0, 0)
        with pytest.raises(lapyrei.AllLocked):
            store.append(grey(1), 2 * DAY)
    with lapyrei.open(path_in(tmp_path), "r+") as store:
        assert store.append(grey(1), 2 * DAY).tolist() == [12]


@pytest.mark.parametrize(
    "more, says",
    [
        ({"shape": (0, 8)}, "0x8"),
        ({"shape": (6, 99999)}, "geometry"),
        ({"segments": 1}, "geometry"),
        ({"segments": 65}, "geometry"),
        ({"slots": 257}, "geometry"),
        ({"slots": None}, "or its minutes"),
        ({"minutes": 1}, "not both"),
        ({"segments": None, "slots": None, "minutes": 0}, "no time in minutes"),
        ({"segments": None, "slots": None, "minutes": 11}, "16129 frames at most, and not 16500"),
        ({"format": "RGB"}, "one of GREY, YM12"),
        ({"bits": 7}, "8 bits, or 9 to 16"),
        ({"bits": 10, "format": "YM12", "shape": (6, 7)}, "even width"),
        ({"version": 3}, "versions 1 and 2"),
        ({"rate": 0}, "0 a second"),
        ({"rate": "fast"}, "a rate is frames a second"),
        ({"rate": float("nan")}, "a rate is frames a second"),
        ({"rate": Fraction(1, 2**33)}, "a second"),
    ],
)
def test_a_bad_geometry_is_refused_and_makes_no_file(tmp_path, more, says):
    words = {"shape": SHAPE, "rate": 25, "segments": 3, "slots": 4, **more}
    with pytest.raises(lapyrei.BadGeometry, match=says):
        lapyrei.create(path_in(tmp_path), **words)
    assert os.listdir(tmp_path) == []


def test_a_file_that_is_there_is_erased_only_where_that_is_said(tmp_path):
    filled(tmp_path, 5).close()
    before = Path(path_in(tmp_path)).read_bytes()
    with pytest.raises(lapyrei.Exists, match="overwrite=True erases it") as refused:
        small(tmp_path)
    assert refused.value.detail == errno.EEXIST and refused.value.number == 107
    assert Path(path_in(tmp_path)).read_bytes() == before
    with small(tmp_path, overwrite=True, slots=2) as store:
        assert len(store) == 0 and store.geometry.slots == 2


def test_a_store_in_use_is_refused_and_can_be_read(tmp_path, loop_cli):
    with filled(tmp_path, 3) as store:
        for make in (
            lambda: lapyrei.open(path_in(tmp_path), "r+"),
            lambda: small(tmp_path, overwrite=True),
        ):
            with pytest.raises(lapyrei.InUse) as refused:
                make()
            assert (refused.value.number, refused.value.name) == (102, "Busy")
        assert loop_cli("record", 1, "-", path_in(tmp_path))[0] == 1
        read = lapyrei.open(path_in(tmp_path))
        assert read.numbers.tolist() == [0, 1, 2]
        store.append(grey(3), 2 * DAY)
        assert read.refresh() and read[-1][0, 0] == 3
    with open(path_in(tmp_path), "rb") as file:
        fcntl.flock(file, fcntl.LOCK_EX)
        with pytest.raises(lapyrei.InUse):
            lapyrei.open(path_in(tmp_path), "r+")
        assert len(lapyrei.open(path_in(tmp_path))) == 4
    lapyrei.open(path_in(tmp_path), "r+").close()


def test_a_recorder_s_store_is_in_use_until_it_ends(tmp_path, loop_cli):
    filled(tmp_path, 3).close()
    run = subprocess.Popen(
        [loop_cli.path, "record", "1000000000", "-", path_in(tmp_path)], stdout=subprocess.DEVNULL
    )
    try:
        read = lapyrei.open(path_in(tmp_path))
        until(lambda: read.refresh() and read.parts[0].next > 9, "frames of the recorder")
        with pytest.raises(lapyrei.InUse):
            lapyrei.open(path_in(tmp_path), "r+")
        assert len(lapyrei.open(path_in(tmp_path))) > 3
    finally:
        run.kill()
        run.wait()
    with lapyrei.open(path_in(tmp_path), "r+") as store:
        assert store.append(grey(1)).tolist() == [store.parts[0].next - 1]


def test_what_cant_be_opened_is_refused_as_a_reader_has_it(tmp_path):
    image = bytes(ring(5).image)
    (tmp_path / "text").write_bytes(b"no store" * 1000)
    spoilt = put(tmp_path / "spoilt", image[:8] + b"\7" + image[9:])
    (tmp_path / "none").write_bytes(b"")
    (tmp_path / "loops").mkdir()
    for name in ("one.loop", "two.loop"):
        put(tmp_path / "loops" / name, image)
    cases = [
        (tmp_path / "there", lapyrei.CannotOpen), (tmp_path / "text", lapyrei.NotFormatted),
        (tmp_path / "none", lapyrei.NotFormatted), (spoilt, lapyrei.Damaged),
        ("/dev/null", lapyrei.CannotOpen), (tmp_path / "text" / "under", lapyrei.CannotOpen),
    ]
    for path, fault in cases:
        with pytest.raises(fault) as written:
            lapyrei.open(path, "r+")
        with pytest.raises(fault) as read:
            lapyrei.open(path)
        assert str(written.value) == str(read.value)
        assert written.value.number == fault.number > 0
    with pytest.raises(lapyrei.Damaged) as refused:
        lapyrei.open(spoilt, "r+")
    assert refused.value.kind == 2
    several = [path_in(tmp_path, "loops/one.loop"), path_in(tmp_path, "loops/two.loop")]
    with pytest.raises(lapyrei.CannotOpen, match="one file is opened, and these are 2"):
        lapyrei.open(several, "r+")
    for path in ("a\0b", "a" * 5000):
        with pytest.raises((lapyrei.BadCall, lapyrei.CannotOpen)):
            lapyrei.open(path, "r+")
    with pytest.raises(lapyrei.CannotOpen):
        lapyrei.create(tmp_path / "there" / "a.loop", SHAPE, 25, segments=3, slots=4)
    with pytest.raises(ValueError, match="lapyrei.create makes a store"):
        lapyrei.open(tmp_path / "text", "w")


@pytest.mark.skipif(os.geteuid() != 0, reason="to be another user it has to be root")
def test_a_file_that_may_only_be_read_is_refused_and_read():
    with tempfile.TemporaryDirectory(dir="/var/tmp") as name:
        folder = Path(name)
        folder.chmod(0o755)
        filled(folder, 3).close()
        os.chmod(path_in(folder), 0o444)
        copied = folder / "liblapyrei.so.1"
        copied.write_bytes(Path(os.environ["LAPYREI_LIBRARY"]).read_bytes())
        code = """
lapyrei.library.library()
import os
os.setresuid(65534, 65534, 65534)
print(len(lapyrei.open(sys.argv[1])))
try:
    lapyrei.open(sys.argv[1], "r+")
except lapyrei.CannotOpen as refused:
    print(refused.number, refused.text)
"""
        done = child("import lapyrei.library, lapyrei.writing\n" + code, path_in(folder))
        assert done.stdout == "3\n101 cannot open: Permission denied\n", done


def test_numbers_that_are_spent_are_refused_by_name(tmp_path):
    it = ring(5, slots=4)
    # The newest block is the last one there is.
    last = layout.NUMBERS_END // 4 - 1
    image = bytearray(it.image)
    for slot in range(4):
        at = it.geometry.slot_at(1, slot)
        number = 4 * last + slot
        image[at : at + layout.HEAD] = layout.head(number, 9 + slot, it.time + 1 + slot, 48)
    at = it.geometry.segment_at(1)
    image[at : at + layout.HEADER] = layout.header(last, 4)
    with lapyrei.open(put(tmp_path / "a.loop", image), "r+") as store:
        assert store.numbers[-1] == layout.NUMBERS_END - 1
        with pytest.raises(lapyrei.NumbersSpent):
            store.append(grey(1), 2 * DAY)


def test_64_stores_may_be_open_at_once(tmp_path):
    opened = []
    try:
        with pytest.raises(lapyrei.TooMany) as refused:
            for place in range(65):
                path = path_in(tmp_path, f"{place}.loop")
                opened.append(lapyrei.create(path, (1, 1), 25, segments=2, slots=1))
        assert len(opened) == 64 and refused.value.number == 106
        assert not os.path.exists(path_in(tmp_path, "64.loop"))
    finally:
        for it in opened:
            it.close()


def test_a_closed_store_refuses_by_name(tmp_path):
    with filled(tmp_path, 3) as store:
        clip = store.lock(0, 1)
    store.close()
    calls = [
        lambda: store.append(grey(1)), lambda: store.lock(0, 0), lambda: store.unlock(0),
        lambda: store.unlock(clip), lambda: store.upgrade(), lambda: store.room,
        lambda: store.lock_between(0, DAY),
    ]
    for call in calls:
        with pytest.raises(lapyrei.BadHandle, match="105 BadHandle: it was closed"):
            call()
    with pytest.raises(lapyrei.CannotOpen, match="it was closed"):
        store.read(0)
    lapyrei.open(path_in(tmp_path), "r+").close()


def test_a_store_that_nobody_holds_any_more_is_free(tmp_path):
    filled(tmp_path, 3)
    lapyrei.open(path_in(tmp_path), "r+").close()


# ------------------------------------------------------------------------------- failing disks


def test_a_full_disk_refuses_the_store_and_leaves_no_file(tmp_path):
    code = """
import resource
resource.setrlimit(resource.RLIMIT_FSIZE, (5000, 5000))
try:
    lapyrei.create(sys.argv[1], (48, 64), 25, segments=3, slots=4)
except lapyrei.CannotMake as refused:
    print(refused.number, refused.detail, refused.text)
"""
    done = child(code, path_in(tmp_path))
    wanted = f"{errno.EFBIG} refused 103 CannotMake: the file can't be made: File too large\n"
    assert done.stdout == f"103 {wanted}", done
    assert os.listdir(tmp_path) == []


def test_a_disk_without_room_refuses_the_store(tmp_path):
    if os.geteuid() or subprocess.run(
        ["mount", "-t", "tmpfs", "-o", "size=1m", "none", tmp_path], capture_output=True
    ).returncode:
        pytest.skip("a small file system can't be mounted here")
    try:
        with pytest.raises(lapyrei.CannotMake) as refused:
            small(tmp_path, segments=8, shape=(640, 480))
        assert refused.value.detail == errno.ENOSPC and os.listdir(tmp_path) == []
        filled(tmp_path, 3).close()
        before = Path(path_in(tmp_path)).read_bytes()
        with pytest.raises(lapyrei.CannotMake):
            small(tmp_path, segments=8, shape=(640, 480), overwrite=True)
        assert Path(path_in(tmp_path)).read_bytes() == before
    finally:
        subprocess.run(["umount", tmp_path], check=True)


def test_after_a_failing_disk_a_store_is_opened_again(tmp_path):
    code = """
import os, resource, numpy as np
store = lapyrei.open(sys.argv[1], "r+")
hard = resource.getrlimit(resource.RLIMIT_FSIZE)[1]
picture = np.full((6, 8), 9, np.uint8)
resource.setrlimit(resource.RLIMIT_FSIZE, (2600, hard))
for call in (*[lambda: store.append(picture)] * 2, lambda: store.lock(0, 0)):
    try:
        call()
    except lapyrei.NotDone as refused:
        print(refused.text)
resource.setrlimit(resource.RLIMIT_FSIZE, (hard, hard))
print(len(store), store[0][0, 0])
store.close()
with lapyrei.open(sys.argv[1], "r+") as store:
    print(store.append(picture).tolist())
"""
    filled(tmp_path, 3).close()
    done = child(code, path_in(tmp_path))
    assert done.stdout.splitlines() == [
        "refused 2 Disk: the disk failed: a write",
        *["refused 3 MustReopen: the store has to be closed and opened again"] * 2,
        "3 0",
        "[3]",
    ], done


def test_a_file_that_is_cut_is_a_refusal_and_no_signal(tmp_path):
    store = filled(tmp_path, 3)
    os.truncate(path_in(tmp_path), 3000)
    with pytest.raises(lapyrei.DiskFault, match="the file has another length") as refused:
        store.append(grey(1))
    assert refused.value.detail == 4
    store.close()
    with pytest.raises(lapyrei.Damaged):
        lapyrei.open(path_in(tmp_path), "r+")


# ------------------------------------------------------------------------------- forks and threads


def test_a_forked_process_cant_write_and_may_read(tmp_path):
    code = """
import os, threading, numpy as np
store = lapyrei.open(sys.argv[1], "r+")
picture = np.full((6, 8), 9, np.uint8)
held, go = threading.Event(), threading.Event()
def holds():
    with store._alone():
        held.set()
        go.wait()
other = threading.Thread(target=holds)
other.start()
held.wait()
child = os.fork()
if not child:
    # Another thread had the lock of the object.
    for call in (lambda: store.append(picture), lambda: store.lock(0, 0), lambda: store.room):
        try:
            call()
        except lapyrei.BadHandle as refused:
            print(refused.text, flush=True)
    print(len(store), store[1][0, 0], flush=True)
    store.close()
    os._exit(0)
os.waitpid(child, 0)
go.set()
other.join()
print(store.append(picture).tolist())
"""
    filled(tmp_path, 3).close()
    done = child(code, path_in(tmp_path), timeout=conftest.LIMIT)
    says = "refused 105 BadHandle: it is of the process that this one was forked from"
    assert done.stdout.splitlines() == [says] * 3 + ["3 1", "[3]"], done


def test_threads_append_lock_and_read_side_by_side(tmp_path):
    faults, numbers = [], []
    with lapyrei.create(path_in(tmp_path), (24, 32), 25, segments=8, slots=16) as store:
        store.append(np.zeros((24, 32), np.uint8))

        def writes(place):
            try:
                for count in range(20):
                    found = store.append(np.full((24, 32), place, np.uint8))
                    numbers.append((int(found[0]), place))
                    if count % 10 == 5:
                        store.unlock(store.lock(found[0], found[0], tag=place))
            except Exception as fault:
                faults.append(fault)

        def reads():
            try:
                while any(it.is_alive() for it in writers):
                    picture, frames = store[-1], store[-3:]
                    assert len(np.unique(picture)) == 1
                    assert all(len(np.unique(it)) == 1 for it in frames)
            except Exception as fault:
                faults.append(fault)

        writers = [threading.Thread(target=writes, args=(place,)) for place in range(1, 4)]
        readers = [threading.Thread(target=reads) for _ in range(2)]
        for it in [*writers, *readers]:
            it.start()
        for it in [*writers, *readers]:
            it.join(conftest.LIMIT)
        assert not faults and len(numbers) == 60 == len(dict(numbers))
        assert {int(store[store.index(n)][0, 0]) == place for n, place in numbers} == {True}
        assert (np.diff(store.times) > 0).all()


# ------------------------------------------------------------------------------- kills

WRITER = """
import numpy as np
store = lapyrei.open(sys.argv[1], "r+")
picture = np.zeros((48, 64), np.uint8)
print("ready", flush=True)
count = 0
while True:
    group = np.arange(count, count + 1 + count % 5).astype(np.uint8)
    frames = group[:, None, None] * np.ones((1, 48, 64), np.uint8)
    newest = int(store.parts[0].next) * 1000
    moments = [newest + 1000 * it for it in range(len(group))]
    numbers = store.append(frames, moments, sequences=group)
    print("append", *numbers.tolist(), flush=True)
    count += len(group)
    if count % 4 == 3:
        clip = store.lock(numbers[0], numbers[-1], tag=count)
        print("lock", clip.id, clip.first, clip.last, clip.tag, flush=True)
        if len(store.clips) > 3:
            clip = store.clips[count % 3]
            store.unlock(clip)
            print("unlock", clip.id, clip.first, clip.last, clip.tag, flush=True)
"""


def test_what_was_answered_is_there_after_a_kill(tmp_path, loop_cli):
    chance, path = random.Random(3), path_in(tmp_path)
    lapyrei.create(path, (48, 64), 25, segments=12, slots=8).close()
    text = f"import sys\nsys.path[1:1] = {conftest.sys.path!r}\nimport lapyrei\n" + WRITER
    answered, clips = 0, set()
    for _ in range(4):
        words = [sys.executable, "-B", "-c", text, path]
        with subprocess.Popen(words, stdout=subprocess.PIPE, text=True) as run:
            assert run.stdout.readline() == "ready\n"
            lines = [run.stdout.readline() for _ in range(chance.randint(5, 30))]
            time.sleep(chance.random() / 200)
            run.send_signal(signal.SIGKILL)
            lines += run.stdout.readlines()
        # A line that was cut was written after its call was answered.
        lines = [it.split() for it in lines if it.endswith("\n")]
        stored = [int(n) for it in lines if it[0] == "append" for n in it[1:]]
        store = is_alike(loop_cli, path)
        at = {int(n): place for place, n in enumerate(store.numbers)}
        # The ring may have let the oldest go.
        assert set(stored[-60:]) <= set(at), (stored, sorted(at))
        for number in stored[-60:]:
            picture = store[at[number]]
            assert (picture == store.sequences[at[number]] % 256).all()
        for name, *words in lines:
            if name != "append":
                clips ^= {tuple(map(int, words))}
        found = {(it.id, it.first, it.last, it.tag) for it in store.clips}
        # One more call may have been made, whose line was not written.
        assert len(clips ^ found) <= 1
        clips, answered = found, answered + len(stored)
    assert answered > 30


# ------------------------------------------------------------------------------- a plain model


class Model(stores.Plain):
    """The plain recorder, and what it refuses."""

    def append(self, bytes_):
        """Stores frames of these bytes, one after the other; answers how many were, and why not."""
        for count, byte in enumerate(bytes_):
            slots, segments = self.geometry.slots, self.geometry.segments
            blocks = {number // slots for number in self.frames}
            if not self.next % slots and len(blocks) == segments and self.victim() is None:
                return count, lapyrei.AllLocked
            self.store(byte)
        return len(bytes_), None

    def may_lock(self, first, last, tag):
        """Why a lock is refused, or nothing."""
        if first > last:
            return lapyrei.ClipEmpty
        if any(number not in self.frames for number in range(first, last + 1)):
            return lapyrei.ClipNotHeld
        if len(self.clips) == layout.CLIPS:
            return lapyrei.ClipTableFull
        return lapyrei.OldLayout if tag and self.version == 1 else None


def expects(fault, call):
    """Makes a call, which is refused so, or isn't refused; answers what it answers or raises."""
    if fault is None:
        return call()
    with pytest.raises(fault) as refused:
        call()
    assert refused.type is fault
    return refused.value


def try_call(chance, store, model, moment):
    """One random call on a store and on the model; answers the store, which may be opened anew."""
    kind, near = chance.random(), max(0, model.next - chance.randrange(12))
    if kind < 0.5:
        bytes_ = [chance.randrange(256) for _ in range(chance.choice([1, 1, 1, 2, 5, 9]))]
        count, fault = model.append(bytes_)
        found = expects(fault, lambda: store.append(grey(*bytes_), moment + np.arange(len(bytes_))))
        numbers = list(found.stored if fault else found)
        assert numbers == list(range(model.next - count, model.next))
    elif kind < 0.7:
        last = near + chance.randrange(-1, 4)
        tag = chance.choice([0, 0, 7, 2**64 - 1])
        if last >= 0:
            fault = model.may_lock(near, last, tag)
            found = expects(fault, lambda: store.lock(near, last, tag))
            if not fault:
                model.lock(near, last, tag)
                assert found.id in [it[0] for it in model.clips] and found.last == last
    elif kind < 0.85:
        clip = chance.randrange(5)
        is_there = clip in [it[0] for it in model.clips]
        expects(None if is_there else lapyrei.NoSuchClip, lambda: store.unlock(clip))
        model.unlock(clip)
    elif kind < 0.92:
        assert store.upgrade() is (model.version == 1)
        model.upgrade()
    else:
        store.close()
        store = lapyrei.open(store.parts[0].path, "r+")
    return store


@pytest.mark.parametrize("seed", range(8))
def test_random_calls_are_those_of_a_plain_recorder(tmp_path, seed):
    chance = random.Random(seed)
    segments, slots = chance.randint(2, 5), chance.randint(1, 5)
    version = chance.choice([1, 2])
    store = small(tmp_path, segments=segments, slots=slots, version=version)
    model = Model(store.geometry, version=version)
    try:
        for place in range(60):
            store = try_call(chance, store, model, DAY + 100 * place)
            found, wanted = image_of(store), model.reads_as()
            assert found == wanted, (layout.listed(found), layout.listed(wanted))
            if place % 7 == 0:
                is_same(store, wanted)
        is_same(store, model.reads_as())
    finally:
        store.close()


# ------------------------------------------------------------------------------- making


@pytest.mark.parametrize(
    "size, slots",
    [(1, (256, 128)), (16384, (256, 128)), (16385, (128,)), (65536, (128,)), (65537, ())],
)
def test_minutes_say_the_least_ring_that_always_holds_them(size, slots):
    def held(ring):
        return (ring[0] - 1) * ring[1] + 1

    edges = [held((15, it)) + more for it in (128, 256) for more in (0, 1)]
    for frames in [*range(0, 4200, 7), *range(4030, 4040), 9999, 16128, 16129, *edges]:
        # Small frames have more slots where 15 segments of these aren't enough.
        usual = next((it for it in slots if held((15, it)) < frames), 64)
        rings = [(segments, usual) for segments in range(2, 65)]
        rings += [(64, more) for more in range(usual + 1, 257)]
        assert writing.ring_for(frames, size) == next(it for it in rings if held(it) >= frames)
    with pytest.raises(lapyrei.BadGeometry):
        writing.ring_for(16130, size)


@pytest.mark.parametrize(
    "shape, form, bits, wanted",
    [
        ((1, 4), "GREY", 8, (16, 256)),
        ((4, 4096), "GREY", 8, (16, 256)),
        ((5, 3277), "GREY", 8, (30, 128)),
        ((1, 8193), "GREY", 12, (30, 128)),
        ((2, 5460), "YM12", 8, (16, 256)),
        ((2, 5462), "YM12", 8, (30, 128)),
    ],
)
def test_minutes_of_small_frames_have_more_slots(shape, form, bits, wanted):
    # A second: one frame more than 15 segments of 256 slots hold.
    made = writing.shape_of(shape, Fraction(3586), form, bits, 2)
    assert writing.ring_of(made, None, None, 0.016) == wanted


def test_a_store_of_minutes_always_holds_them(tmp_path):
    with lapyrei.create(path_in(tmp_path), (1, 1), 65, minutes=0.02) as store:
        # 2 seconds, as the station rounds them: 130 frames.
        assert (store.geometry.segments, store.geometry.slots) == (4, 64)
        store.append(np.zeros((400, 1, 1), np.uint8), times_of(400))
        for place in range(70):
            assert len(store) >= 130
            store.append(np.zeros((1, 1), np.uint8), 2 * DAY + place)


@pytest.mark.parametrize(
    "rate, wanted",
    [(25, (25, 1)), (29.97, (2997, 100)), ("30000:1001", (30000, 1001)), ("12.5", (25, 2)),
     (Fraction(30000, 1001), (30000, 1001)), (np.int64(60), (60, 1)), (0.5, (1, 2))],
)
def test_a_rate_may_be_said_in_many_ways(tmp_path, rate, wanted):
    with lapyrei.create(path_in(tmp_path), SHAPE, rate, segments=2, slots=1) as store:
        assert (store.geometry.num, store.geometry.den) == wanted
        assert store.rate == Fraction(*wanted)


# ------------------------------------------------------------------------------- the library

STRUCTS = {
    "lapyrei_shape": ("Shape", {}),
    "lapyrei_head": ("Head", {}),
    "lapyrei_run": ("Run", {"first": "from", "last": "to"}),
}


def asked_of_c(tmp_path, lines):
    """What a program of C prints, with lapyrei.h."""
    body = "\n    ".join(lines)
    front = "#include <lapyrei.h>\n#include <stdio.h>\n"
    (tmp_path / "ask.c").write_text(f"{front}int main(void) {{\n    {body}\n    return 0;\n}}\n")
    words = ["cc", "-Werror", f"-I{CAPI}", "-o", tmp_path / "ask", tmp_path / "ask.c"]
    subprocess.run(words, check=True)
    return subprocess.run([tmp_path / "ask"], check=True, capture_output=True, text=True).stdout


def test_the_structs_are_those_of_the_header(tmp_path):
    lines, wanted = [], []
    for name, (own, other) in STRUCTS.items():
        struct = getattr(lapyrei.library, own)
        lines.append(f'printf("{name} %zu\\n", sizeof({name}));')
        wanted.append(f"{name} {conftest.lapyrei.library.ctypes.sizeof(struct)}")
        for field, _ in struct._fields_:
            c = other.get(field, field)
            member = f"(({name} *)0)->{c}"
            lines.append(f'printf("{c} %zu %zu\\n", offsetof({name}, {c}), sizeof({member}));')
            place = getattr(struct, field)
            wanted.append(f"{c} {place.offset} {place.size}")
    for field, (kind, at) in writing.HEADS.fields.items():
        lines.append(f'printf("%zu\\n", offsetof(lapyrei_head, {field}));')
        wanted.append(f"{at}")
        assert kind.itemsize == getattr(lapyrei.library.Head, field).size
    lines.append('printf("%zu %u\\n", sizeof(lapyrei_head), LAPYREI_ABI);')
    wanted.append(f"{writing.HEADS.itemsize} {lapyrei.library.ABI}")
    for place, name in enumerate(lapyrei.library.FORMATS):
        lines.append(f'printf("{name} %d\\n", LAPYREI_{name});')
        wanted.append(f"{name} {place}")
    lines.append('printf("%d\\n", LAPYREI_NONE == UINT64_MAX);')
    assert asked_of_c(tmp_path, lines).splitlines() == [*wanted, "1"]


def test_each_refusal_of_the_header_has_a_class_of_its_name_and_words():
    made = lapyrei.library.library()
    text = (CAPI / "lapyrei.h").read_text()
    body = text[text.index("enum lapyrei_refusal") : text.index("typedef struct")]
    numbers = [int(line.split("=")[1].split(",")[0].split("/")[0].split("}")[0])
               for line in body.splitlines() if "=" in line]
    # What reads by the library alone isn't asked from here.
    others = {0: "Ok", 4: "NotFormatted", 5: "Damaged", 13: "NotHeld", 101: "CannotOpen"}
    others |= {109: "Gone", 110: "ReadOnly", 111: "Unsettled", 112: "TimedOut"}
    assert set(numbers) - set(others) == set(lapyrei.library.CLASSES)
    for number, kind in lapyrei.library.CLASSES.items():
        assert made.lapyrei_name(number).decode() == kind.name
        assert made.lapyrei_text(number).decode() == kind.sentence
        assert type(lapyrei.library.refused(number, 3, "a.loop")) is kind
    for number, name in others.items():
        assert made.lapyrei_name(number).decode() == name
    unknown = lapyrei.library.refused(13, 0, "a.loop")
    assert type(unknown) is lapyrei.NotDone and "13" in str(unknown)


def test_without_the_library_a_store_is_read_and_the_package_named(tmp_path):
    code = """
import numpy
print(len(lapyrei.open(sys.argv[1])))
for call in (lambda: lapyrei.open(sys.argv[1], "r+"),
             lambda: lapyrei.create(sys.argv[1] + "2", (6, 8), 25, segments=2, slots=1)):
    try:
        call()
    except lapyrei.MissingPackage as missing:
        print(type(missing).__name__, missing.package, "liblapyrei.so.1" in str(missing))
"""
    filled(tmp_path, 3).close()
    env = dict(os.environ, LAPYREI_LIBRARY=path_in(tmp_path, "none.so"))
    done = child(code, path_in(tmp_path), env=env)
    assert done.stdout == "3\n" + "NoLibrary lapyrei True\n" * 2, done
    assert os.listdir(tmp_path) == ["a.loop"]


def test_a_library_of_another_version_is_refused(tmp_path):
    (tmp_path / "other.c").write_text("unsigned lapyrei_abi(void) { return 1; }\n")
    words = ["cc", "-shared", "-o", tmp_path / "other.so", tmp_path / "other.c"]
    subprocess.run(words, check=True)
    code = """
try:
    lapyrei.open(sys.argv[1], "r+")
except lapyrei.NoLibrary as missing:
    print(missing)
"""
    env = dict(os.environ, LAPYREI_LIBRARY=path_in(tmp_path, "other.so"))
    done = child(code, path_in(tmp_path), env=env)
    assert "other.so is of another version (1)" in done.stdout, done


def test_the_library_is_found_beside_an_installed_module(tmp_path, monkeypatch):
    place = tmp_path / "usr/lib/python3/dist-packages/lapyrei"
    place.mkdir(parents=True)
    monkeypatch.delenv("LAPYREI_LIBRARY")
    monkeypatch.setattr(lapyrei.library, "__file__", str(place / "library.py"))
    assert lapyrei.library.places() == ["liblapyrei.so.1"]
    (tmp_path / "usr/lib/liblapyrei.so.1").write_bytes(b"")
    assert lapyrei.library.places() == [
        str(tmp_path / "usr/lib/liblapyrei.so.1"), "liblapyrei.so.1"
    ]


def test_where_there_is_no_memory_that_is_refused(tmp_path):
    code = """
import resource
lapyrei.library.library()
store = lapyrei.open(sys.argv[1])
with open("/proc/self/statm") as file:
    used = int(file.read().split()[0]) * 4096
resource.setrlimit(resource.RLIMIT_AS, (used + 200_000, used + 200_000))
try:
    lapyrei.open(sys.argv[1], "r+")
except lapyrei.NoMemory as refused:
    print(refused.number)
"""
    lapyrei.create(path_in(tmp_path), (600, 800), 25, segments=3, slots=4).close()
    done = child("import lapyrei.library, lapyrei.writing\n" + code, path_in(tmp_path))
    assert done.stdout == "1\n", done


def test_the_limits_of_a_process_are_those_that_it_had():
    """Nothing here has changed them for the tests that follow."""
    assert resource.getrlimit(resource.RLIMIT_FSIZE)[0] == resource.RLIM_INFINITY


# ------------------------------------------------------------------------------- a file that goes


@pytest.mark.parametrize("how", ["removed", "renamed", "replaced"])
def test_a_store_whose_file_went_is_told_so(tmp_path, how):
    """What would be stored nobody would find."""
    path = tmp_path / "a.loop"
    with lapyrei.create(path, SHAPE, 25, segments=3, slots=4) as store:
        store.append(np.zeros(SHAPE, np.uint8), 1)
        if how == "removed":
            path.unlink()
        else:
            path.rename(tmp_path / "b.loop")
        if how == "replaced":
            lapyrei.create(path, SHAPE, 25, segments=3, slots=4).close()
        for call in (
            lambda: store.append(np.zeros(SHAPE, np.uint8), 2),
            lambda: store.lock(0, 0),
            store.upgrade,
        ):
            with pytest.raises(lapyrei.Moved, match="a.loop: refused 108 Moved: .* removed") as it:
                call()
            assert it.value.number == 108


def test_a_file_that_comes_before_it_is_made_is_not_erased(tmp_path, monkeypatch):
    """Another program has made a store there between this one's look and its call."""
    from lapyrei import writing

    path, real = tmp_path / "a.loop", writing.take

    def take(name):
        made = real(name)
        lapyrei.library.formatted(name, SHAPED, True).close()
        return made

    SHAPED = writing.shape_of(SHAPE, writing.fraction_of(25), "GREY", 8, 2)
    SHAPED.segments, SHAPED.slots = 2, 3
    monkeypatch.setattr(writing, "take", take)
    with pytest.raises(lapyrei.Exists):
        lapyrei.create(path, SHAPE, 25, segments=4, slots=4)
    assert lapyrei.open(path).geometry.segments == 2
