"""Stores that are written, cut, replaced and formatted while they are read."""
import contextlib
import itertools
import os
import subprocess
import sys
import time
from pathlib import Path

import lapyrei
import layout
import numpy as np
import pytest
from conftest import DAY, bytes_of, put, ring, until
from lapyrei.files import StoreFile
from writer import store as append

HERE = Path(__file__).resolve().parent


@contextlib.contextmanager
def writing(path, size, segments, slots):
    """A writer beside this process. Gives a list to which the number of its frames is added."""
    words = [str(path), *map(str, size), str(segments), str(slots)]
    run = subprocess.Popen(
        [sys.executable, "-B", str(HERE / "writer.py"), *words],
        stdin=subprocess.PIPE,
        stdout=subprocess.PIPE,
        text=True,
    )
    try:
        assert run.stdout.readline() == "ready\n"
        count = []
        yield count
        run.stdin.close()
        count.append(int(run.stdout.read()))
    finally:
        run.kill()
        run.wait()
        run.stdout.close()


def read_beside(path, enough):
    """Reads frames beside a writer, until those that were whole and torn are enough. Answers their
    numbers, and how many were gone."""
    store, whole, torn, gone = lapyrei.open(path), [], [], [0]

    def is_enough():
        store.refresh()
        for place in [0, len(store) // 2, len(store) - 1]:
            number = int(store.numbers[place])
            try:
                (whole if (store[place] == number % 251).all() else torn).append(number)
            except lapyrei.Gone:
                gone[0] += 1
        return enough(whole, torn)

    until(is_enough, "frames enough")
    return whole, torn, gone[0]


def test_no_frame_is_torn_beside_a_writer(tmp_path):
    path = tmp_path / "a.loop"
    with writing(path, (640, 480), 3, 1) as count:
        whole, torn, gone = read_beside(
            path, lambda whole, _: len(whole) >= 200 and len(set(whole)) >= 50
        )
    print(f"{len(whole)} frames read beside {count[0]} stored: {len(torn)} torn, {gone} gone")
    assert not torn


def test_a_reader_that_looks_no_second_time_has_torn_frames_there(tmp_path, monkeypatch):
    """Else the test above would say nothing. It waits for the writer between look and read: what
    the two do by themselves differs from one machine to the other."""

    def careless(self, geometry, place, number, read):
        self.look(geometry, place, number)
        at = geometry.slot_at(place, number % geometry.slots) + layout.HEAD
        until(lambda: self.read_at(at, 1)[0] != number % 251, "other frame there")
        return read(at)

    monkeypatch.setattr(StoreFile, "whole", careless)
    # Nor at the head that it reads with the pixels.
    real = lapyrei.Part.pixels
    monkeypatch.setattr(
        lapyrei.Part, "pixels", lambda self, number, pieces, _=None: real(self, number, pieces)
    )
    path = tmp_path / "a.loop"
    with writing(path, (640, 480), 3, 1):
        read_beside(path, lambda _, torn: torn)


def test_frames_of_a_real_recorder_are_whole_while_it_records(tmp_path, loop_cli):
    """The test pattern of `record`: byte i of frame n is n + i."""
    path = str(tmp_path / "a.loop")
    assert loop_cli("format", path, 320, 240, "YM12", "25:1", 4, 8)[0] == 0
    assert loop_cli("record", 40, "-", path)[0] == 0
    run = subprocess.Popen(
        [loop_cli.path, "record", "1000000000", "-", path], stdout=subprocess.DEVNULL
    )
    try:
        store, numbers = lapyrei.open(path), []

        def is_enough():
            store.refresh()
            for place in (0, -1):
                with contextlib.suppress(lapyrei.Gone):
                    data = np.frombuffer(bytes_of(store[place]), np.uint8)
                    assert len(np.unique(np.diff(data))) <= 2 and data[0] == data[256]
                    numbers.append(int(store.numbers[place]))
            return len(numbers) > 100 and len(set(numbers)) > 20

        until(is_enough, "frames")
    finally:
        run.kill()
        run.wait()


@pytest.mark.parametrize("moment", range(7))
def test_a_frame_that_is_overwritten_while_it_is_read_is_gone(tmp_path, monkeypatch, moment):
    """Its block is removed before one of the reads, and another has come in its place: it is never
    the bytes of that one. The last read is the one that would have been enough."""
    path, it = tmp_path / "a.loop", layout.Ring(64, 48, b"GREY", 3, 2)
    put(path, it)
    with open(path, "r+b") as file:

        def write(at, data):
            os.pwrite(file.fileno(), data, at)

        for _ in range(6):
            append(it, write)
        store, reads = lapyrei.open(path), []

        def counted(real):
            def read(*words):
                reads.append(words)
                if len(reads) == moment + 1:
                    for _ in range(6):
                        append(it, write)
                return real(*words)

            return read

        part = store.parts[0].file
        part.read_at, part.read_into = counted(part.read_at), counted(part.read_into)
        with pytest.raises(lapyrei.Gone, match="a.loop: frame 0 isn't held any more") as gone:
            store[0]
        assert gone.value.number == 0 and len(reads) > moment


def test_what_the_ring_has_removed_is_gone_and_what_came_is_seen(tmp_path):
    path, it = tmp_path / "a.loop", ring(9)
    store = lapyrei.open(put(path, it))
    old = store[:]
    assert not store.refresh()
    for _ in range(6):
        it.store()
    it.lock(13, 14, 1)
    put_in_place(path, it.image)
    with pytest.raises(lapyrei.Gone):
        store[0]
    assert (
        store.numbers[0] == 0 and store.refresh() and store.numbers.tolist() == list(range(3, 15))
    )
    assert int(store[0][0, 0]) == 3 and len(store.clips) == 1
    assert int(old[7][0, 0]) == 7
    with pytest.raises(lapyrei.Gone):
        old[0]
    it.unlock(0)
    put_in_place(path, it.image)
    assert store.refresh() and not store.clips


def put_in_place(path, image):
    """Writes an image over the same file."""
    with open(path, "r+b") as file:
        file.write(bytes(image))


@pytest.mark.parametrize("size", [0, 100, 3000, 5000, "within"])
def test_a_file_that_was_cut_raises_and_never_ends_the_process(tmp_path, size):
    path, it = tmp_path / "a.loop", ring(60, size=(64, 48), slots=16)
    store = lapyrei.open(put(path, it))
    held = store[:]
    # Where the cut goes through the pixels of frame 40, all that is looked at besides stays.
    os.truncate(path, it.geometry.slot_at(2, 8) + layout.HEAD + 100 if size == "within" else size)
    for read in (store.read, held.read, store.luma, store.raw, store.rgb):
        with pytest.raises(lapyrei.Changed, match="a.loop was cut"):
            read(40)
    with pytest.raises((lapyrei.Changed, lapyrei.Gone), match="a.loop"):
        store.array()
    with pytest.raises(lapyrei.Refused, match="NotFormatted|Damaged 1"):
        store.refresh()
    assert len(store) == len(held) == 60


CUTTER = """
import os, random, sys
sys.path[1:1] = sys.argv[3].split(":")
import lapyrei
store, read, bad = lapyrei.open(sys.argv[1]), 0, 0
print("ready", flush=True)
while os.path.exists(sys.argv[2]):
    try:
        store[random.randrange(len(store))]
        store.refresh()
        read += 1
    except lapyrei.LapyreiError:
        bad += 1
    if read and bad:
        open(sys.argv[2] + " both", "w")
print(read, bad)
"""


def test_files_that_are_cut_and_grown_while_they_are_read(tmp_path):
    """A map would end the reader by SIGBUS within a few of these."""
    path, going = tmp_path / "a.loop", tmp_path / "going"
    image = bytes(ring(60, size=(64, 48), slots=16).image)
    put(path, image), going.touch()
    run = subprocess.Popen(
        [sys.executable, "-B", "-c", CUTTER, str(path), str(going), ":".join(sys.path)],
        stdout=subprocess.PIPE,
        text=True,
    )
    assert run.stdout.readline() == "ready\n"
    cuts = itertools.count()

    def is_enough():
        os.truncate(path, 4096 * (time.monotonic_ns() % 20))
        time.sleep(0.001)
        put_in_place(path, image)
        time.sleep(0.002)
        has_ended = run.poll() is not None
        return has_ended or (next(cuts) > 500 and os.path.exists(f"{going} both"))

    until(is_enough, "cuts")
    going.unlink()
    read, bad = map(int, run.stdout.read().split())
    assert run.wait() == 0 and read > 0 and bad > 0


def test_a_file_that_was_replaced_is_told_by_a_refresh(tmp_path):
    path, other = tmp_path / "a.loop", tmp_path / "b.loop"
    store = lapyrei.open(put(path, ring(9)))
    put(other, ring(5, start=DAY + 10**9))
    os.replace(other, path)
    # The frames that it had are still those.
    assert int(store[2][0, 0]) == 2
    with pytest.raises(lapyrei.Changed, match="a.loop is another file now"):
        store.refresh()
    os.unlink(path)
    with pytest.raises(lapyrei.Changed, match="isn't there any more"):
        store.refresh()


@pytest.mark.parametrize("segments", [4, 5])
def test_a_store_that_was_formatted_anew_in_its_place_is_told(tmp_path, segments):
    path = tmp_path / "a.loop"
    store = lapyrei.open(put(path, ring(9)))
    new = ring(9 if segments == 4 else 7, segments=segments, start=DAY + 10**9)
    put_in_place(path, new.image)
    with pytest.raises(lapyrei.Gone if segments == 5 else lapyrei.Changed):
        if segments == 5:
            store[0]
        store.refresh()
    with pytest.raises(lapyrei.Changed, match="formatted anew"):
        store.refresh()
    assert store.times[0] == DAY


def test_an_upgrade_changes_nothing_of_the_frames(tmp_path, loop_cli):
    path = tmp_path / "a.loop"
    it = ring(9, version=1)
    it.lock(3, 5, 9)
    store = lapyrei.open(put(path, it))
    assert store.parts[0].version == 1 and store.clips[0].tag == 0
    assert loop_cli("upgrade", path)[:2] == (0, "upgraded\n")
    assert int(store[0][0, 0]) == 0 and store.refresh() and store.parts[0].version == 2
    assert len(store) == 9


def test_a_store_that_is_closed_says_so(tmp_path):
    with lapyrei.open(put(tmp_path / "a.loop", ring(9))) as store:
        clip = store[3:5]
    for read in (store.read, clip.read):
        with pytest.raises(lapyrei.CannotOpen, match="a.loop: .*closed"):
            read(0)
    with pytest.raises(lapyrei.CannotOpen, match="closed"):
        store.refresh()
    store.close()


def test_files_are_closed_with_their_store(tmp_path):
    path = put(tmp_path / "a.loop", ring(9))
    before = len(os.listdir("/proc/self/fd"))
    for _ in range(20):
        lapyrei.open(path)
        with pytest.raises(lapyrei.LapyreiError):
            lapyrei.open(tmp_path).event("no")
    assert len(os.listdir("/proc/self/fd")) <= before + 1


def test_reads_that_come_short_are_made_on(tmp_path, monkeypatch):
    """As where a signal comes between."""
    path = put(tmp_path / "a.loop", ring(9, b"YM12"))
    store, real = lapyrei.open(path), os.preadv
    monkeypatch.setattr(os, "preadv", lambda file, left, at: real(file, [left[0][:7]], at))
    recording = layout.read(Path(path).read_bytes())
    assert bytes_of(store[4]) == recording.frames[4]


def test_a_read_that_fails_is_told_with_the_path(tmp_path, monkeypatch):
    path = put(tmp_path / "a.loop", ring(9))
    store = lapyrei.open(path)

    def fail(*_):
        raise OSError(5, "Input/output error")

    monkeypatch.setattr(os, "preadv", fail)
    with pytest.raises(lapyrei.CannotOpen, match="a.loop: cannot read: Input/output error"):
        store[0]


def test_several_threads_read_from_one_store(tmp_path):
    from concurrent.futures import ThreadPoolExecutor

    path = put(tmp_path / "a.loop", ring(60, size=(64, 48), slots=16))
    store = lapyrei.open(path)
    with ThreadPoolExecutor(4) as pool:
        for place, picture in enumerate(pool.map(store.read, list(range(60)) * 4)):
            assert int(picture[0, 0]) == place % 60


def test_a_store_that_never_stands_still_is_refused(tmp_path, monkeypatch):
    path, reads = put(tmp_path / "a.loop", ring(9)), [0]
    monkeypatch.setattr(time, "sleep", lambda _: None)
    plain = StoreFile.read_at

    def moving(self, at, count):
        reads[0] += 1
        data = plain(self, at, count)
        return (
            data[:2048] + reads[0].to_bytes(8, "little") + data[2056:]
            if count == layout.FRONT
            else data
        )

    monkeypatch.setattr(StoreFile, "read_at", moving)
    with pytest.raises(lapyrei.Unsettled, match="faster than it can be read"):
        lapyrei.open(path)
