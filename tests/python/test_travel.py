"""A reader that goes to another process, or is copied, reads the same store there, or says by name
why it can't."""
import copy
import importlib.util
import multiprocessing
import os
import pickle
import signal
import subprocess
import sys

import conftest
import lapyrei
import numpy as np
import pytest
from conftest import DAY, bytes_of, put, ring

METHODS = ["fork", "spawn"]


def sums(frames, places):
    """The sum of each picture, where the frames have come to."""
    return [int(frames.luma(it).sum()) for it in places]


def same(one, other):
    """Two readers of the same frames."""
    assert type(one) is type(other) and one.heads.tobytes() == other.heads.tobytes()
    assert [bytes_of(it) for it in one] == [bytes_of(it) for it in other]


def copies(it):
    """A reader in each way in which it travels."""
    yield pickle.loads(pickle.dumps(it))
    yield pickle.loads(pickle.dumps(it, 2))
    yield copy.copy(it)
    yield copy.deepcopy(it)


@pytest.mark.parametrize("form", [b"GREY", b"YM12"])
def test_what_is_copied_reads_the_same_frames_by_a_file_of_its_own(tmp_path, form):
    it = ring(20, form)
    it.lock(12, 16, 7)
    store = lapyrei.open(put(tmp_path / "left.loop", it))
    for kept in (store, store.events[0], store.clips[0], store[::3], store[[]]):
        for other in copies(kept):
            same(kept, other)
            assert other._parts[0].file.file != store.parts[0].file.file
    other = copy.copy(store)
    store.close()
    assert len(other) == 11 and other.events[0].tag == 7 and other.runs == [[(9, 19)]]
    assert other[3].tobytes() if form == b"GREY" else other[3].y.tobytes()
    with pytest.raises(lapyrei.CannotOpen, match="left.loop: it was closed"):
        pickle.dumps(store)


def test_it_stays_as_it_was_and_goes_on_by_itself(tmp_path):
    path, it = tmp_path / "left.loop", ring(5)
    store = lapyrei.open(put(path, it))
    for _ in range(4):
        it.store()
    with open(path, "r+b") as file:
        file.write(it.image)
    other = pickle.loads(pickle.dumps(store))
    assert other.numbers.tolist() == [0, 1, 2, 3, 4] and other.parts[0].next == 5
    assert other.refresh() and len(other) == 9 and len(store) == 5
    assert not other.refresh()


def test_it_opens_its_file_wherever_it_comes_to(tmp_path, monkeypatch):
    put(tmp_path / "a.000.loop", ring(3)), put(tmp_path / "a.001.loop", ring(2, start=DAY + 10**6))
    monkeypatch.chdir(tmp_path)
    for where in ("a.loop", ["a.000.loop", "a.001.loop"], "."):
        packed = pickle.dumps(lapyrei.open(where))
        monkeypatch.chdir("/")
        other = pickle.loads(packed)
        assert len(other) == 5 and len(other.parts) == 2 and not other.refresh()
        monkeypatch.chdir(tmp_path)


@pytest.mark.parametrize("how", ["another", "gone", "wider", "cut", "no store"])
def test_another_file_is_refused_by_name(tmp_path, how):
    """What once gave another camera's picture in silence."""
    path = tmp_path / "left.loop"
    packed = pickle.dumps(lapyrei.open(put(path, ring(5))))
    if how == "another":
        put(tmp_path / "new", ring(5, start=DAY + 1)), os.rename(tmp_path / "new", path)
    elif how == "gone":
        path.unlink()
    elif how == "wider":
        with open(path, "r+b") as file:
            file.write(ring(5, size=(9, 6)).image)
    elif how == "cut":
        os.truncate(path, 20)
    else:
        with open(path, "r+b") as file:
            file.write(b"\0")
    with pytest.raises(lapyrei.Changed, match="left.loop.* (open it again|isn't there any more)"):
        pickle.loads(packed)


def test_a_file_that_was_formatted_anew_gives_no_frame_of_the_new_recording(tmp_path):
    """Its superblock is the same, and its frames have the same numbers."""
    path = tmp_path / "left.loop"
    store = lapyrei.open(put(path, ring(5)))
    packed = pickle.dumps(store)
    with open(path, "r+b") as file:
        file.write(ring(5, start=DAY + 77).image)
    other = pickle.loads(packed)
    for reader in (store, other):
        for read in (reader.read, reader.luma, reader.raw, reader.rgb):
            with pytest.raises(lapyrei.Changed, match="left.loop was formatted anew"):
                read(2)
        with pytest.raises(lapyrei.Changed, match="left.loop was formatted anew"):
            reader.array()


@pytest.mark.parametrize("method", METHODS)
def test_workers_read_what_they_are_given(tmp_path, method):
    it = ring(20, b"YM12")
    it.lock(12, 16, 7)
    event = lapyrei.open(put(tmp_path / "left.loop", it)).events[0]
    with multiprocessing.get_context(method).Pool(2) as pool:
        work = [pool.apply_async(sums, (event, [place])) for place in range(len(event))]
        found = [one.get(conftest.LIMIT) for one in work]
    assert [it for (it,) in found] == sums(event, range(5))


def test_a_worker_has_no_other_store_by_the_number_of_a_descriptor(tmp_path):
    """The parent's descriptors aren't the worker's: it opened another camera's file in between."""
    left = lapyrei.open(put(tmp_path / "left.loop", ring(5)))
    packed = pickle.dumps(left)
    program = f"""
import sys, pickle
sys.path[1:1] = {sys.path!r}
import lapyrei
others = [lapyrei.open({put(tmp_path / 'right.loop', ring(5, start=DAY + 5))!r}) for _ in range(99)]
print(pickle.loads({packed!r})[2].sum(), pickle.loads({packed!r}).camera)
"""
    done = subprocess.run([sys.executable, "-B", "-c", program], capture_output=True, text=True)
    assert done.stdout.split() == [str(left[2].sum()), "left"], done


LOADER = """
import sys
sys.path[1:1] = {path!r}
import lapyrei
import numpy
from torch.utils.data import DataLoader

if __name__ == "__main__":
    store = lapyrei.open({file!r})
    for method in ("fork", "spawn"):
        loader = DataLoader(store, 4, num_workers=2, multiprocessing_context=method)
        found = numpy.concatenate([batch.numpy() for batch in loader])
        print(method, (found == store.array()).all())
"""


def test_a_loader_of_torch_reads_by_its_workers(tmp_path):
    """In a process of its own, since torch takes a signal of the process over."""
    if not importlib.util.find_spec("torch"):
        pytest.skip("python3-torch isn't installed: the next test does as its workers do")
    path = put(tmp_path / "left.loop", ring(12))
    (tmp_path / "load.py").write_text(LOADER.format(path=sys.path, file=path))
    words = [sys.executable, "-B", tmp_path / "load.py"]
    done = subprocess.run(words, capture_output=True, text=True)
    assert done.stdout == "fork True\nspawn True\n", done


def fetch(data, asked, found):
    """A worker as torch's loader has it: it gets the data once, and then lists of places."""
    for places in iter(asked.get, None):
        found.put((places, [data[it] for it in places]))


@pytest.mark.parametrize("method", METHODS)
def test_workers_that_get_the_data_once_read_as_they_are_asked(tmp_path, method):
    store = lapyrei.open(put(tmp_path / "left.loop", ring(12)))
    context = multiprocessing.get_context(method)
    asked, found = context.Queue(), context.Queue()
    workers = [context.Process(target=fetch, args=(store, asked, found)) for _ in range(2)]
    for worker in workers:
        worker.start()
    batches = [[0, 1, 2, 3], [4, 5, 6, 7], [8, 9, 10]]
    for batch in [*batches, None, None]:
        asked.put(batch)
    for _ in batches:
        places, pictures = found.get(timeout=conftest.LIMIT)
        assert all((it == store[place]).all() for place, it in zip(places, pictures))
    for worker in workers:
        worker.join(conftest.LIMIT)
        assert worker.exitcode == 0


# ------------------------------------------------------------------------------- written ones


def test_a_store_that_is_written_travels_as_its_reader(tmp_path, library):
    with lapyrei.create(tmp_path / "a.loop", (4, 6), 25, segments=2, slots=4, bits=12) as store:
        empty = copy.copy(store)
        assert empty.shape == (0, 4, 6) and empty.dtype == np.uint16
        store.append(np.arange(24, dtype=np.uint16).reshape(4, 6), 5)
        for other in copies(store):
            assert type(other) is lapyrei.Store and other.heads.tobytes() == store.heads.tobytes()
            assert (other[0] == store[0]).all()
        store.append(np.ones((4, 6), np.uint16), 6)
        assert len(other) == 1 and other.refresh() and len(other) == 2


BUSY = """
import os, sys, time
sys.path[1:1] = {path!r}
import lapyrei
store = lapyrei.open({file!r}, "r+")
out, into = os.pipe()
child = os.fork()
if not child:
    os.write(into, b"x")
    time.sleep({limit})
    os._exit(0)
if not {closes}:
    # A child lets go of the store once it runs.
    os.read(out, 1)
print(child, flush=True)
if {closes}:
    store.close()
    lapyrei.open({file!r}, "r+").close()
    print("opened", flush=True)
sys.stdin.read()
os.kill(os.getpid(), 9)
"""


@pytest.mark.parametrize("closes", [True, False])
def test_a_forked_child_that_lives_keeps_no_store_busy(tmp_path, library, closes):
    """Neither one that was closed, nor one of a process that was killed."""
    path = str(tmp_path / "a.loop")
    lapyrei.create(path, (4, 6), 25, segments=2, slots=4).close()
    program = BUSY.format(path=sys.path, file=path, limit=conftest.LIMIT, closes=closes)
    run = subprocess.Popen(
        [sys.executable, "-B", "-c", program],
        stdin=subprocess.PIPE,
        stdout=subprocess.PIPE,
        text=True,
    )
    child = int(run.stdout.readline())
    try:
        if closes:
            assert run.stdout.readline() == "opened\n"
        run.stdin.close()
        run.wait(conftest.LIMIT)
        os.kill(child, 0)
        lapyrei.open(path, "r+").close()
    finally:
        os.kill(child, signal.SIGKILL)
        run.kill()
        run.wait()
        run.stdout.close()
