"""What the tests share: stores that are made by the layout alone (tools/layout.py), or by
loop_cli."""
import os
import random
import shutil
import subprocess
import sys
import time
from pathlib import Path

import pytest

HERE = Path(__file__).resolve().parent
TOP = HERE.parent.parent
# LAPYREI_PYTHON names another folder with the module, one that is wrong.
SOURCES = Path(os.environ.get("LAPYREI_PYTHON") or TOP / "python")
sys.path[1:1] = [str(SOURCES), str(TOP / "tools")]
sys.dont_write_bytecode = True

# Before the layout, which would take the one beside it.
import lapyrei.layout  # noqa: E402,F401
import lapyrei.library  # noqa: E402
import layout  # noqa: E402
import shared_library  # noqa: E402

if SOURCES != TOP / "python":
    sys.path[:] = [it for it in sys.path if os.path.realpath(it) != str(TOP / "python")]

# How many seconds a test waits for a state before it fails: no test depends on how fast a machine
# is.
LIMIT = 120
FORMATS = sorted(layout.DIVIDED)
DAY = 1_764_182_400_000_000


def until(reached, what):
    """Waits for a state, and answers it."""
    end = time.monotonic() + LIMIT
    while not (found := reached()):
        assert time.monotonic() < end, f"no {what} within {LIMIT} s"
    return found


def put(path, image):
    """Writes an image as a file, and answers its path as text."""
    Path(path).write_bytes(bytes(getattr(image, "image", image)))
    return str(path)


def ring(count, form=b"GREY", size=(8, 6), segments=4, slots=3, version=2, start=DAY):
    """A ring after so many frames, 40 ms apart."""
    it = layout.Ring(*size, form, segments, slots, version=version)
    it.time += start
    for _ in range(count):
        it.store()
    return it


def random_ring(choose, calls=60):
    """A ring after random calls, whose frames have random bytes."""
    form, version = choose.choice(FORMATS), choose.choice((1, 2, 2))
    it = layout.Ring(
        choose.randint(1, 9),
        choose.randint(1, 9),
        form,
        choose.randint(2, 7),
        choose.randint(1, 6),
        version=version,
    )
    it.time += choose.choice((0, DAY))
    for _ in range(choose.randint(0, calls)):
        kind, held = choose.random(), it.held()
        if kind < 0.1 and held:
            first, last = choose.choice(layout.runs_of(sorted(held)))
            first = choose.randint(first, last)
            it.lock(first, choose.randint(first, last), choose.choice((0, 3, 2**64 - 1)))
        elif kind < 0.15 and it.clips:
            it.unlock(choose.choice(list(it.clips)))
        else:
            it.store(choose.choice((1, 1, 2)), choose.choice((40000, 90000, 3_000_000)))
    return it


def with_flags(image, geometry, flags):
    """An image in which each held frame has these flags."""
    image = bytearray(image)
    for place, (_, whole) in layout.headers(image, geometry).items():
        for slot in range(whole):
            at = geometry.slot_at(place, slot) + 12
            image[at : at + 4] = flags.to_bytes(4, "little")
    return bytes(image)


def bytes_of(picture):
    """The bytes of a picture."""
    planes = picture if isinstance(picture, tuple) else (picture,)
    return b"".join(plane.tobytes() for plane in planes)


def is_same(store, recording):
    """Sees that a store is what the layout's own reader says of an image."""
    part = store.parts[0]
    assert part.next == recording.next and part.version == recording.version
    assert store.numbers.tolist() == sorted(recording.frames)
    assert [(it.id, it.first, it.last, it.tag) for it in store.clips] == recording.clips
    for place, number in enumerate(store.numbers.tolist()):
        assert bytes_of(store[place]) == recording.frames[number]
        assert store.raw(place).tobytes() == recording.frames[number]
        luma = store.luma(place)
        assert luma.tobytes() == recording.frames[number][: luma.nbytes]
    whole = store.array()
    planes = whole if isinstance(whole, tuple) else (whole,)
    found = [b"".join(it[place].tobytes() for it in planes) for place in range(len(store))]
    assert found == [recording.frames[number] for number in store.numbers.tolist()]


@pytest.fixture(scope="session")
def loop_cli():
    """The program. LOOP_CLI names it; without it what needs it is left out."""
    path = os.environ.get("LOOP_CLI") or str(TOP / "crates/loop_cli/out/loop_cli")
    if not os.access(path, os.X_OK):
        pytest.skip("LOOP_CLI names no program")

    def run(*words):
        done = subprocess.run([path, *map(str, words)], capture_output=True, text=True, check=False)
        return done.returncode, done.stdout, done.stderr

    run.path = path
    return run


@pytest.fixture(scope="session")
def library(tmp_path_factory):
    """The C library's path, which the module finds too. LAPYREI_LIBRARY names it, or LAPYREI the
    static one of which it is made; without them what writes is left out."""
    path = os.environ.get("LAPYREI_LIBRARY")
    if not path:
        archive = os.environ.get("LAPYREI") or str(TOP / "crates/lapyrei/out/liblapyrei.a")
        if not os.path.exists(archive) or not shutil.which("cc"):
            pytest.skip("LAPYREI names no C library, or there is no cc: nothing is written")
        path = shared_library.made(archive, tmp_path_factory.mktemp("library"))
    os.environ["LAPYREI_LIBRARY"] = os.path.abspath(path)
    lapyrei.library.library.cache_clear()
    return path


@pytest.fixture
def choose(request):
    """Random choices, the same in each run."""
    return random.Random(getattr(request, "param", request.node.name))
