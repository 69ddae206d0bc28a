"""The wheel that tools/package makes, in an environment of its own beside Debian's packages. It is
made here as there, of the sources and the C library."""
import os
import shutil
import subprocess
import sys
import zipfile

import conftest
import lapyrei
import numpy as np
import pytest

TRIES = """
import lapyrei, numpy, sys
from importlib.metadata import distribution
with lapyrei.create(sys.argv[1], (4, 6), 25, segments=2, slots=4) as store:
    store.append(numpy.ones((3, 4, 6), numpy.uint8), [1, 2, 3])
    print(store.lock(1, 2, tag=7).id, len(store), lapyrei.library.library()._name)
print(lapyrei.__file__)
print(sorted((it.group, it.name, it.value) for it in distribution("lapyrei").entry_points))
"""


@pytest.fixture(scope="module")
def wheel(tmp_path_factory, library):
    """The wheel's path."""
    for name in ("setuptools", "wheel"):
        pytest.importorskip(name)
    room = tmp_path_factory.mktemp("wheel")
    shutil.copytree(conftest.SOURCES / "lapyrei", room / "lapyrei")
    for name in ("pyproject.toml", "setup.py"):
        shutil.copy(conftest.SOURCES / name, room)
    shutil.copy(library, room / "lapyrei/liblapyrei.so.1")
    words = [sys.executable, "setup.py", "-q", "bdist_wheel", "-d", room / "out"]
    env = dict(os.environ, SOURCE_DATE_EPOCH="1795361880")
    subprocess.run(words, cwd=room, check=True, capture_output=True, env=env)
    (found,) = (room / "out").iterdir()
    return found


def test_its_name_says_which_machines_take_it_and_all_is_inside(wheel):
    assert wheel.name == f"lapyrei-{lapyrei.__version__}-py3-none-linux_x86_64.whl"
    names = set(zipfile.ZipFile(wheel).namelist())
    here = {f"lapyrei/{it.name}" for it in (conftest.SOURCES / "lapyrei").iterdir()}
    wanted = {it for it in here if it.endswith((".py", ".typed", ".yaml"))}
    assert wanted | {"lapyrei/liblapyrei.so.1", "lapyrei/py.typed"} <= names
    assert not any(it.split("/")[0] in ("page", "camera", "links") for it in names)


@pytest.fixture(scope="module")
def environment(wheel, tmp_path_factory):
    """The folder of an environment in which it is installed."""
    pytest.importorskip("ensurepip", reason="python3-venv isn't installed")
    room = tmp_path_factory.mktemp("venv") / "it"
    words = [sys.executable, "-m", "venv", "--system-site-packages", room]
    subprocess.run(words, check=True, capture_output=True)
    words = [room / "bin/pip", "install", "-q", "--no-index", "--no-deps", wheel]
    done = subprocess.run(words, capture_output=True, text=True)
    assert done.returncode == 0, done
    return room


def in_it(environment, *words):
    """Runs a program of the environment, which finds nothing of this repository."""
    env = {"PATH": "/usr/bin:/bin", "HOME": str(environment)}
    name, *rest = map(str, words)
    done = subprocess.run(
        [environment / "bin" / name, *rest], capture_output=True, text=True, env=env, cwd="/"
    )
    assert done.returncode == 0, done
    return done.stdout


def test_it_writes_by_its_own_library(environment, tmp_path):
    path = tmp_path / "a.loop"
    first, where, points = in_it(environment, "python", "-c", TRIES, path).splitlines()
    assert first.startswith("0 3 ") and where.startswith(str(environment))
    assert first.split()[2] == str(os.path.dirname(where)) + "/liblapyrei.so.1"
    assert "('napari.manifest', 'lapyrei', 'lapyrei:napari.yaml')" in points
    assert (lapyrei.open(path)[2] == np.ones((4, 6))).all()
    told = in_it(environment, "lapyrei-export", "--events", path)
    assert told.startswith("event 0 tag 7  2 frames")
    told = in_it(environment, "lapyrei-export", path, "npy", "--verify", "-o", tmp_path / "out")
    assert told == f"exported 3 {tmp_path / 'out'}, and read back the same\n"


def test_its_types_are_known_to_mypy(environment, tmp_path):
    """py.typed is in it: no stub is missing."""
    (tmp_path / "use.py").write_text(
        "import lapyrei\n"
        "store = lapyrei.open('a.loop')\n"
        "for block in store.blocks(9):\n"
        "    print(block.lost.sum(), block[:, 2:4, 1:3], block.shape[0])\n"
        "reveal_type(store.shape)\n"
    )
    words = ["mypy", "--strict", "--python-executable", environment / "bin/python"]
    words += ["--cache-dir", tmp_path / "cache", tmp_path / "use.py"]
    done = subprocess.run(words, capture_output=True, text=True, cwd=tmp_path)
    assert done.returncode == 0 and "Tuple[builtins.int, builtins.int, builtins.int]" in done.stdout
