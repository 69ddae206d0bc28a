"""The command lapyrei-export, as it is typed."""
import csv
import os
import pty
import re
import signal
import subprocess
import sys
import time

import conftest
import lapyrei
import pytest
from conftest import DAY, LIMIT, put, ring
from lapyrei import exports

COMMAND = conftest.SOURCES / "lapyrei-export"


@pytest.fixture
def folder(tmp_path):
    """A folder with a store of two events."""
    it = ring(20, b"YM12", (16, 8))
    it.lock(10, 12, 7)
    it.lock(15, 18, 0)
    put(tmp_path / "left.loop", it)
    return tmp_path


def typed(folder, *words, status=0, **more):
    """Runs the command, and answers what it prints, or what it says where it is refused."""
    done = subprocess.run(
        [sys.executable, "-B", COMMAND, *map(str, words)],
        cwd=folder,
        capture_output=True,
        text=True,
        stdin=subprocess.DEVNULL,
        **more,
    )
    assert done.returncode == status, done
    assert not (done.stdout if status else done.stderr), done
    return done.stderr if status else done.stdout


def test_it_says_what_it_is_and_takes(folder):
    text = typed(folder, "--help")
    assert all(kind in text for kind in exports.KINDS) and "--version" in text
    assert typed(folder, "--version") == f"lapyrei-export {lapyrei.__version__}\n"
    page = (conftest.TOP / "docs/python.md").read_text()
    completed = (conftest.TOP / "packaging/completion.bash").read_text()
    for word in set(re.findall(r"--([a-z-]+)", text)):
        assert word in ("events", "help") or f"--{word}" in completed
    assert all(f"`{kind}`" in page and kind in completed for kind in exports.KINDS)


def test_events_are_listed_and_exported_by_their_names(folder):
    text = typed(folder, "--events", "left.loop", env=dict(os.environ, TZ="UTC"))
    day = "2025-11-26T18:40:00"
    assert text.splitlines() == [
        f"event 0 tag 7  3 frames, {day}.400+00:00 to {day}.480+00:00  (clip 0 10..12)",
        f"event 1  4 frames, {day}.600+00:00 to {day}.720+00:00  (clip 1 15..18)",
    ]
    assert typed(folder, "left.loop#1", "csv") == "exported 4 left_2025-11-26T18-40-00Z_1.csv\n"
    rows = list(csv.DictReader(open(folder / "left_2025-11-26T18-40-00Z_1.csv", newline="")))
    assert [row["number"] for row in rows] == ["15", "16", "17", "18"]
    assert (
        typed(folder, "left.loop", "png", "--clip", 0)
        == "exported 3 left_2025-11-26T18-40-00Z_0_png\n"
    )
    assert "no event 9; there are: 0, 1" in typed(folder, "left.loop#9", "csv", status=1)
    assert "no clip 9" in typed(folder, "left.loop", "csv", "--clip", 9, status=1)


@pytest.mark.parametrize(
    "words, numbers",
    [
        ([], range(9, 20)),
        (["--from", f"{(DAY + 440_000) / 1e6:.3f}"], range(11, 20)),
        (["--from", "2025-11-26T18:40:00.44Z", "--to", "2025-11-26T18:40:00.48Z"], range(11, 13)),
        (["--last", "0.08"], range(17, 20)),
    ],
)
def test_a_time_is_chosen(folder, words, numbers):
    typed(folder, "left.loop", "csv", "-o", "out.csv", *words)
    rows = list(csv.DictReader(open(folder / "out.csv", newline="")))
    assert [int(row["number"]) for row in rows] == list(numbers)


def test_a_name_with_the_event_s_sign_is_a_file_where_it_is_there(folder):
    os.rename(folder / "left.loop", folder / "a#1.loop")
    assert typed(folder, "a#1.loop", "csv").startswith("exported 11 a#1_")
    assert typed(folder, "a#1.loop#1", "csv").startswith("exported 4 a#1_")


@pytest.mark.parametrize(
    "words, status, why",
    [
        (["none.loop", "csv"], 1, "none.loop: missing"),
        ([".", "--events"], 0, ""),
        (["left.loop"], 2, "which FORMAT"),
        (["left.loop", "gif"], 2, "invalid choice: 'gif'"),
        (["left.loop", "csv", "--rgb", "--luma"], 2, "not allowed"),
        (["left.loop", "csv", "--out", "x"], 2, "unrecognized"),
        ([], 2, "required"),
        (["left.loop", "mkv", "--rgb"], 1, "mkv takes planes or luma"),
        (["left.loop", "csv", "--last", "long"], 1, "long is no number"),
        (["left.loop", "csv", "--from", "noon"], 1, "'noon' is no time"),
        (["left.loop", "csv", "--from", "2030-01-01T00:00Z"], 1, "no frame to export"),
        (["left.loop", "csv", "-o", "/proc/none/x"], 1, "cannot write /proc/none/x"),
        (["left.loop", "csv", "-o", "left.loop"], 1, "left.loop is there already"),
    ],
)
def test_what_is_wrong_is_refused_by_name(folder, words, status, why):
    before = (folder / "left.loop").read_bytes()
    assert why in typed(folder, *words, status=status)
    assert os.listdir(folder) == ["left.loop"] and (folder / "left.loop").read_bytes() == before


def test_a_store_is_never_replaced_by_an_export_of_it(folder):
    before = (folder / "left.loop").read_bytes()
    os.symlink("left.loop", folder / "link.loop")
    for out in ("left.loop", "link.loop", "./left.loop"):
        assert "is a store" in typed(folder, "left.loop", "csv", "--force", "-o", out, status=1)
    assert (folder / "left.loop").read_bytes() == before


def test_a_missing_numpy_is_named(folder):
    (folder / "numpy.py").write_text(
        "raise ModuleNotFoundError(\"No module named 'numpy'\", name='numpy')\n"
    )
    text = typed(folder, "left.loop", "csv", status=1, env=dict(os.environ, PYTHONPATH=str(folder)))
    assert text == "lapyrei-export: python3-numpy isn't installed: sudo apt install python3-numpy\n"


SLOW = """
import sys, time
sys.path[1:1] = {path!r}
sys.dont_write_bytecode = True
import lapyrei, lapyrei.command
real, count = lapyrei.Part.pixels, 0
def slow(*words):
    global count
    count += 1
    time.sleep(0.05)
    print("frame", file=sys.stdout, flush=True)
    if count == {stop!r}:
        sys.stdin.read()
    real(*words)
lapyrei.Part.pixels = slow
sys.exit(lapyrei.command.main({words!r}))
"""


def slow(folder, *words, stop=None, **more):
    """The command, which takes 50 ms a frame and says so. At the frame `stop` it waits for the end
    of its input."""
    program = SLOW.format(path=sys.path, words=list(words), stop=stop)
    more |= {"stdin": subprocess.PIPE} if stop else {}

    def heeds():
        # What a shell runs in the background ignores SIGINT, and under nohup SIGHUP: the command
        # would too.
        for number in (signal.SIGINT, signal.SIGHUP):
            signal.signal(number, signal.SIG_DFL)

    return subprocess.Popen(
        [sys.executable, "-B", "-c", program], cwd=folder, preexec_fn=heeds, **more
    )


@pytest.mark.parametrize("number", [signal.SIGTERM, signal.SIGINT, signal.SIGHUP])
@pytest.mark.parametrize("kind", ["h5", "mkv", "png"])
def test_a_stop_leaves_nothing(folder, kind, number):
    both = {"stdout": subprocess.PIPE, "stderr": subprocess.PIPE}
    run = slow(folder, "left.loop", kind, stop=3, text=True, **both)
    for _ in range(3):
        assert run.stdout.readline() == "frame\n"
    assert [it for it in os.listdir(folder) if it.startswith(".left_")]
    run.send_signal(number)
    run.wait(LIMIT)
    run.communicate()
    assert run.returncode == -number and os.listdir(folder) == ["left.loop"]


def test_what_sigkill_leaves_is_hidden_and_is_removed_by_the_next_run(folder):
    words = ["left.loop", "h5", "-o", "out.h5"]
    run = slow(folder, *words, stop=1, stdout=subprocess.PIPE, text=True)
    assert run.stdout.readline() == "frame\n"
    run.kill()
    run.communicate()
    assert sorted(os.listdir(folder)) == [".out.h5.part", "left.loop"]
    typed(folder, "left.loop", "h5", "-o", "out.h5")
    assert sorted(os.listdir(folder)) == ["left.loop", "out.h5"]


def test_a_long_work_shows_how_far_it_is_on_a_terminal(folder):
    ours, its = pty.openpty()
    run = slow(folder, "left.loop", "npy", "-o", "out", stdout=subprocess.DEVNULL, stderr=its)
    os.close(its)
    text, end = b"", time.monotonic() + LIMIT
    while time.monotonic() < end:
        try:
            text += os.read(ours, 4096)
        except OSError:
            break
    assert run.wait() == 0
    shown = text.decode().split("\r")
    assert any(re.match(r"\[#+ *\] \d+ of 11 frames, \d+ MB/s, \d+ s left *$", it) for it in shown)
    # It is taken away at the end.
    assert shown[-1] == "" and shown[-2].strip() == ""
    run = slow(
        folder,
        "left.loop",
        "npy",
        "-q",
        "-o",
        "two",
        stderr=subprocess.PIPE,
        stdout=subprocess.DEVNULL,
    )
    assert run.communicate()[1] == b""


def test_an_export_beside_the_ring_that_goes_on_is_refused(folder):
    """The frame that is next is overwritten while those before it are written."""
    both = {"stdout": subprocess.PIPE, "stderr": subprocess.PIPE}
    run = slow(folder, "left.loop", "npy", stop=1, text=True, **both)
    assert run.stdout.readline() == "frame\n"
    it = ring(60, b"YM12", (16, 8))
    with open(folder / "left.loop", "r+b") as file:
        file.write(bytes(it.image))
    assert re.search(r"left.loop: frame \d+ isn't held any more", run.communicate()[1])
    assert run.returncode == 1 and os.listdir(folder) == ["left.loop"]
