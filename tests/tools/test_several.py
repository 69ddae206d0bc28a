"""What store_info and store_picture say of a camera with several stores, which are one ring."""
import json
import os
import subprocess
import sys

import layout
import pytest

DAY = 1_764_182_400_000_000
INFO = os.path.join(os.path.dirname(__file__), "../../tools/store_info")
PICTURE = os.path.join(os.path.dirname(__file__), "../../tools/store_picture")


@pytest.fixture
def several(tmp_path):
    """Three stores of four blocks of three frames, 40 ms apart, which went round once: the first
    one got the last eight of 44 frames."""
    rings = [layout.Ring(8, 6, b"GREY", 4, 3) for _ in range(3)]
    for at in range(44):
        it = rings[at // 12 % 3]
        it.time = DAY + (at - 1) * 40_000
        it.store()
    for number, it in enumerate(rings):
        (tmp_path / f"left.{number:03}.loop").write_bytes(bytes(it.image))
    return tmp_path


def told(folder, *words):
    """What it prints of left.loop, with its status."""
    run = subprocess.run([sys.executable, INFO, "left.loop", *words], cwd=folder, text=True,
                         capture_output=True)
    return run.stdout.splitlines(), run.stderr, run.returncode


def test_several_stores_are_told_one_by_one_and_as_one_ring(several):
    lines, _, status = told(several)
    assert status == 0
    assert [it for it in lines if it.endswith(".loop")][:3] == [
        "left.000.loop", "left.001.loop", "left.002.loop"]
    assert [it for it in lines if it.startswith("next ")] == ["next 20", "next 12", "next 12"]
    assert lines[-3].startswith("all 3 stores, 16704 bytes: 34 to 36 frames once they are full")
    assert lines[-2].startswith("35 frames  1764182400.360 s to 1764182401.720 s")
    # The first store was written to twice, and the frames between are in the others.
    assert not [it for it in lines if it.startswith("hole")]
    assert lines[-1] == "removed next block 3 of left.000.loop"


def test_the_last_frames_are_in_the_stores_that_have_them(several):
    assert told(several, "last", "0.4")[0] == ["left.002.loop 9 11", "left.000.loop 12 19"]
    assert told(several, "at", "1764182400.4", "1764182400.5")[0] == [
        "left.000.loop 10 11", "left.001.loop 0 0"]
    assert told(several, "at", "1764182400.979")[0] == ["left.002.loop 0 0"]
    assert told(several, "at", "1", "2")[1:] == ("no such frame is held\n", 1)


def test_a_hole_in_time_is_one_of_all_stores(several):
    os.unlink(several / "left.001.loop")
    lines, _, _ = told(several)
    assert [it.split("  ")[0] for it in lines if it.startswith("hole")] == [
        "hole before 0 of left.002.loop"]


def test_what_is_removed_next_is_not_locked(several):
    it = layout.Ring(8, 6, b"GREY", 4, 3)
    for at in (*range(12), *range(36, 44)):
        it.time = DAY + (at - 1) * 40_000
        it.store()
    it.lock(9, 9, 0)
    (several / "left.000.loop").write_bytes(bytes(it.image))
    assert told(several)[0][-1] == "removed next block 0 of left.001.loop"
    asked = json.loads("\n".join(told(several, "--json")[0]))
    assert asked["goes"] == {"path": "left.001.loop", "block": 0}
    assert [it["next"] for it in asked["stores"]] == [20, 12, 12]


def test_a_file_that_is_no_store_is_named_and_the_others_are_told(several):
    (several / "left.001.loop").write_text("something else")
    lines, fault, status = told(several)
    assert (fault, status) == ("left.001.loop: refused 4 NotFormatted\n", 1)
    assert [it for it in lines if it.endswith(".loop")][:2] == ["left.000.loop", "left.002.loop"]
    assert told(several, "last", "0.04")[0] == ["left.000.loop 18 19"]
    run = subprocess.run([sys.executable, PICTURE, "left.loop"], cwd=several, text=True,
                         capture_output=True)
    assert (run.stderr, run.returncode, run.stdout.count(">next ")) == (fault, 1, 2)
    for name in ("left.000.loop", "left.002.loop"):
        (several / name).write_text("nor this")
    assert told(several)[0] == []
    assert told(several)[1].splitlines() == [
        f"left.00{it}.loop: refused 4 NotFormatted" for it in range(3)]


def test_stores_of_other_frames_are_no_ring(several):
    (several / "left.003.loop").write_bytes(bytes(layout.Ring(8, 8, b"GREY", 4, 3).image))
    assert told(several)[1:] == ("left.003.loop has other frames than left.000.loop\n", 1)


def test_a_picture_has_a_row_for_each_store(several):
    run = subprocess.run([sys.executable, PICTURE, "left.loop"], cwd=several, text=True,
                         capture_output=True)
    assert run.returncode == 0, run.stderr
    assert [run.stdout.count(f">next {it}<") for it in (20, 12)] == [1, 2]


def test_a_store_alone_is_told_as_ever(several):
    os.rename(several / "left.001.loop", several / "left.loop")
    lines, _, _ = told(several)
    assert lines[0].startswith("8x6 GREY 25:1") and lines[-1].startswith("removed next block 0")
    assert told(several, "last", "0.04")[0] == ["10 11"]
