"""The judge of vivid_check, over a device that stands in: it passes the true loop_camera, and finds
each form of it that is wrong, but those that only the guest shows."""
import importlib.machinery
import importlib.util
import os
import subprocess
import sys
from pathlib import Path

import pytest
from conftest import TOP

HERE = Path(__file__).resolve().parent
# They want a reader that stands still, a device that becomes another, a driver, and a station.
IN_THE_GUEST = ("slow", "unplugged", "webcam", "station")
# What tells most of all formats.
WORDS = "GREY Y12 YUYV UYVY NV12 NV21 YU12 YV12 422P RG10 RGB3 NM12 YM24".split()


def check_of(name):
    """A check, as a module."""
    sys.path[1:1] = [str(TOP / "tests/checks"), str(TOP / "tools")]
    loader = importlib.machinery.SourceFileLoader(name, str(TOP / "tests/checks" / name))
    spec = importlib.util.spec_from_loader(name, loader)
    found = importlib.util.module_from_spec(spec)
    loader.exec_module(found)
    return found


CHECK = check_of("vivid_check")


def filmed(folder, change=None):
    """What a form of loop_camera leaves."""
    CHECK.copied(folder / "form", change)
    environment = dict(os.environ, LOOP_CAMERA=str(folder / "form/python/camera/loop_camera"))
    words = [sys.executable, "-B", HERE / "witnessed.py", folder / "left", *WORDS]
    subprocess.run(words, env=environment, check=True)
    return folder / "left"


def test_the_true_form_passes(tmp_path):
    left = filmed(tmp_path)
    assert CHECK.judge_formats(left, {"video0": WORDS}).startswith(f"{len(WORDS)} formats")
    assert CHECK.judge_numbers(left, None) == "35 frames; 3 lost and 2 faulty ones are counted"


@pytest.mark.parametrize(
    "name", [name for name, it in CHECK.WRONG.items() if it[3] not in IN_THE_GUEST]
)
def test_a_wrong_form_is_found(tmp_path, name):
    *_, step, says = CHECK.WRONG[name]
    left = filmed(tmp_path, CHECK.WRONG[name])
    with pytest.raises(CHECK.Found, match=says):
        CHECK.JUDGES[step](left, {"video0": WORDS})


def test_times_of_arrival_are_found(tmp_path):
    left = filmed(tmp_path, CHECK.WRONG["times of arrival"])
    with pytest.raises(CHECK.Found, match="and the kernel's is"):
        CHECK.judge_numbers(left, None)


STANDS = (
    "status left stored 139 given up 0 waiting 0 behind 0.0 s room 1 of 2 faults 0 source ended "
    "gaps 0 lost 1 estimated 0 clock +0.0 s full stop\n"
)
KEPT = "kept left 0 0..138 from 2026-12-01T00:00:00.000Z to 2026-12-01T00:00:14.000Z event 1"


def test_a_station_that_tells_a_lost_frame_passes():
    CHECK.tells_lost(STANDS + KEPT + " lost 1\n", 1)


@pytest.mark.parametrize(
    "told,says",
    [
        ("", "tells no 'status left"),
        (STANDS, "tells no 'kept left"),
        (STANDS + KEPT + "\n", "tells no 'kept left"),
        (STANDS + KEPT + " lost 2\n", "tells no 'kept left"),
        (STANDS.replace("lost 1", "lost 0") + KEPT + " lost 1\n", "tells no 'status left"),
        (STANDS.replace("estimated 0", "estimated 1") + KEPT + " lost 1\n", "no 'status left"),
        (STANDS + KEPT + " lost 1\nnumbers of left began anew\n", "that began anew"),
    ],
)
def test_a_station_that_tells_it_wrongly_is_found(told, says):
    with pytest.raises(CHECK.Found, match=says):
        CHECK.tells_lost(told, 1)
