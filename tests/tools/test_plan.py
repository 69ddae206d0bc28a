"""What store_info --plan says a station makes of so much room."""
import os
import subprocess
import sys
from fractions import Fraction

import pytest
from lapyrei import plan

INFO = os.path.join(os.path.dirname(__file__), "../../tools/store_info")
# Frames and room, and the stores, segments and slots that a station made of them.
MADE = [
    ("64x48 GREY 8 25 4min", 1, 25, 256),
    ("64x48 GREY 8 25 1min", 1, 25, 64),
    ("200x200 GREY 8 25 90s", 1, 19, 128),
    ("64x48 GREY 8 25 20MB", 1, 25, 256),
    ("640x480 YM12 8 25 40MB", 1, 2, 43),
    ("640x480 YM12 8 25 100MB", 1, 3, 64),
    ("640x480 YM12 8 25 10s", 1, 5, 64),
    ("64x48 YM24 8 30 30min", 4, 64, 212),
    ("64x48 GREY 8 25 100MB", 2, 64, 251),
    ("32x16 GREY 8 100 10min", 4, 64, 236),
    ("8x8 GREY 8 25 3000kB", 2, 64, 238),
]
# The same of what is too large to be made here, worked out by the rule.
MADE += [
    ("640x480 YM12 8 25 5min", 1, 64, 120),
    ("640x480 YM12 8 25 12h", 66, 64, 256),
    ("640x480 YM12 8 25 1GB", 1, 33, 64),
    ("640x480 YM12 8 25 7000MB", 1, 64, 237),
    ("640x480 YM12 8 25 20GB", 3, 64, 226),
    ("1920x1080 GREY 16 100 2TB", 30, 64, 251),
    ("640x480 YM12 8 25 2TB", 256, 64, 256),
]


def told(*words):
    """What it prints, or says on standard error, with its status."""
    done = subprocess.run([sys.executable, INFO, "--plan", *words], capture_output=True, text=True)
    return done.returncode, done.stdout + done.stderr


@pytest.mark.parametrize("words, stores, segments, slots", MADE)
def test_stores_are_as_many_and_as_large_as_a_station_makes_them(words, stores, segments, slots):
    found = plan.planned(*words.split())
    assert (found.stores, found.geometry.segments, found.geometry.slots) == \
        (stores, segments, slots)


@pytest.mark.parametrize("words", [it[0] for it in MADE])
def test_they_take_what_is_there_or_hold_what_is_asked(words):
    found, (room, seconds) = plan.planned(*words.split()), plan.room_in(words.split()[-1])
    if room is not None:
        assert found.bytes <= room
    else:
        assert found.seconds >= seconds - Fraction(1, 25)


def test_a_disk_of_two_terabytes_lasts_so_long():
    hours = [plan.planned(size, "YM12", "8", "25", "2TB").seconds / 3600
             for size in ("640x480", "1920x1080", "3840x2160")]
    assert [f"{it:.2g}" for it in hours] == ["47", "7.1", "1.8"]


def test_it_says_frames_time_and_stores():
    assert told("1920x1080", "GREY", "16", "100", "2TB") == (0, (
        "1920x1080 GREY of 16 bits, 100 frames a second: 4,147,200 bytes a frame, 414.7 MB a"
        " second\n"
        "holds the newest 481,670 frames: 80.3 min\n"
        "30 stores of 64 segments of 251 slots: 2.00 TB\n"))


@pytest.mark.parametrize("words, says", [
    ("640x480 RGB 8 25 2TB", "GREY, YM12"),
    ("640x480 YM12 7 25 2TB", "8 to 16"),
    ("640x480 YM12 8 0 2TB", "at least 1"),
    ("640x480 YM12 8 25:0 2TB", "at least 1"),
    ("640x480 YM12 8 25 2XB", "room is"),
    ("9000x9000 GREY 8 25 2TB", "81,000,000 bytes"),
    ("640x480 YM12 8 25 1MB", None),
    ("640x480 YM12 8 25 0.4MB", "less than two"),
    ("640x480 YM12 8 25 47h", "256 stores"),
])
def test_what_no_station_makes_is_refused_in_a_sentence(words, says):
    status, text = told(*words.split())
    assert (status, "\n" in text.strip()) == ((1, False) if says else (0, True))
    assert says is None or says in text


def test_other_words_are_answered_by_its_text():
    assert told("640x480")[0] == 2
