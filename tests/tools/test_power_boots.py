"""The judge of what a loss of power leaves of several stores (tests/checks/power_boots.py) finds
what may not be left."""
import sys
from pathlib import Path

import pytest

TOP = Path(__file__).resolve().parents[2]
sys.path[1:1] = [str(TOP / "tools"), str(TOP / "tests/checks")]
import layout
from power_boots import EVENTS, GEOMETRY, PATHS, SLOTS, Clip, Seen, begun
from stores import Violation

EVENT = 1796120010213592
LINE = f"{EVENT} {EVENT} {EVENT + 9} {EVENT}\n".encode()
LOCKED = Clip(1, 2, EVENT, frozenset({1, 2}))


def left(*changes, events=b""):
    """A store of the frames 0 to 3, of which 1 and 2 are locked, with changes."""
    files, owed = begun()
    image = bytearray(files[PATHS[0]])
    for at, data in [(layout.entry_at(0), layout.entry(1, 2, EVENT)), *changes]:
        image[at:at + len(data)] = data
    return {PATHS[0]: bytes(image), EVENTS: events}, owed


def finds(what, files, owed):
    with pytest.raises(Violation, match=what):
        owed.judge(files)


def test_what_was_told_is_there():
    files, owed = left(events=LINE)
    owed.stored, owed.locked = {0, 1, 2, 3}, [(0, EVENT, LOCKED.names)]
    owed.open, owed.noted = {EVENT}, {EVENT}
    owed.judge(files)


def test_a_lost_frame_is_found():
    files, owed = left((layout.entry_at(0), b"\0"), (GEOMETRY.segment_at(0), b"\0"))
    owed.stored = {3}
    finds(r"frames \[3\] were told as stored", files, owed)


def test_a_lost_lock_is_found():
    files, owed = left((layout.entry_at(0), b"\0"))
    owed.locked = [(0, EVENT, LOCKED.names)]
    finds("clip 0 was told as kept", files, owed)


def test_a_clip_that_comes_back_is_found():
    files, owed = left()
    owed.released = {(0, LOCKED)}
    finds("told as released", files, owed)


def test_an_event_that_is_forgotten_or_comes_back_is_found():
    files, owed = left()
    owed.open = owed.noted = {EVENT}
    finds("aren't noted", files, owed)
    files, owed = left(events=LINE)
    owed.over = {EVENT}
    finds("told as over, and are noted", files, owed)


def test_other_sequences_and_pixels_are_found():
    at = GEOMETRY.slot_at(0, 2)
    finds("other sequences", *left((at + 8, b"\1")))
    finds("isn't whole", *left((at + layout.HEAD + 9, b"\1")))


def test_the_oldest_block_goes_that_no_clip_meets_but_no_stores_newest():
    seen = Seen({})
    for store, blocks in enumerate(([0, 3, 5], [1, 2, 4])):
        for block, number in enumerate(blocks):
            seen.blocks[store, block] = [number * SLOTS + it for it in range(SLOTS)]
    seen.clips[0, 0] = Clip(0, 0, EVENT, frozenset({1}))
    assert [it[0] // SLOTS for it in seen.may_go()] == [1, 2, 3]
