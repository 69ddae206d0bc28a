"""Lines of the station, and sentences."""
import json
import re
from pathlib import Path

import pytest
from station_page import words

DOCS = Path(__file__).resolve().parent.parent.parent / "docs"
REFERENCE = (DOCS / "reference.md").read_text(encoding="utf-8")
ANSWERS = (DOCS / "answers.md").read_text(encoding="utf-8")
STATUS = {
    "kind": "status",
    "camera": "left",
    "stored": 191,
    "given_up": 2,
    "waiting": 3,
    "behind_micros": 449_000,
    "room": 12,
    "faults": 1,
    "source": "on",
}


def line_of(kind, **members):
    """A line of the station, read."""
    return words.read_line(
        json.dumps({"time": "2026-11-22T15:38:00.123Z", "kind": kind, "camera": "left"} | members)
    )


def test_a_line_is_read_with_and_without_a_label():
    kept = {
        "id": 0,
        "first": 93,
        "last": 217,
        "from": "2026-11-22T15:37:55.117Z",
        "to": "2026-11-22T15:38:00.077Z",
        "event": 1795361880123456,
    }
    found = line_of("kept", label="a-1", tag=7, **kept)
    assert (found.label, found.kind, found.camera, found["first"], found["tag"]) == (
        "a-1",
        "kept",
        "left",
        93,
        7,
    )
    assert (found["from"], found["to"]) == (1795361875117000, 1795361880077000)
    found = line_of("kept", **kept)
    assert (found.label, found["tag"]) == (None, None)
    assert words.read_line('{"label":"me","kind":"done"}') == words.Line("me", "done", {})


@pytest.mark.parametrize(
    "raw",
    [
        "",
        "2026-11-22T15:38:00.123Z kept left 0 93..217",
        "7",
        "null",
        "[]",
        "{}",
        '{"kind":7}',
        '{"kind":"done","label":7}',
        '{"kind":"all_locked"}',
        '{"kind":"all_locked","camera":7}',
        '{"kind":"behind","camera":"left","micros":"7"}',
        '{"kind":"behind","camera":"left","micros":-1}',
        '{"kind":"behind","camera":"left","micros":1.5}',
        '{"kind":"behind","camera":"left","micros":true}',
        '{"kind":"behind","camera":"left","micros":1e999}',
        '{"kind":"behind","camera":"left","micros":18446744073709551616}',
        '{"kind":"given_up","camera":"left","frames":1,"since":"yesterday"}',
        '{"kind":"given_up","camera":"left","frames":1,"since":"2026-11-22T15:38:00"}',
        '{"kind":"given_up","camera":"left","frames":1,"since":"1926-11-22T15:38:00Z"}',
        "[" * 5000,
        '{"kind":"behind","camera":"left","micros":' + "9" * 5000 + "}",
        '{"kind":"behind","camera":"left","mic',
    ],
)
def test_what_is_no_line_or_lacks_a_member_is_none(raw):
    assert words.read_line(raw) is None


def test_no_sign_of_a_text_does_something_to_a_terminal():
    found = line_of("not_saved", id=0, path="\x1b[31m\n\u202e", why="Exists")
    assert found["path"] == "\\x1b[31m\\n\\u202e"


def test_a_status_is_read():
    found = words.status_of(words.read_line(json.dumps(STATUS | {"keeps": 5})))
    assert found == words.Status(191, 2, 3, 0.4, 12, 5, 1, "on")
    assert words.status_of(words.read_line(json.dumps(STATUS))).keeps is None


def documented():
    """The kinds of lines, and the members of each, as docs/reference.md has them."""
    head = "| Kind, with what to do | Line | Members |\n|---|---|---|\n"
    table = REFERENCE.split(head)[1].split("\n\n")[0]
    found = {}
    for row in table.splitlines():
        kind, _, members = re.split(r" ?\| ", row.removeprefix("| ").removesuffix("|") + "| ", 2)
        found[re.search(r"`(\w+)`", kind)[1]] = set(re.findall(r"`(\w+)`", members))
    return found


def test_the_page_knows_each_kind_of_line_that_the_station_has_and_no_others():
    assert len(documented()) > 40
    assert set(words.MEMBERS) == set(documented())


@pytest.mark.parametrize("kind", sorted(words.MEMBERS))
def test_the_page_reads_no_member_that_a_kind_has_not(kind):
    assert {name.lstrip("?#~@") for name in words.MEMBERS[kind]} <= documented()[kind]


def test_each_reason_that_the_station_may_name_has_a_sentence():
    tables = ANSWERS.split("| WHY | What to do |\n|---|---|\n")[1:]
    named = {
        word
        for table in tables
        for row in table.split("\n\n")[0].splitlines()
        for word in re.findall(r"`(\w+)", row.split(" | ")[0])
    }
    assert {"Busy", "CannotWrite"} <= named and named <= set(words.WHY)
    unusable = ANSWERS.split("\n### Why a source can't be used\n")[1].split("\n## ")[0]
    unusable = set(re.findall(r"`([A-Z][a-z]\w+)`", unusable))
    assert "RateUnknown" in unusable and unusable <= set(words.WHY)


FRAMES = {"width": 320, "height": 240, "format": "GREY", "rate_num": 30, "rate_den": 1}
SINCE = {"since": "2026-11-22T15:38:00.123Z"}


@pytest.mark.parametrize(
    "line, members, kind, is_bad, said",
    [
        ("source_on", FRAMES, "source", False, "320x240 GREY 30:1"),
        ("source_missing", {}, "missing", True, "plugged in"),
        ("source_unusable", {"why": "RateUnknown"}, "unusable", True, "says no rate"),
        ("other_geometry", FRAMES, "other", True, "320x240 GREY 30:1"),
        (
            "source_on",
            {**FRAMES, "bits": 12},
            "source",
            False,
            "320x240 GREY 30:1, 12 bits a sample",
        ),
        ("times_back", {}, "times", True, "go back"),
        ("no_times", {}, "times", True, "says no times"),
        (
            "frames_gap",
            {"micros": 120_000, "at": "2026-11-22T15:38:00.123Z"},
            "gap",
            True,
            "0.1 s before 2026",
        ),
        ("store_open", {}, "open", False, "open"),
        (
            "store_open",
            {"held_micros": 30_800_000, "asked_micros": 300_000_000},
            "small",
            True,
            "30.8 s of 300.0 s",
        ),
        ("store_absent", {"why": "NoRoom"}, "absent", True, "disk is full"),
        ("store_absent", {"why": "TooManyFrames 10.9"}, "absent", True, "10.9 minutes fit"),
        ("store_absent", {"why": "NoStore"}, "absent", True, "plugged in"),
        ("store_absent", {"why": "Whatever"}, "absent", True, "Whatever"),
        ("given_up", {"frames": 12, **SINCE}, "given up", True, "12 of them"),
        ("all_locked", {}, "locked", True, "Release"),
        ("nearly_all_locked", {}, "nearly locked", True, "Release"),
        ("room_again", {}, "room", False, "room"),
        ("behind", {"micros": 1_449_000}, "behind", True, "1.4 s"),
        ("caught_up", {}, "caught up", False, "wait"),
        (
            "waited",
            {"micros": 3_200_000, **SINCE},
            "waited",
            True,
            "3.2 s since 2026-11-22T15:38:00.123000Z",
        ),
        (
            "too_slow",
            {"micros": 250_000, "frames_a_second": 16},
            "too slow",
            True,
            "16 frames a second",
        ),
        ("not_a_store", {"path": "left.loop"}, "not a store", True, "left.loop isn't a store"),
        (
            "saved",
            {"id": 3, "path": "a b.y4m", "frames": 125},
            "saved",
            False,
            "clip 3 was saved as a b.y4m, 125",
        ),
        (
            "not_saved",
            {"id": 3, "path": "a b.y4m", "why": "CannotWrite"},
            "not saved",
            True,
            "a b.y4m: the disk is full",
        ),
        (
            "save_waits",
            {"id": 3, "path": "a b.y4m", "why": "MissingFolder"},
            "save waits",
            True,
            "folder isn't there",
        ),
        ("released", {"id": 3}, "released", False, "clip 3"),
        ("event_whole", {"event": 1795361880123456}, "whole", False, "2026-11-22T15:38:00.123456Z"),
        (
            "event_not_whole",
            {"event": 1795361880123456, "why": "Gaps"},
            "not whole",
            True,
            "frames of that time are missing",
        ),
    ],
)
def test_each_event_has_a_sentence(line, members, kind, is_bad, said):
    event = words.event_of(line_of(line, **members))
    assert (event.kind, event.camera, event.is_bad) == (kind, "left", is_bad) and said in event.text


@pytest.mark.parametrize(
    "line, members, said",
    [
        ("stood_still", {"micros": 3_200_000, **SINCE}, "3.2 s since"),
        ("dropped_lines", {"lines": 7}, "7 lines"),
    ],
)
def test_what_concerns_no_camera_is_told_of_none(line, members, said):
    event = words.event_of(line_of(line, **members))
    assert event.camera is None and event.is_bad and said in event.text


@pytest.mark.parametrize("kind", ["stopped", "done", "a_kind_that_nobody_knows", "source_silent"])
def test_other_lines_are_no_events(kind):
    assert words.event_of(line_of(kind)) is None
