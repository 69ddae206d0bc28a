"""Keeping: what the page asks of the station, and what it says became of it."""
import json
import os
import signal
import threading
import time

import pytest


def test_a_keep_of_all_cameras_is_answered_with_its_times(make):
    lab = make()
    lab.filmed(150).filmed(75, "right")
    found = lab.post("/api/keep", {"seconds": 1, "note": "a  note\nof two lines"})
    assert found.status == 200
    answers = found.json()["answers"]
    assert [it["camera"] for it in answers] == ["left", "right"] and found.json()["kept"]
    clip = answers[0]["clips"][0]
    assert (
        clip["to_us"] - clip["from_us"] == (clip["last"] - clip["first"]) * 10000
        and 98 <= clip["last"] - clip["first"] + 1 <= 102
    )
    assert {it["note"] for it in lab.ask("/api/clips").json()["clips"]} == {"a note of two lines"}
    notes = json.loads((lab.folder / "loop_page.notes").read_text())["notes"]
    assert sorted(notes.values()) == ["a note of two lines"] * 2


def test_a_range_is_kept_as_its_times_say(make):
    lab = make()
    lab.filmed(60)
    newest = lab.camera()["newest"]
    begin, end = newest[1] - 40 * 10000, newest[1] - 20 * 10000
    clip = lab.post("/api/keep", {"camera": "left", "from": begin, "to": end}).json()["answers"][0][
        "clips"
    ][0]
    assert (clip["from_us"], clip["to_us"], clip["last"] - clip["first"]) == (begin, end, 20)
    again = lab.post(
        "/api/keep", {"camera": "left", "from": clip["from"], "to": clip["from"]}
    ).json()["answers"][0]["clips"][0]
    assert again["first"] == again["last"] == clip["first"]


def test_a_note_is_changed_and_stays_with_its_clip_alone(make):
    lab = make()
    clip = lab.filmed().keep()
    body = {"camera": "left", "id": clip["id"], "first": clip["first"], "note": "other"}
    assert lab.post("/api/note", body).status == 200
    assert lab.ask("/api/clips").json()["clips"][0]["note"] == "other"
    assert lab.post("/api/note", body | {"first": 999999}).status == 404
    assert lab.post("/api/note", body | {"note": "x" * 501}).status == 507
    assert (
        lab.post(
            "/api/release", {"camera": "left", "id": clip["id"], "first": clip["first"]}
        ).status
        == 200
    )
    lab.filmed(lab.camera()["newest"][0] + 30)
    lab.keep()
    assert lab.ask("/api/clips").json()["clips"][0]["note"] == ""


def test_notes_outlive_the_page(make):
    lab = make()
    lab.filmed().keep(note="stays")
    lab.end(lab.page, signal.SIGTERM)
    lab.start_page()
    lab.until(lambda: lab.ask("/api/clips").json()["clips"], "clips")
    assert lab.ask("/api/clips").json()["clips"][0]["note"] == "stays"


def test_a_keep_is_answered_within_a_second(make):
    """One of many: a machine that is busy with others takes longer now and then."""
    lab = make()
    lab.filmed()

    def is_soon():
        start = time.monotonic()
        clip = lab.keep()
        took = time.monotonic() - start
        body = {"camera": "left", "id": clip["id"], "first": clip["first"]}
        assert lab.post("/api/release", body).status == 200
        return took < 1

    lab.until(is_soon, "keep that is answered within a second")


def test_a_file_of_notes_that_cannot_be_read_is_left_as_it_is(make):
    lab = make(page=False)
    (lab.folder / "loop_page.notes").write_text("{ damaged")
    lab.start_page().filmed()
    found = lab.post("/api/keep", {"seconds": 1, "note": "x"})
    assert found.status == 200 and "Move it away" in found.json()["answers"][0]["text"]
    assert (lab.folder / "loop_page.notes").read_text() == "{ damaged"


@pytest.mark.parametrize(
    "body, said",
    [
        ({"seconds": 0}, "from 1 to"),
        ({"seconds": 10**30}, "from 1 to"),
        ({"seconds": "60"}, "from 1 to"),
        ({"seconds": True}, "from 1 to"),
        ({"seconds": 1.5}, "from 1 to"),
        ({}, "from 1 to"),
        ({"camera": "left"}, "from 1 to"),
        ({"seconds": 1, "more": 1}, "these words"),
        ({"from": 5, "to": 4}, "after"),
        ({"from": 5}, "to isn't a time"),
        ({"from": "x", "to": "y"}, "isn't a time"),
        ({"from": -1, "to": 4}, "isn't a time"),
        ({"from": "2026-13-45T99:00:00Z", "to": 4}, "isn't a time"),
        ({"from": 1, "to": 2, "seconds": 1}, "seconds, or"),
        ({"seconds": 1, "note": 7}, "text"),
    ],
)
def test_a_keep_that_says_too_little_or_nonsense_is_refused(shared, body, said):
    found = shared.post("/api/keep", body)
    assert found.status == 400 and said in found.json()["error"]


@pytest.mark.parametrize("camera", ["none", "", "../left", "left\n keep", 7, ["left"], {}])
def test_only_a_camera_that_is_there_is_kept(shared, camera):
    assert shared.post("/api/keep", {"camera": camera, "seconds": 1}).status == 404


def test_what_the_station_refuses_is_said_with_what_to_do(make):
    lab = make()
    lab.filmed()
    lab.order(*["keep left 1"] * 64)
    lab.until(lambda: len(lab.camera()["clips"]) == 64, "64 clips")
    found = lab.post("/api/keep", {"camera": "left", "seconds": 1})
    assert (
        found.status == 409
        and "64 clips are kept already. Release one" in found.json()["answers"][0]["text"]
    )


def test_a_keep_of_no_frame_says_so(make):
    lab = make()
    lab.filmed()
    found = lab.post("/api/keep", {"camera": "left", "from": 1, "to": 2})
    assert (
        found.status == 409
        and "no stored frame is of that time" in found.json()["answers"][0]["text"]
    )


def test_without_a_station_a_keep_says_that_it_does_not_run(make):
    lab = make(station=False)
    found = lab.post("/api/keep", {"seconds": 1})
    assert found.status == 503 and "doesn't run" in found.json()["error"]
    assert "doesn't run" in lab.status()["station"][1]


def test_a_station_that_dies_and_comes_back_is_seen_and_asked_again(make):
    lab = make()
    lab.filmed()
    lab.end(lab.station)
    lab.until(lambda: lab.status()["station"][0] == "bad", "a station that is gone")
    assert any("station has ended" in it["text"] for it in lab.status()["alerts"])
    assert lab.post("/api/keep", {"seconds": 1}).status == 503
    lab.start_station()
    lab.until(lambda: lab.status()["station"][0] == "good", "the station again")
    lab.until(
        lambda: lab.post("/api/keep", {"camera": "left", "seconds": 1}).status == 200, "a keep"
    )


def test_a_station_that_never_answers_is_said_to(make):
    lab = make(page=False).start_limited(CHANGE_SECONDS=2).filmed()
    lab.order_done("!mute")
    found = lab.post("/api/keep", {"seconds": 1})
    assert found.status == 503 and "hasn't answered within 2 seconds" in found.json()["error"]


def test_a_station_that_ends_before_it_answers_is_said_to_at_once(make):
    lab = make()
    lab.filmed()
    lab.order_done("!mute")

    def end():
        """Once it has the order."""
        lab.until(lambda: any(line.startswith("keep") for line in lab.ordered()), "the order")
        lab.end(lab.station)

    thread = threading.Thread(target=end)
    thread.start()
    found = lab.post("/api/keep", {"seconds": 1})
    thread.join()
    # Long before it would have waited long enough.
    assert found.status == 503 and "ended before it answered" in found.json()["error"]


def test_answers_may_be_a_file_that_grows_and_is_cut(make):
    lab = make(answers="file")
    lab.filmed().keep()
    os.truncate(lab.folder / "answers", 0)
    lab.keep()
    os.rename(lab.folder / "answers", lab.folder / "old")
    lab.keep()
    assert len(lab.ask("/api/clips").json()["clips"]) == 3


def test_without_answers_a_keep_is_seen_in_the_store(make):
    lab = make(answers=None)
    lab.filmed()
    assert "no `answers`" in lab.status()["station"][1]
    clip = lab.keep()
    assert clip["last"] >= clip["first"]
    assert (
        lab.post(
            "/api/release", {"camera": "left", "id": clip["id"], "first": clip["first"]}
        ).status
        == 200
    )


def test_answers_as_text_are_not_read_and_that_is_said(make):
    lab = make(form=None)
    lab.filmed()
    level, text = lab.status()["station"]
    assert level == "warn" and 'answers_form = "json"' in text
    clip = lab.keep()
    assert clip["last"] >= clip["first"] and lab.alerts() == []


def test_without_orders_the_page_shows_and_says_that_it_cannot_keep(make):
    lab = make(orders=False, station=False)
    found = lab.post("/api/keep", {"seconds": 1})
    assert found.status == 503 and "no `orders`" in found.json()["error"]


def test_many_keeps_at_once_each_have_their_own_answer(make):
    from concurrent.futures import ThreadPoolExecutor

    lab = make()
    lab.filmed()
    with ThreadPoolExecutor(12) as pool:
        found = list(pool.map(lambda _: lab.keep()["id"], range(24)))
    assert sorted(found) == list(range(24))


def test_a_keep_of_which_a_part_was_refused_says_both():
    from test_right import kept_line, laboratory_of
    from station_page.words import read_line

    said = [
        {"kind": "refused", "camera": "left", "number": 11, "name": "ClipTableFull"},
        {"kind": "absent", "camera": "right", "why": "NoStore"},
        {"kind": "kept_none", "camera": "other", "event": 5},
        {"kind": "no_camera", "camera": "x"},
        {"kind": "bad_order", "line": "keep"},
    ]
    lines = [
        kept_line("left", 0, 1, 5),
        kept_line("left", 1, 9, 9, tag=3),
        *(read_line(json.dumps(it)) for it in said),
    ]
    found = laboratory_of().kept_of(lines)
    assert [it.is_kept for it in found] == [True] + [False] * 5 and [
        clip.count() for clip in found[0].clips
    ] == [5, 1]
    texts = [it.sentence() for it in found]
    assert (
        "left: a part was kept" in texts[1]
        and "plugged in" in texts[2]
        and "no stored frame" in texts[3]
    )
    assert "no camera of that name" in texts[4] and "bad_order" in texts[5] and "keep" in texts[5]
