"""Frames that were lost are told: of a camera, of an event, where, and in files; also where the
station is one of before, that tells of none. Clocks that are off, and rings that are full."""
import io
import json
import random
import zipfile
from types import SimpleNamespace

import pytest
from lapyrei import answers, layout, losses
from station_page import spans, words
from station_page.events import events_of
from station_page.heard import Heard, Part
from station_page.reader import Clip, Run
from station_page.standing import clock_text
from test_trouble import standing_of, status_of
from test_words import STATUS, line_of

SECOND = 1_000_000
STAMP = "2026-11-22T15:38:00.000Z"


# ------------------------------------------------------------------------------- by the sequence


def frames_of(sequences, numbers=None):
    """Frames of a store, 40 ms apart."""
    numbers = numbers or range(len(sequences))
    return [layout.Frame(n, it % 2**32, 0, n * 40_000, 6) for n, it in zip(numbers, sequences)]


@pytest.mark.parametrize("seed", range(40))
def test_each_hole_is_found_and_no_other(seed):
    luck = random.Random(seed)
    first, steps = luck.randrange(2**32), []
    for _ in range(luck.randrange(1, 200)):
        steps.append(luck.choice((0, 0, 0, luck.randrange(9), luck.randrange(70_000))))
    sequences = [first + place + sum(steps[:place]) for place in range(len(steps) + 1)]
    # Frames that the ring has removed aren't lost.
    numbers, at = [], 0
    for _ in sequences:
        numbers.append(at)
        at += 1
    gone = luck.randrange(1000)
    cut = luck.randrange(len(sequences))
    numbers = [it + gone * (place >= cut) for place, it in enumerate(numbers)]
    sequences = [it + gone * (place >= cut) for place, it in enumerate(sequences)]
    frames = frames_of(sequences, numbers)
    found = losses.holes_in(frames, 0, len(frames) - 1)
    wanted = [
        (numbers[place], numbers[place + 1], lost) for place, lost in enumerate(steps) if lost
    ]
    assert [(it.after, it.before, it.lost) for it in found] == wanted
    assert all((it.since, it.until) == (it.after * 40_000, it.before * 40_000) for it in found)


def test_a_count_that_begins_anew_says_nothing_and_what_stands_beside_it_is_found():
    frames = frames_of([7, 8, 10, 0, 1, 4])
    found = losses.holes_in(frames, 0, 5)
    assert [(it.after, it.lost) for it in found] == [(1, 1), (4, 2)]
    assert losses.lost_between((2**32 - 1, 1), (5, 6)) == 1
    assert losses.lost_between((9, 3), (5, 6)) is None
    assert losses.lost_at_turn(9, 12) == 2 and losses.lost_at_turn(9, 3) == 0
    assert losses.lost_at_turn(2**32 - 1, 0) == 0


def test_where_nothing_is_lost_nothing_is_looked_at():
    looked, frames = [], frames_of(range(5_000))

    class Seen(list):
        def __getitem__(self, place):
            looked.append(place)
            return super().__getitem__(place)

    assert losses.holes_in(Seen(frames), 0, 4_999) == [] and len(looked) == 2
    assert losses.holes_in([], 0, -1) == losses.holes_in(frames, 3, 3) == []


def clip_of(id_, first, last, sequences, lost=0, store=None):
    """A clip of an event, as `Held.clips` has it."""
    run = Run(first * 40_000, last * 40_000, sequences, (first, last), lost, store)
    found = {"camera": "left", "id": id_, "first": first, "last": last, "from_us": run.since}
    found |= {"to_us": run.until, "frames": last - first + 1, "order_tag": 0, "tag": 0, "note": ""}
    found |= {"event": 10**15, "seconds": 1.0, "bytes": 1, "fetched": False, "lost": lost}
    return found | {"runs": (run,)}


def test_what_is_lost_between_the_clips_of_an_event_is_lost_too():
    """In one store by the numbers; between two stores one after the other."""
    clips = [clip_of(0, 0, 9, (0, 9)), clip_of(1, 20, 29, (23, 33), 1)]
    assert events_of(clips)[0]["lost"] == 3 + 1
    assert [it["lost"] for it in events_of(clips)[0]["clips"]] == [0, 1]
    # Times go on from store to store, and numbers don't.
    clips = [clip_of(0, 0, 9, (0, 9), store=0), clip_of(64, 20, 29, (12, 21), store=1)]
    assert events_of(clips)[0]["lost"] == 2
    # A clip that grew, and the longer one.
    clips = [clip_of(0, 0, 9, (0, 10), 1), clip_of(1, 0, 19, (0, 20), 1)]
    assert events_of(clips)[0]["lost"] == 1


def test_what_the_station_has_told_of_lost_frames_is_no_less():
    heard = Heard()
    heard.take(line_of("given_up", frames=5, since="1970-01-01T00:00:00.100Z"))
    assert events_of([clip_of(0, 0, 9, (0, 9))], heard)[0]["lost"] == 5
    assert Clip(0, 0, 9, 0, 1, 2).lost() == 0


# ---------------------------------------------------------------------------------- what is told


def test_lines_with_what_was_lost_are_read_and_those_of_before_too():
    span = {"from": STAMP, "to": STAMP}
    kept = {"id": 0, "first": 0, "last": 9, "event": 10**15} | span
    assert line_of("kept", lost=3, **kept)["lost"] == 3
    assert line_of("kept", **kept)["lost"] is None
    whole = {"lost": 9, "estimated": 2, "clock_micros": -1_900_000, "blocks": 63}
    found = words.status_of(words.read_line(json.dumps(STATUS | whole | {"when_full": "stop"})))
    assert (found.lost, found.estimated, found.clock, found.blocks, found.full) == (
        9, 2, -1_900_000, 63, "stop"
    )
    assert words.status_of(words.read_line(json.dumps(STATUS))).lost is None
    rule = {"when_full": "release oldest", "full_tag": 9}
    found = words.status_of(words.read_line(json.dumps(STATUS | rule)))
    assert found.full == "release oldest tag 9"
    for value in (-(2**63) - 1, 2**64, True, 1.5, "7"):
        assert words.read_line(json.dumps(STATUS | {"clock_micros": value})) is None


def test_a_hold_with_lost_frames_alone_is_no_time_that_is_lacking():
    heard, event = Heard(), {"event": 10**15}
    held = {"held_micros": 60 * SECOND - 40_000, "asked_micros": 60 * SECOND}
    heard.take(line_of("held", lost=1, **held, **event))
    heard.take(line_of("gap", micros=80_000, at=STAMP, lost=1, **event))
    heard.take(line_of("event_not_whole", why="Gaps", lost=1, **event))
    part = heard.told(10**15).part("left")
    assert not part.is_short() and not part.gaps
    assert spans.told(part) == "1 frame of it was lost."
    clips = [clip_of(0, 0, 9, (0, 9))]
    assert events_of(clips, heard)[0]["lacks"] == [] and events_of(clips, heard)[0]["lost"] == 1
    # Of a station of before, and where a second is missing too.
    assert spans.told(Part(5 * SECOND, 6 * SECOND)) == "That is 5.0 s of 6.0 s."
    both = Part(5 * SECOND, 6 * SECOND, [(0, SECOND)], lost=25)
    assert spans.told(both) == (
        "That is 5.0 s of 6.0 s: no frames are held from 00:00:00.0Z to 00:00:01.0Z. "
        "25 frames of it were lost."
    )


def stands(**more):
    """How a camera stands by what the station says."""
    return SimpleNamespace(**vars(status_of(3)) | more)


def test_a_clock_that_is_off_by_more_than_a_second_is_told():
    found = standing_of(status=stands(clock=1_900_000))
    assert (found["level"], found["kind"], found["short"]) == ("warn", "clock", "clock +1.9 s")
    assert "1.9 s ahead of" in found["state"] and found["clock_us"] == 1_900_000
    assert standing_of(status=stands(clock=-3_600_000_000))["short"] == "clock -3600.0 s"
    assert "60 min 0 s behind" in clock_text(-3_600_000_000)
    for clock in (None, 0, 1_000_000, -1_000_000):
        assert standing_of(status=stands(clock=clock))["kind"] == "good"


def test_what_comes_where_all_is_locked_is_told_before_it_does():
    full = {"is_all_locked": lambda: True}
    for rule, level in (("stop", "bad"), (None, "bad"), ("release saved", "warn")):
        found = standing_of(status=stands(full=rule), **full)
        assert (found["level"], found["short"], found["full"]) == (level, "all locked", rule)
    found = standing_of(status=stands(full="release oldest tag 9"), **full)
    assert "the oldest event is released, saved or not, of tag 9" in found["state"]
    # What has stopped has stopped, whatever the rule.
    stopped = standing_of(silent=11.0, status=stands(full="release saved"), **full)
    assert (stopped["level"], stopped["kind"]) == ("bad", "locked")
    event = words.event_of(line_of("released", id=3, why="full"))
    assert event.is_bad and "when_full" in event.text and event.kind == "released full"
    assert not words.event_of(line_of("released", id=3)).is_bad


# ------------------------------------------------------------------------------------ on a page


@pytest.fixture(params=[True, False])
def lossy(make, request):
    """A laboratory whose left camera has lost 3 frames, then 2; and whether its station is one that
    tells of it."""
    lab = make(tells_lost=request.param)
    lab.filmed(30)
    lab.order_done("!lose left 3")
    # Some frames come before the next ones are lost: by the store, since the page may be behind.
    last = lab.stored()[-1].number
    lab.until(lambda: lab.stored()[-1].number > last + 20, "frames")
    lab.order_done("!lose left 2")
    lab.until(lambda: sum(it[2] for it in lab.camera()["holes"]) == 5, "holes")
    count = lab.camera()["frames"]
    lab.until(lambda: lab.camera()["frames"] > count + 20, "frames")
    return lab, request.param


def test_what_was_lost_is_told_of_events_cameras_files_and_numbers(lossy):
    lab, tells = lossy
    found = lab.post("/api/keep", {"camera": "left", "seconds": 600}).json()["answers"][0]
    assert found["kept"] and found["lost"] == 5 * tells
    assert ("5 frames of it were lost." in found["text"]) == tells
    (event,) = lab.ask("/api/events?lost=1").json()["events"]
    answers.EVENT(event)
    assert event["lost"] == 5 == sum(it["lost"] for it in event["clips"])
    (clip,) = lab.ask("/api/clips").json()["clips"]
    answers.CLIP(clip)
    assert clip["lost"] == 5 and "runs" not in clip
    camera = lab.polled().camera()
    answers.CAMERA_STANDING(camera)
    assert camera["lost"] == (5 if tells else None)
    assert [it[2] for it in camera["holes"]] == [3, 2]
    metrics = lab.ask("/metrics").body.decode()
    assert ('loop_camera_lost_total{camera="left"} 5.0' in metrics) == tells
    path = f"/api/event.zip?clips=left.{clip['id']}.{clip['first']}&what=csv"
    with zipfile.ZipFile(io.BytesIO(lab.ask(path).body)) as archive:
        (name,) = [it for it in archive.namelist() if it.endswith("_holes.csv")]
        rows = archive.read(name).decode().splitlines()
        assert rows[0].startswith("after,before,") and [it[-2:] for it in rows[1:]] == [",3", ",2"]
        text = archive.read(next(it for it in archive.namelist() if "event.txt" in it)).decode()
        assert ", 5 lost" in text
    whole = lab.post("/api/keep", {"camera": "right", "seconds": 1}).json()["answers"][0]
    assert whole["lost"] == 0
    assert len(lab.ask("/api/events?lost=1").json()["events"]) == 1


def test_cameras_come_go_and_change_once_the_station_has_read_its_file_again(make):
    lab = make(tells_lost=True).filmed().filmed(30, "right")
    path = lab.folder / "station.toml"
    text = path.read_text()
    head, left, right = text.split("[[camera]]")
    top = left.replace('"left', '"top')
    path.write_text("[[camera]]".join([head, left + "keep = 7\n", top]))
    lab.polled()
    # The file alone changes nothing.
    assert [it["name"] for it in lab.status()["cameras"]] == ["left", "right"]
    lab.order("reload")
    lab.until(
        lambda: [(it["name"], it["keep"]) for it in lab.status()["cameras"]]
        == [("left", 7), ("top", 60)],
        "cameras",
    )
    lab.filmed(30, "top")
    assert lab.ask("/api/cameras/right/newest.jpg").status == 404
    found = lab.post("/api/keep", {"seconds": 1}).json()["answers"]
    assert sorted(it["camera"] for it in found if it["kept"]) == ["left", "top"]


@pytest.mark.parametrize("how", ["stop", "kill"])
def test_a_camera_that_stays_is_as_the_file_says_once_the_station_has_begun_anew(make, how):
    lab = make(tells_lost=True).filmed()
    path = lab.folder / "station.toml"
    head, left, right = path.read_text().split("[[camera]]")
    path.write_text("[[camera]]".join([head, left + "keep = 7\n", right]))
    lab.polled()
    assert lab.camera()["keep"] == 60
    if how == "stop":
        # At once after the old one: the page may not see that there was none.
        lab.order("stop")
        lab.station.wait()
    else:
        lab.end(lab.station)
        lab.until(lambda: lab.status()["station"][0] == "bad", "the end")
    lab.start_station()
    lab.until(lambda: lab.camera()["keep"] == 7, "the new keep")
    assert [it["name"] for it in lab.status()["cameras"]] == ["left", "right"]
