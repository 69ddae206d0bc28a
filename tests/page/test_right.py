"""What is wrong is told, in its own words, and no more once it is over."""
import contextlib
import http.client
import json
import signal
import threading
import time

import pytest
from conftest import LIMIT
from station_page import spans
from station_page.heard import Heard
from station_page.reader import Clip, Reader
from station_page.warned import OVER
from station_page.words import read_line

TWO = [
    {"name": "left", "pattern": "64x48 YM12 100:1"},
    {"name": "right", "pattern": "33x21 GREY 50:1"},
]


def test_a_camera_that_was_dead_before_the_page_began_is_warned_of(make):
    from station_page import limits

    lab = make(page=False, as_it_is=True).order_done("!pause left")
    (lab.folder / "page.toml").write_text('on_alert = ["tee", "told to a command"]\n')
    lab.start_page("--settings", str(lab.folder / "page.toml"))
    told = lab.folder / "told to a command"
    lab.until(lambda: told.exists() and "source" in told.read_text(), "command")
    assert "left: no frames come from its source" in told.read_text()
    lab.until(lambda: lab.alerts() == [("missing", "left")], "this warning alone")
    # Within ten seconds: the first poll comes at once, and nothing waits longer than this.
    assert (
        limits.PASSING_SECONDS + limits.ASK_SECONDS
        < 10
        > limits.SILENT_SECONDS + limits.ASK_SECONDS
    )


def test_a_camera_that_stood_still_before_the_page_began_is_warned_of_by_its_frames_alone(make):
    """A station whose answers nobody hears: no event, no status."""
    lab = make(page=False, answers=None, as_it_is=True).order_done("!pause left")
    lab.start_page()
    lab.until(lambda: lab.alerts() == [("silent", "left")], "warning")


def test_a_station_that_never_ran_is_warned_of(make):
    lab = make(station=False)
    lab.until(lambda: lab.alerts() == [("station", None)], "warning")
    assert "Start it" in lab.status()["alerts"][0]["text"]
    lab.start_station()
    lab.until(lambda: not lab.alerts(), "end of the warning")


def test_a_warning_whose_cause_is_over_leaves_and_says_so(make):
    # No poll says meanwhile that nothing of it is so.
    lab = make(page=False).start_limited(ASK_SECONDS=600, IDLE_ASK_SECONDS=1200).filmed()
    lab.until(lab.polls, "the first poll")
    frames = {"width": 32, "height": 24, "format": "GREY", "rate_num": 25, "rate_den": 1}
    clip = {"id": 0, "path": "clips/x.y4m"}
    for bad, good, kind in [
        (("behind", {"micros": 3_500_000}), ("caught_up", {}), "behind"),
        (("other_geometry", frames), ("source_on", frames), "other"),
        (("source_unusable", {"why": "RateUnknown"}), ("source_on", frames), "unusable"),
        (("not_a_store", {"path": "x"}), ("store_open", {}), "not a store"),
        (
            ("store_open", {"held_micros": 5_000_000, "asked_micros": 9_000_000}),
            ("store_open", {}),
            "small",
        ),
        (
            ("save_waits", clip | {"why": "MissingFolder"}),
            ("saved", clip | {"frames": 5}),
            "save waits",
        ),
    ]:
        lab.say(bad[0], camera="left", **bad[1])
        lab.until(lambda kind=kind: (kind, "left") in lab.alerts(), kind)
        lab.say(good[0], camera="left", **good[1])
        lab.until(lambda: not lab.alerts(), f"end of {kind}")
        # In words of its own: what was wrong isn't said again.
        news = [it["text"] for it in lab.status()["news"]]
        assert f"left: {OVER[kind]}" in news, kind
        assert not any(it.startswith("Over: ") for it in news)


def test_a_warning_without_an_end_stays(make):
    lab = make().filmed()
    lab.say("given_up", camera="left", frames=12, since="2026-11-22T15:38:00.123Z")
    lab.until(lambda: lab.alerts(), "warning")
    lab.say("room_again", camera="left")
    lab.say("store_open", camera="left")
    lab.until(lambda: len(lab.status()["news"]) == 2, "news")
    lab.polled()
    assert lab.alerts() == [("given up", "left")]


def test_a_warning_that_was_seen_does_not_come_back_while_its_cause_stands(make):
    lab = make(page=False).start_limited(ASK_SECONDS=1).filmed()
    lab.order("!pause left")
    alert = lab.until(lambda: lab.status()["alerts"], "warning")[0]
    assert lab.post("/api/seen", {"id": alert["id"]}).status == 200
    # The next poll says the same again.
    lab.polled()
    assert not lab.alerts()
    lab.order("!go left")
    lab.filmed(lab.camera()["newest"][0] + 10).polled()
    lab.order("!pause left")
    lab.until(lambda: lab.alerts() == [("missing", "left")], "warning again")


@pytest.mark.parametrize(
    "why, said",
    [
        ("Busy", "another program has the store open"),
        ("Denied", "may not write there"),
        ("NoRoom", "disk is full"),
        ("MissingFolder", "folder isn't there"),
        ("TooManyFrames 10.9", "10.9 minutes fit"),
        ("NoStore", "no store yet, since its source hasn't come"),
        ("Whatever", "Whatever"),
    ],
)
def test_each_absence_is_shown_in_its_own_words(absent, why, said):
    # Polls are answered so too, from before the line on: what is shown stays.
    absent.order(f"!absent left {why}")
    absent.say("store_absent", camera="left", why=why)
    absent.until(lambda: said in absent.camera()["state"], f"state of {why}")
    camera = absent.camera()
    assert (camera["level"], camera["kind"], camera["short"]) == ("bad", "absent", "not recorded")


@pytest.fixture(scope="module")
def absent(tmp_path_factory):
    """A laboratory whose left camera has no store, as the station says."""
    from conftest import Laboratory

    lab = Laboratory(tmp_path_factory.mktemp("absent"))
    lab.start_station().start_page().filmed()
    lab.order("!absent left Busy")
    yield lab
    lab.close()


def test_an_absence_that_was_before_the_page_began_is_shown_warned_of_and_over(make):
    lab = make(page=False).order_done("!absent left NoRoom")
    lab.start_page()
    lab.until(lambda: "disk is full" in lab.camera()["state"], "state")
    lab.until(lambda: lab.alerts() == [("absent", "left")], "warning")
    assert "disk is full" in lab.status()["alerts"][0]["text"]
    lab.order("!there left")
    lab.until(lambda: lab.camera()["level"] == "good" and not lab.alerts(), "end")


def test_all_locked_is_said_as_that_before_it_stops_and_after(make):
    lab = make(
        cameras=[{"name": "left", "pattern": "64x48 GREY 50:1", "segments": 3, "slots": 8}],
        as_it_is=True,
    )
    lab.filmed(24)
    lab.post("/api/keep", {"seconds": 60})
    lab.until(lambda: lab.camera()["kind"] == "locked", "all locked")
    lab.until(
        lambda: "has stopped" in lab.camera()["state"] and ("locked", "left") in lab.alerts(),
        "stop",
    )
    lab.until(lambda: lab.alerts() == [("locked", "left")], "this warning alone")
    assert lab.camera()["short"] == "all locked"
    lab.post("/api/release", {"camera": "left", "id": 0})
    lab.until(lambda: lab.camera()["level"] == "good" and not lab.alerts(), "room")


def clock_is(lab, wrong):
    """Whether the page's clock is so many seconds wrong."""
    before = time.time()
    now = lab.status()["now"] - float(wrong)
    # A look that is some seconds old is of that clock too.
    return before - 600 < now <= time.time()


def test_a_clock_that_is_set_back_or_ahead_changes_nothing(make):
    lab = make(page=False).start_spoilt(STILL_SECONDS=2).filmed()
    for wrong in ("-86400", "86400", "-3600"):
        lab.spoil("clock", wrong)
        lab.until(lambda wrong=wrong: clock_is(lab, wrong), "clock")
        version = lab.status()["version"]
        # Some looks later, each of which saw new frames.
        lab.until(lambda version=version: lab.status()["version"] > version + 3, "looks")
        lab.until(lambda: lab.camera()["level"] == "good", "a camera that records")
        assert not lab.alerts(), wrong
    lab.order("!pause left")
    lab.until(
        lambda: lab.camera()["level"] == "bad" and "No new frame for" in lab.camera()["state"],
        "warning",
    )
    for wrong in ("-86400", "0", "86400"):
        lab.spoil("clock", wrong)
        lab.until(lambda wrong=wrong: clock_is(lab, wrong), "clock")
        camera = lab.camera()
        assert camera["level"] == "bad", wrong
        # For how long, by the clock that is never set.
        assert float(camera["state"].split(" for ")[1].split(" s")[0]) < 3600, camera["state"]


def test_a_camera_is_not_shown_as_recording_before_a_frame_was_seen_to_come(make):
    lab = make(page=False, as_it_is=True).order_done("!pause left")
    lab.start_page()
    seen = set()

    def is_bad():
        seen.add(lab.camera()["level"])
        return "bad" in seen

    lab.until(is_bad, "a camera that stands still")
    assert "good" not in seen


def test_a_disk_that_hangs_stops_the_pictures_and_keeps_of_no_other_camera(make):
    lab = make(page=False, cameras=TWO).start_spoilt(DISK_SECONDS=1).filmed().filmed(20, "right")
    lab.spoil("hangs", "left.loop")
    newest = set()

    def seen():
        """A picture of the other camera. What waits for the disk that hangs waits for longer."""
        answer = lab.ask("/api/cameras/right/newest.jpg", timeout=LIMIT / 2)
        newest.add(answer.headers["X-Frame-Number"])
        return answer.status == 200 and answer.body[:2] == b"\xff\xd8"

    # Also in the first seconds, in which nobody knows it.
    for _ in range(3):
        ask_beside(lab, "cameras/left/newest.jpg")
        lab.until(seen, "picture")
    lab.until(lambda: lab.camera()["kind"] == "hangs", "hanging disk")
    lab.until(lambda: lab.camera("right")["level"] == "good", "other camera")
    # Many ask for what never comes, at once.
    for kind in [
        "cameras/left/newest.jpg",
        "cameras/left/frames/5.jpg",
        "clips/left/0.y4m",
        "clips/left/0.zip",
    ] * 10:
        ask_beside(lab, kind)
    newest.clear()
    lab.until(lambda: seen() and len(newest - {None}) > 2, "pictures")
    assert lab.post("/api/keep", {"camera": "right", "seconds": 1}, timeout=LIMIT / 2).status == 200
    assert lab.ask("/api/cameras/left/newest.jpg", timeout=LIMIT / 2).status == 503
    lab.until(lambda: lab.alerts() == [("hangs", "left")], "this warning alone")
    # The station, whose disk it is too, can't answer for that camera.
    lab.order("!hang left")
    found = lab.post("/api/keep", {"seconds": 1, "note": "both"}, timeout=LIMIT / 2)
    answers = {it["camera"]: it for it in found.json()["answers"]}
    assert found.status == 200
    assert (
        answers["right"]["kept"]
        and not answers["left"]["kept"]
        and "its disk hasn't answered" in answers["left"]["text"]
    )
    lab.spoil("hangs", "")
    lab.until(lambda: lab.camera()["level"] == "good" and not lab.alerts(), "disk again")
    assert {
        it["note"] for it in lab.ask("/api/clips").json()["clips"] if it["camera"] == "right"
    } == {"both", ""}


def ask_beside(lab, path):
    """Asks for something of which nobody waits for the answer."""

    def ask():
        with contextlib.suppress(OSError, http.client.HTTPException):
            lab.ask(f"/api/{path}")

    threading.Thread(target=ask, daemon=True).start()


def test_a_page_whose_disk_hangs_ends_when_it_is_told(make):
    lab = make(page=False).start_spoilt(DISK_SECONDS=1).filmed()
    lab.spoil("hangs", "left.loop")
    lab.until(lambda: lab.camera()["kind"] == "hangs", "hanging disk")
    lab.page.send_signal(signal.SIGTERM)
    assert lab.page.wait(LIMIT) == 0


def test_a_keep_tells_the_clip_that_the_station_told(monkeypatch):
    """The look after a keep is late, and has an earlier clip of the same id."""
    old = Clip(0, 0, 67, 0, 1_000_000, 2_000_000)
    laboratory = laboratory_of(left=[old])
    for first, last in ((22, 121), (1, 67)):
        found = laboratory.kept_of([kept_line("left", 0, first, last)])[0]
        assert (found.clips[0].first, found.clips[0].last, found.clips[0].is_seen) == (
            first,
            last,
            False,
        )
        assert (
            "1970" not in found.text
            and (
                "from 2026-11-22T15:37:55.117000Z to 2026-11-22T15:38:00.077000Z, "
                f"{last - first + 1} frames"
            )
            in found.text
        )
    assert laboratory.kept_of([kept_line("left", 0, 0, 67)])[0].clips == [old]


def test_a_keep_tells_the_longer_clip_of_an_event_that_goes_on():
    """Its clip has grown already, and has another id, when the page looks."""
    number = 1_795_361_880_123_456
    other, longer = Clip(0, 0, 99, number - 1, 1, 2), Clip(3, 0, 99, number, 3, 4)
    laboratory = laboratory_of(left=[other, longer])
    begun = read_line(
        '{"kind":"event_begun","event":%d,"from":"2026-11-22T15:37:55Z",'
        '"to":"2026-11-22T15:38:10.500Z"}' % number
    )
    found = laboratory.kept_of([kept_line("left", 0, 0, 67, number), begun])[0]
    assert (
        found.clips == [longer]
        and "It goes on until 2026-11-22T15:38:10.500000Z." in found.sentence()
    )
    assert found.as_object()["until_us"] == 1_795_361_890_500_000


def laboratory_of(**clips):
    """What judges the lines of a keep, over stores with these clips."""
    from types import SimpleNamespace

    from station_page.keeping import Keeping

    def reading(found):
        return SimpleNamespace(
            clips=found,
            clip_of=lambda *it: next(
                (one for one in found if (one.id, one.first, one.last) == it), None
            ),
        )

    found = SimpleNamespace(
        cameras={name: SimpleNamespace(reading=reading(it)) for name, it in clips.items()},
        heard=Heard(),
    )
    keeping = Keeping(found)

    def kept_of(lines):
        for line in lines:
            found.heard.take(line)
        return keeping.kept_of(lines)

    return SimpleNamespace(kept_of=kept_of)


def kept_line(camera, id_, first, last, event=5, **more):
    """The line of a clip that is kept."""
    members = {
        "kind": "kept",
        "camera": camera,
        "id": id_,
        "first": first,
        "last": last,
        "event": event,
    }
    return read_line(
        json.dumps(
            members | {"from": "2026-11-22T15:37:55.117Z", "to": "2026-11-22T15:38:00.077Z"} | more
        )
    )


def test_a_note_is_written_once_its_clip_is_seen(make):
    lab = make(page=False).start_spoilt(DISK_SECONDS=1).filmed()
    lab.keep(note="old")
    lab.spoil("hangs", "left.loop")
    lab.until(lambda: lab.camera()["kind"] == "hangs", "hanging disk")
    lab.order("release left 0")
    found = lab.post("/api/keep", {"camera": "left", "seconds": 1, "note": "new"}).json()[
        "answers"
    ][0]
    assert found["kept"] and "note is written once" in found["text"] and "1970" not in found["text"]
    assert sorted(json.loads((lab.folder / "loop_page.notes").read_text())["notes"].values()) == [
        "old"
    ]
    lab.spoil("hangs", "")
    lab.until(
        lambda: [it["note"] for it in lab.ask("/api/clips").json()["clips"]] == ["new"],
        "clip with its note",
    )


def test_a_release_names_the_clips_first_frame_to_the_station(make):
    lab = make().filmed()
    clip = lab.keep()
    assert (
        lab.post(
            "/api/release", {"camera": "left", "id": clip["id"], "first": clip["first"] + 1}
        ).status
        == 404
    )
    heard = lab.post("/api/release", {"camera": "left", "id": clip["id"], "first": clip["first"]})
    assert heard.status == 200 and lab.camera()["clips"] == []
    assert f"release left {clip['id']} {clip['first']}" in lab.ordered()


def test_a_release_that_the_station_refuses_is_said_to_be_refused(make):
    lab = make().filmed()
    clip = lab.keep()
    lab.order("!saving left")
    found = lab.post("/api/release", {"camera": "left", "id": clip["id"], "first": clip["first"]})
    assert (
        found.status == 409
        and "being saved" in found.json()["error"]
        and len(lab.camera()["clips"]) == 1
    )
    assert [it["kind"] for it in lab.journal()] == [
        "keep",
        "release",
    ] and "refused" in lab.journal()[1]["text"]


def test_without_answers_a_release_that_was_not_done_is_said_to_be_none(make):
    lab = make(answers=None).filmed()
    clip = lab.keep()
    lab.order("!saving left")
    found = lab.post("/api/release", {"camera": "left", "id": clip["id"], "first": clip["first"]})
    assert found.status == 409 and "still stands" in found.json()["error"]


def test_a_clip_whose_first_frame_is_another_is_not_released_though_the_page_saw_it_before(make):
    """The page looks in the store when it is asked, and not before."""
    lab = make(page=False)
    lab.until(lambda: len(lab.stored()) > 100, "frames")
    lab.start_limited(LOOK_SECONDS=60, IDLE_SECONDS=60)
    lab.until(lambda: lab.camera().get("newest"), "frames")
    old = lab.keep()
    lab.until(lambda: lab.camera()["clips"], "a clip")
    lab.order("release left 0")
    lab.order("keep left 1")
    lab.until(lambda: len(lab.told("kept")) == 2, "another clip")
    found = lab.post("/api/release", {"camera": "left", "id": 0, "first": old["first"]})
    assert found.status == 404 and len(lab.told("released")) == 1


def test_two_who_release_one_clip_release_it_once(make):
    from concurrent.futures import ThreadPoolExecutor

    lab = make().filmed()
    clip = lab.keep()
    body = {"camera": "left", "id": clip["id"], "first": clip["first"]}
    with ThreadPoolExecutor(6) as pool:
        found = sorted(
            it.status for it in pool.map(lambda _: lab.post("/api/release", body), range(6))
        )
    assert found[0] == 200 and set(found[1:]) <= {404, 409}
    assert len(lab.told("released")) == 1


def test_a_keep_that_is_shorter_than_asked_says_so(make):
    lab = make().filmed(100)
    found = lab.post("/api/keep", {"camera": "left", "seconds": 600}).json()["answers"][0]
    assert (
        " of 10 min 0 s: no frames are held from " in found["text"]
        and found["lack"] in found["text"]
    )
    assert found["asked_us"] == 600_000_000 and 0 < found["held_us"] < 300_000_000
    assert (
        lab.post("/api/keep", {"camera": "left", "seconds": 1}).json()["answers"][0]["lack"] == ""
    )


def test_a_keep_over_a_hole_says_so(make):
    lab = make().filmed(50).order_done("!pause left")
    last = lab.stored()[-1]
    lab.until(lambda: time.time() > last.time / 1e6 + 2, "a hole of two seconds")
    lab.order("!go left")
    lab.filmed(last.number + 100)
    after = next(frame.time for frame in lab.stored() if frame.number == last.number + 1)
    span = {"from": last.time - 400_000, "to": after + 600_000}
    found = lab.post("/api/keep", {"camera": "left", **span}).json()["answers"][0]
    assert (
        found["kept"]
        and "no frames are held from " in found["lack"]
        and after - last.time >= 2_000_000
    )
    assert found["asked_us"] == after - last.time + 1_000_000 and found["held_us"] == 1_000_000
    (event,) = lab.ask("/api/events").json()["events"]
    assert event["lacks"] == [
        {"camera": "left", "held_us": 1_000_000, "asked_us": found["asked_us"], "why": ""}
    ]


def test_a_keep_of_a_camera_that_stands_still_says_that_its_end_is_missing(make):
    lab = make().filmed(150).order_done("!pause left")
    last = lab.stored()[-1].time
    lab.until(lambda: time.time() > last / 1e6 + 2, "two seconds")
    span = {"from": last - 500_000, "to": last + 1_500_000}
    found = lab.post("/api/keep", {"camera": "left", **span}).json()["answers"][0]
    assert found["kept"] and "no frames are held from " in found["lack"]
    assert (found["held_us"], found["asked_us"]) == (500_000, 2_000_000)


@pytest.mark.parametrize("after, said", [("left", " no frames came after "), ("", "")])
def test_what_a_keep_lacks_is_said_too_where_the_station_is_not_heard(make, after, said):
    lab = make(answers=None).filmed(150)
    if after:
        lab.order_done(f"!pause {after}")
        last = lab.stored()[-1].time
        lab.until(lambda: time.time() > last / 1e6 + 2, "two seconds")

    def is_said():
        found = lab.post("/api/keep", {"camera": "left", "seconds": 600 if after else 1}).json()[
            "answers"
        ][0]
        assert found["kept"]
        return said in found["lack"] if said else found["lack"] == ""

    # A page that was held up since its last look may take frames for missing that came meanwhile.
    lab.until(is_said, "what is lacking")


def reading_of(tmp_path, waits):
    """A store whose frames come after these times, of 25 a second."""
    import layout

    ring = layout.Ring(4, 2, b"GREY", 8, 16)
    for wait in waits:
        ring.store(wait=wait)
    (tmp_path / "a.loop").write_bytes(bytes(ring.image))
    return Reader(str(tmp_path / "a.loop")).read()[0]


@pytest.mark.parametrize(
    "since, until, said",
    [
        (0, 3_960_000, ""),
        (-900_000, 4_000_000, ""),
        (
            -9_000_000,
            3_960_000,
            "That is 4.0 s of 13.0 s: the ring held nothing from before 00:00:00.0Z.",
        ),
        (0, 9_000_000, "That is 4.0 s of 9.0 s: no frames came after 00:00:03.9Z."),
        (
            -2_000_000,
            9_000_000,
            "the ring held nothing from before 00:00:00.0Z, and no frames came after 00:00:03.9Z.",
        ),
    ],
)
def test_what_a_keep_lacks_at_its_ends(tmp_path, since, until, said):
    reading = reading_of(tmp_path, [40_000] * 100)
    lack = spans.lack(reading, [Clip(0, 0, 99, 0, 0, 3_960_000)], since, until)
    assert lack == said or (said and lack.endswith(said))


def test_what_a_keep_lacks_within(tmp_path):
    reading = reading_of(
        tmp_path, [40_000] * 25 + [5_000_000] + [40_000] * 24 + [3_000_000] + [40_000] * 24
    )
    whole = Clip(0, 0, 74, 0, 0, reading.frames[-1].time)
    lack = spans.lack(reading, [whole], 0, whole.until)
    assert lack == (
        "That is 3.0 s of 10.9 s: no frames came from 00:00:00.9Z to 00:00:05.9Z, from "
        "00:00:06.9Z to 00:00:09.9Z."
    )
    # Two clips beside a hole say the same as one over it.
    parts = [Clip(0, 0, 24, 0, 0, 960_000), Clip(1, 25, 74, 0, 5_960_000, whole.until)]
    assert spans.lack(reading, parts, 0, whole.until) == lack
    # A clip that begins after the hole lacks what the ring holds nothing of in that time, and no
    # more.
    late = spans.lack(reading, parts[1:], 2_000_000, whole.until)
    assert "no frames came until 00:00:05.9Z" in late
