"""Trouble reads as it is: what isn't known isn't told, what is over isn't said again, and a camera
that was taken away goes."""
import json
import time
import types

import pytest
from lapyrei import answers
from station_page import limits, together
from station_page.advice import ADVICE
from station_page.laboratory import OF_STATION, Laboratory
from station_page.settings import Settings
from station_page.standing import Standing
from station_page.warned import ENDS, OVER
from test_answers import other_one


def laboratory_in(folder, *names):
    """A laboratory in this process, whose file names some cameras."""
    write(folder, *names)
    words = Settings([], None, None, "127.0.0.1", 0, None, str(folder / "notes"),
                     config=str(folder / "station.toml"), folder=str(folder))
    found = Laboratory(words)
    found.follow(set(names))
    return found


def write(folder, *names):
    """Writes the station's file."""
    words = '[[camera]]\nname = "{0}"\nsource = "pattern"\nstore = "{0}.loop"\n'
    (folder / "station.toml").write_text("".join(words.format(it) for it in names))


def test_a_camera_that_was_taken_out_goes_with_all_that_was_said_of_it(tmp_path):
    lab = laboratory_in(tmp_path, "left", "right")
    assert list(lab.cameras) == ["left", "right"]
    lab.warned.set("silent", "right", "right: no new frames come.")
    lab.warned.set("silent", "left", "left: no new frames come.")
    lab.noting.growing = {("right", 7): "run", ("left", 7): "run"}
    # The file still names it, or the station still has it: it stays.
    lab.follow({"left"})
    write(tmp_path, "left")
    lab.follow({"left", "right"})
    assert list(lab.cameras) == ["left", "right"]
    lab.follow({"left"})
    assert list(lab.cameras) == ["left"] and list(lab.noting.growing) == [("left", 7)]
    assert [it["camera"] for it in lab.alerts.listed()] == ["left"]
    assert not lab.alerts.stands("silent", camera="right")
    assert lab.warned.good_news[-1]["text"] == "right was taken out of the station."


def test_a_camera_that_is_new_comes_and_a_broken_file_changes_nothing(tmp_path):
    lab = laboratory_in(tmp_path, "left")
    write(tmp_path, "left", "top")
    lab.follow({"left"})
    assert list(lab.cameras) == ["left"]
    lab.follow({"left", "top"})
    assert list(lab.cameras) == ["left", "top"]
    (tmp_path / "station.toml").write_text("[[camera")
    lab.follow({"left"})
    lab.follow(set())
    assert list(lab.cameras) == ["left", "top"]


def test_a_camera_that_was_taken_out_goes_from_the_page_once_the_station_is_without_it(make):
    lab = make().filmed().filmed(30, "right")
    text = (lab.folder / "station.toml").read_text()
    lab.end(lab.station)
    (lab.folder / "station.toml").write_text(text[: text.rindex("[[camera]]")])
    lab.start_station()
    lab.until(lambda: [it["name"] for it in lab.status()["cameras"]] == ["left"], "end of it")
    assert lab.ask("/api/cameras/right/newest.jpg").status == 404
    assert lab.post("/api/keep", {"seconds": 1}).status == 200


# ------------------------------------------------------------------------------------ what is known


def reading_of(**more):
    """What was seen of a store."""
    geometry = types.SimpleNamespace(
        width=4, height=2, format=b"GREY", rate=lambda: 25.0, slots=2, segments=4
    )
    words = {"geometry": geometry, "stores": None, "clips": [], "bits": lambda: 8}
    words |= {"rate": lambda: 24.9, "seconds": lambda: 1.0, "count": lambda: 9, "pieces": list}
    words |= {"locked": lambda: 0.5, "removed_next": lambda: None, "newest": lambda: None}
    words |= {"oldest": lambda: None, "is_all_locked": lambda: False, "holes": list}
    return types.SimpleNamespace(**words | more)


def standing_of(silent=0.0, hangs=0.0, status=None, **more):
    """How a camera stands that was silent for so long."""
    orders = types.SimpleNamespace(has_answers=True)
    settings = types.SimpleNamespace(orders="orders")
    lab = types.SimpleNamespace(orders=orders, settings=settings, is_running=True)
    camera = types.SimpleNamespace(name="left", keep=60, after=0)
    watched = types.SimpleNamespace(
        camera=camera, reading=reading_of(**more), status=status, making=None, absent="",
        hangs=lambda: hangs, silent=lambda: silent, is_silent=lambda least: silent > least,
        has_moved=True, newest=(9, 9), looked=time.monotonic() - 30, why="",
    )
    return Standing(lab).camera(watched)


def status_of(room):
    """What the station says of a camera."""
    words = dict.fromkeys(("stored", "given_up", "waiting", "keeps", "faults"), 0)
    words |= dict.fromkeys(("lost", "estimated", "clock", "blocks", "full"))
    return types.SimpleNamespace(**words, behind=0.0, room=room, source="on")


def test_a_camera_of_which_no_frames_come_has_no_rate():
    assert standing_of()["rate"] == 24.9
    assert standing_of(silent=11.0)["rate"] is None
    assert standing_of(hangs=9.0)["rate"] is None
    assert standing_of(status=types.SimpleNamespace(**vars(status_of(3)) | {"source": "unusable"}))[
        "rate"
    ] is None


def test_a_camera_whose_disk_hangs_is_known_until_it_was_seen_last():
    found = standing_of(hangs=30.0)
    assert abs(found["known_us"] / 1e6 - (time.time() - 30)) < 5
    assert "known_us" not in standing_of()


def test_a_ring_without_room_is_no_camera_that_is_silent():
    """The station stops before the newest block is full: the camera is well."""
    found = standing_of(silent=11.0, status=status_of(0))
    assert (found["kind"], found["short"]) == ("locked", "all locked")
    assert standing_of(silent=11.0, status=status_of(1))["kind"] == "silent"
    # While frames come, there is room in the newest block.
    assert standing_of(status=status_of(0))["kind"] == "good"
    advice = ADVICE["locked"]
    assert "Release" in advice and "camera is well" in advice and advice != ADVICE["silent"]


def test_of_a_station_that_is_away_no_rate_is_shown_and_until_when_it_is_known():
    other = other_one()
    camera = {"name": "left", "level": "good", "rate": 24.9}
    other.hear("state", {"cameras": [camera], "alerts": []})
    (found,) = together.cameras_of(other)
    assert found["rate"] == 24.9 and "known_us" not in found
    other.heard -= limits.AWAY_SECONDS + 60
    (found,) = together.cameras_of(other)
    assert found["rate"] is None and found["kind"] == "away"
    assert abs(found["known_us"] / 1e6 - (time.time() - limits.AWAY_SECONDS - 60)) < 5
    answers.CAMERA_STANDING(json.loads(json.dumps(found | {"name": "left"})))


KINDS = {*OF_STATION, *(it for ends in ENDS.values() for it in ends)}


@pytest.mark.parametrize(
    "kind", sorted(KINDS | {"silent", "hangs", "lost", "station", "one absent"})
)
def test_what_is_over_is_said_in_words_of_its_own(tmp_path, kind):
    lab = laboratory_in(tmp_path, "left")
    camera = None if kind == "station" else "left"
    text = "left: no new frames come. See that the camera is plugged in."
    lab.warned.set(kind, camera, text)
    lab.warned.set(kind, camera, "")
    said = lab.warned.good_news[-1]["text"]
    assert said == (f"left: {OVER[kind]}" if camera else OVER[kind])
    assert text not in said and not lab.alerts.listed()


def test_a_station_that_can_be_used_again_is_no_camera(tmp_path):
    lab = laboratory_in(tmp_path, "left")
    for name, word in (("north", "unusable page"), ("left", "unusable")):
        lab.warned.set("unusable", name, "wrong")
        lab.warned.set("unusable", name, "")
        assert lab.warned.good_news[-1]["text"] == f"{name}: {OVER[word]}"
