"""What the console needs of the page besides pictures: the seconds that are still to come of a
keep, which warnings somebody has seen, the station's own name, and the figures of the disk."""
import json
import os

import pytest
from conftest import Laboratory
from station_page.asked import moment_in
from station_page.disks import space_at
from station_page.settings import BadSettings, name_in
from test_push import Open

CAMERAS = [{"name": "left", "pattern": "64x48 YM12 25:1", "after": 5}]


@pytest.fixture(scope="module")
def lab(tmp_path_factory):
    """A laboratory whose camera keeps 5 seconds that are still to come."""
    laboratory = Laboratory(tmp_path_factory.mktemp("console"), CAMERAS)
    laboratory.start_station().start_page("--name", "Laser bench 2").filmed()
    yield laboratory
    laboratory.close()


@pytest.mark.parametrize(
    "after, order", [(3, "keep left 2 +3"), (0, "keep left 2 +0"), (None, "keep left 2")]
)
def test_a_keep_goes_on_for_the_seconds_that_it_says(lab, after, order):
    before = lab.ordered().count(order)
    wish = {"camera": "left", "seconds": 2} | ({} if after is None else {"after": after})
    (answer,) = lab.post("/api/keep", wish).json()["answers"]
    assert lab.ordered().count(order) == before + 1, lab.ordered()[-3:]
    assert bool(answer["until_us"]) == (after != 0), answer


@pytest.mark.parametrize("after, seconds", [(4, 4), (0, 0), (None, 5)])
def test_a_press_with_its_moment_goes_on_for_the_seconds_that_it_says(lab, after, seconds):
    moment = lab.stored()[-1].time
    wish = {"camera": "left", "seconds": 1, "at": moment}
    lab.post("/api/keep", wish | ({} if after is None else {"after": after}))
    order = next(it for it in reversed(lab.ordered()) if it.startswith("keep left from "))
    from_, to = order.removeprefix("keep left from ").split(" to ")
    span = moment_in(to, "to") - moment_in(from_, "from")
    assert span == (1 + seconds) * 1_000_000, order


@pytest.mark.parametrize("wrong", [-1, 86_401, 1.5, True, "3", [3]])
def test_seconds_to_come_that_are_no_number_are_refused(lab, wrong):
    answer = lab.post("/api/keep", {"seconds": 2, "after": wrong})
    assert answer.status == 400 and "after" in answer.json()["error"], answer.body


def test_a_span_has_no_seconds_to_come(lab):
    newest = lab.stored()[-1].time
    answer = lab.post("/api/keep", {"from": newest - 1_000_000, "to": newest, "after": 1})
    assert answer.status == 400, answer.body


def test_it_is_told_which_warnings_somebody_has_seen(lab):
    lab.say("given_up", camera="left", frames=2, since="2026-11-22T15:38:00.123Z")
    (alert,) = lab.until(lambda: lab.status()["alerts"], "warning")
    assert alert["id"] not in lab.status()["seen"]
    lab.post("/api/seen", {"id": alert["id"]})
    lab.until(lambda: alert["id"] in lab.status()["seen"], "word that it was seen")


def test_a_warning_that_is_over_was_not_seen(lab):
    # Polls say the same until it is over: else the next one might end it before it is looked at.
    lab.order_done("!behind left 2.6")
    lab.say("behind", camera="left", micros=2_600_000)
    (alert,) = lab.until(lambda: lab.status()["alerts"], "warning")
    lab.order_done("!behind left 0")
    lab.until(lambda: not lab.status()["alerts"], "end of the warning")
    assert alert["id"] not in lab.status()["seen"]


def test_the_stations_name_is_told(lab, make):
    assert lab.status()["name"] == "Laser bench 2"
    assert make().status()["name"] == "Laboratory"


@pytest.mark.parametrize("wrong", ["", "a" * 65, "two\nlines", "\x1b[2J"])
def test_a_name_that_can_be_none_is_refused(wrong):
    if wrong:
        with pytest.raises(BadSettings):
            name_in(wrong)
    else:
        assert name_in(wrong) == "Laboratory"


def test_who_asks_is_told_what_that_one_may_do(lab):
    assert lab.ask("/api/me").json() == {"user": "", "rights": ["see", "keep", "release", "set"]}


def figures(lab):
    """The disk's figures of the camera, as an open page is sent them."""
    page = Open(lab)
    try:
        return json.loads(page.next("more")[1])["cameras"]["left"]["disk"]
    finally:
        page.close()


def test_the_disks_figures_are_those_of_the_store(lab):
    found, store = figures(lab), lab.folder / "left.loop"
    assert found["ring_bytes"] == store.stat().st_size
    # A frame of 64x48 with its head, 25 times a second.
    assert 0.8 < found["writes"] / (25 * (64 * 48 * 1.5)) < 1.3, found
    assert abs(found["oldest_us"] - lab.stored()[0].time) < 5_000_000
    assert found["disk_bytes"] >= found["free_bytes"] > 0


def test_what_is_locked_is_not_left(make):
    """In a laboratory of its own: what others have locked already takes no more room."""
    lab = make().filmed()
    before = figures(lab)["left_seconds"]
    lab.keep(5)
    lab.until(lambda: figures(lab)["left_seconds"] < before, "less room")


def test_a_file_system_that_does_not_say_has_no_figures(tmp_path):
    assert space_at(str(tmp_path / "none" / "left.loop")) is None
    found, told = space_at(str(tmp_path / "left.loop")), os.statvfs(tmp_path)
    assert found and found.bytes == told.f_frsize * told.f_blocks and 0 < found.free <= found.bytes
