"""Cameras that are set from the browser, by those who may: through the file that loop_camera takes
while it films, within what the camera takes; each change is known afterwards."""
import json
import sys
import threading

import layout
import numpy
import pytest
from conftest import TOP
from lapyrei import answers
from station_page import pictures, tuning
from station_page.causes import Causes
from station_page.users import add_user
from station_page.words import Unfit

sys.path.append(str(TOP / "python/camera"))
from station_camera.changes import Changes  # noqa: E402
from station_camera.faults import Refused  # noqa: E402

SETTINGS = 'cameras = "set"\ncamera_states = "said"\n'
WORDS = "GENICAM=1\nEXPOSURE=1000\nREGION=640x480+8+16\n"


class Camera:
    """A camera that takes an exposure in steps of ten, and none of 5000."""

    AT_ONCE = ("EXPOSURE", "GAIN")

    def __init__(self):
        self.exposure = 1000.0

    def change(self, values):
        if values.get("EXPOSURE") == "5000":
            raise Refused("EXPOSURE=5000: the camera is too warm")
        self.exposure = float(values.get("EXPOSURE", self.exposure)) // 10 * 10

    def size(self):
        return 640, 480

    def takes(self):
        return [
            {"word": "EXPOSURE", "now": self.exposure, "least": 10.0, "most": 9000.0},
            {"word": "REGION", "now": "640x480+8+16", "sensor": [1280, 1024]},
            {"word": "TRIGGER", "now": "off", "choices": ["off", "Line1"]},
        ]


@pytest.fixture
def tuned(make):
    """A laboratory whose left camera takes changes, as loop_camera does."""
    lab = make(page=False)
    (lab.folder / "page.toml").write_text(SETTINGS)
    (lab.folder / "said").mkdir()
    state = str(lab.folder / "said" / "left.json")
    changes = Changes(WORDS, str(lab.folder / "set" / "left.camera"), state, lambda line: None)
    camera, over = Camera(), threading.Event()

    def film():
        changes.began(camera)
        while not over.wait(0.02):
            changes.looked = 0.0
            if changes.look(camera):
                changes.began(camera)

    thread = threading.Thread(target=film)
    thread.start()
    lab.camera_words = lambda: dict(changes.taken)
    try:
        lab.start_page("--settings", "page.toml").filmed()
        yield lab
    finally:
        over.set()
        thread.join()


def test_a_camera_is_set_and_each_change_is_known_afterwards(tuned):
    lab = tuned
    found = lab.ask("/api/cameras/left/settings").json()
    assert [it["word"] for it in found["takes"]] == ["EXPOSURE", "REGION", "TRIGGER"]
    assert lab.ask("/api/cameras/right/settings").json() == {"takes": []}
    answer = lab.post("/api/camera", {"camera": "left", "set": {"EXPOSURE": 2005}})
    assert (answer.status, answer.json()["text"]) == (200, "left: EXPOSURE 1000 to 2000.")
    text = (lab.folder / "set" / "left.camera").read_text()
    assert text.splitlines()[1:] == ["EXPOSURE=2005"]
    assert (lab.folder / "set" / "left.camera").stat().st_mode & 0o777 == 0o644
    assert lab.post("/api/camera", {"camera": "left", "set": {"TRIGGER": "Line1"}}).status == 200
    assert lab.camera_words() == {"EXPOSURE": "2005", "TRIGGER": "Line1"}
    # In the journal, and beside the cause of each event of that time.
    assert [it["kind"] for it in lab.journal()].count("set") == 2
    lab.post("/api/keep", {"seconds": 600})
    lab.post("/api/keep", {"seconds": 1, "camera": "right"})
    events = {tuple(it["cameras"]): it for it in lab.ask("/api/events").json()["events"]}
    changes = events["left", "right"]["changes"]
    assert [it["text"] for it in changes][0] == "EXPOSURE 1000 to 2000"
    assert {it["camera"] for it in changes} == {"left"} and len(changes) == 2
    assert events[("right",)]["changes"] == []
    for event in events.values():
        answers.EVENT(event)
    # After a restart too.
    lab.end(lab.page)
    lab.start_page("--settings", "page.toml")
    lab.until(lambda: lab.ask("/api/events").json()["events"], "events")
    assert any(it["changes"] == changes for it in lab.ask("/api/events").json()["events"])


def test_what_the_camera_does_not_take_changes_nothing(tuned):
    lab = tuned
    lab.post("/api/camera", {"camera": "left", "set": {"EXPOSURE": 3000}})
    answer = lab.post("/api/camera", {"camera": "left", "set": {"EXPOSURE": 5000}})
    assert answer.status == 409 and "too warm" in answer.json()["error"]
    assert "EXPOSURE=3000" in (lab.folder / "set" / "left.camera").read_text()
    lab.until(lambda: lab.camera_words() == {"EXPOSURE": "3000"}, "what it had before")
    answer = lab.post("/api/camera", {"camera": "left", "set": {"REGION": "320x240+0+0"}})
    assert answer.status == 409 and "another store" in answer.json()["error"]
    assert lab.post("/api/camera", {"camera": "right", "set": {"GAIN": 3}}).status == 409
    assert lab.post("/api/camera", {"camera": "none", "set": {"GAIN": 3}}).status == 404
    assert [it["text"] for it in lab.ask("/api/events").json()["events"]] == []


def test_without_its_settings_no_camera_is_set(shared):
    assert shared.ask("/api/cameras/left/settings").json() == {"takes": []}
    answer = shared.post("/api/camera", {"camera": "left", "set": {"EXPOSURE": 2000}})
    assert answer.status == 409 and "docs/cameras.md" in answer.json()["error"]


TAKES = [
    {"word": "EXPOSURE", "now": 1000.0, "least": 10.0, "most": 9000.0},
    {"word": "REGION", "now": "640x480+8+16"},
    {"word": "TRIGGER", "now": "off", "choices": ["off", "Line1"]},
]


@pytest.mark.parametrize(
    "wish",
    [
        None, [], {}, "EXPOSURE=9", {"GAIN": 1}, {"EXPOSURE": 9}, {"EXPOSURE": 9001},
        {"EXPOSURE": "high"}, {"EXPOSURE": "1\nTRIGGER=Line1"}, {"EXPOSURE": "nan"},
        {"EXPOSURE": "20\n"},
        {"EXPOSURE": None}, {"EXPOSURE": [1]}, {"TRIGGER": "Line2"}, {"TRIGGER": "off;"},
        {"REGION": "640x480"}, {"REGION": "640x480+8"}, {"RATE": 9}, {"EXPOSURE": ""},
        {f"W{n}": 1 for n in range(9)},
    ],
)
def test_a_wish_that_is_none_is_refused(wish):
    with pytest.raises(Unfit):
        tuning.values_in(wish, TAKES)


def test_a_wish_is_written_as_the_file_has_it():
    wish = {"EXPOSURE": 1500.0, "TRIGGER": "Line1", "REGION": "640x480+0+0"}
    assert tuning.values_in(wish, TAKES) == wish | {"EXPOSURE": "1500"}
    assert tuning.values_in({"EXPOSURE": 20}, TAKES) == {"EXPOSURE": "20"}


def test_what_a_program_says_is_not_believed_before_it_is_whole():
    whole = {"words": {"GAIN": "1"}, "fault": "", "read": 1, "takes": TAKES}
    tuning.SAID(json.loads(json.dumps(whole)))
    for wrong in (
        {"takes": [{"word": "RATE", "now": 1}]}, {"words": {"RATE": "1"}}, {"read": -1},
        {"takes": [{"word": "GAIN", "now": None}]}, {"fault": 7},
    ):
        with pytest.raises(answers.Unusable):
            tuning.SAID(whole | wrong)


def test_the_newest_changes_stay(tmp_path, monkeypatch):
    causes = Causes(str(tmp_path / "causes"))
    for number in range(300):
        causes.change("left", f"GAIN {number} to {number + 1}", "ann", number)
    assert len(causes.changes) == 200 and causes.changes[0]["at_us"] == 100
    again = Causes(str(tmp_path / "causes"))
    assert list(again.changes) == list(causes.changes)
    assert [it["at_us"] for it in again.changed(["left", "right"], 298, 400)] == [298, 299]
    assert again.changed(["right"], 0, 400) == []
    # A file of before has none.
    (tmp_path / "old").write_text('{"causes": {}}')
    assert not Causes(str(tmp_path / "old")).changes


def test_only_who_may_set_cameras_does(make):
    lab = make(page=False)
    path = str(lab.folder / "users")
    tokens = {name: add_user(path, name, rights) for name, rights in
              (("ann", "see,keep,release"), ("bob", "see,set"))}
    lab.start_page("--users", path)
    for name, status in (("ann", 403), ("bob", 409)):
        head = {"Authorization": f"Bearer {tokens[name]}", "Content-Type": "application/json"}
        body = {"camera": "left", "set": {"GAIN": 1}}
        assert lab.post("/api/camera", body, head).status == status


# -------------------------------------------------------------------------------------------- focus


def blurred(plain, times):
    """A picture that is out of focus."""
    for _ in range(times):
        plain = (numpy.roll(plain, 1, 0) + plain + numpy.roll(plain, -1, 0)) / 3
        plain = (numpy.roll(plain, 1, 1) + plain + numpy.roll(plain, -1, 1)) / 3
    return plain


def test_the_sharper_picture_is_sharper_whatever_its_light():
    stripes = 40 + 60.0 * ((numpy.indices((48, 64)).sum(0) // 8) % 2)
    found = [pictures.sharpness(blurred(stripes, times)) for times in range(5)]
    assert found == sorted(found, reverse=True) and found[0] > 1.5 * found[-1] > 0
    dark, light = (pictures.sharpness(stripes * part) for part in (0.5, 2))
    assert abs(dark - light) < 0.001 < found[0]
    assert pictures.sharpness(numpy.full((48, 64), 9)) == 0 == pictures.sharpness(stripes[:2])
    geometry = layout.geometry_of(64, 48, b"GREY", 25, 1, 2, 2)
    assert pictures.light(geometry, stripes.astype("u1").tobytes())["sharpness"] == found[0]
