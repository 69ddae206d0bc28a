"""What is changed while a camera films: by a file beside its own, within what the camera takes."""
import json
import os
import re
import resource

import pytest
from fake_device import Device
from test_v4l2 import FILE, frames_of, knobs

from station_camera import changes, film, text, words
from station_camera.changes import Changes
from station_camera.faults import Refused

GENICAM = "GENICAM=1\nEXPOSURE=1000\nREGION=640x480+8+16\n"


class Camera:
    """A camera that takes an exposure below 9,000 at once."""

    AT_ONCE = ("EXPOSURE", "GAIN")

    def __init__(self):
        self.set, self.now = [], {"EXPOSURE": "1000"}

    def change(self, values):
        for key, value in values.items():
            if key == "EXPOSURE" and float(value) > 9000:
                raise Refused(f"EXPOSURE={value}: out of range")
            self.set.append((key, value))
            self.now[key] = value

    def size(self):
        return 640, 480

    def takes(self):
        return [{"word": key, "now": it} for key, it in self.now.items()]


@pytest.fixture
def one(tmp_path, monkeypatch):
    """Changes of a camera of GenICam, looked at each time."""
    monkeypatch.setattr(changes, "EVERY", 0.0)
    monkeypatch.setattr(changes, "AGAIN", 0.0)
    said = []
    it = Changes(GENICAM, str(tmp_path / "set"), str(tmp_path / "state"), said.append)
    it.lines, it.camera, it.folder = said, Camera(), tmp_path
    it.began(it.camera)

    def give(words):
        """Writes the file, and looks."""
        (tmp_path / "new").write_text(words)
        os.replace(tmp_path / "new", tmp_path / "set")
        return it.look(it.camera)

    def state():
        """What is said."""
        return json.loads((tmp_path / "state").read_text())

    it.give, it.now = give, state
    return it


def test_what_the_camera_takes_at_once_is_set_while_it_films(one):
    takes = [{"word": "EXPOSURE", "now": "1000"}]
    assert one.now() == {"words": {}, "fault": "", "read": 1, "takes": takes}
    assert not one.give("EXPOSURE=2000\nGAIN=3\n")
    assert one.camera.set == [("EXPOSURE", "2000"), ("GAIN", "3")]
    assert one.now()["words"] == {"EXPOSURE": "2000", "GAIN": "3"} and one.now()["fault"] == ""
    assert one.now()["read"] == 2
    assert one.wanted().exposure == 2000 and one.wanted().region.at == (8, 16)
    # Nothing new: nothing is set; what is taken out is as the camera's own file has it.
    assert not one.look(one.camera) and len(one.camera.set) == 2
    assert not one.give("GAIN=3\n") and one.camera.set[2:] == [("EXPOSURE", "1000")]
    os.unlink(one.folder / "set")
    assert not one.look(one.camera) and one.now()["words"] == {}
    assert "EXPOSURE=2000 is set" in one.lines


def test_a_value_that_is_refused_leaves_all_as_it_was(one):
    one.give("EXPOSURE=2000\n")
    assert not one.give("GAIN=4\nEXPOSURE=9001\n")
    assert one.camera.now["EXPOSURE"] == "2000" and one.wanted().exposure == 2000
    assert one.now()["fault"] == "EXPOSURE=9001: out of range"
    assert one.now()["words"] == {"EXPOSURE": "2000"}
    assert not one.give("EXPOSURE=3000\n") and one.now()["fault"] == ""


@pytest.mark.parametrize(
    "given, says",
    [
        ("RATE=9\n", "RATE can't be changed while it films"),
        ("CONTROL_gain=9\n", "can't be changed"),
        ("EXPOSURE=high\n", "isn't a number"),
        ("EXPOSURE\n", "isn't KEY=VALUE"),
        ("GENICAM=2\n", "can't be changed"),
        ("FEATURE_LUTEnable=1\n", "can't be changed"),
        ("REGION=320x240\n", "another size needs another store"),
        ("\xff\n", "isn't KEY=VALUE"),
    ],
)
def test_other_words_are_refused_and_told(one, given, says):
    assert not one.give(given) and one.camera.set == []
    assert re.search(says, one.now()["fault"]) and one.wanted() == words.wanted(GENICAM)


def test_a_region_or_a_trigger_opens_the_camera_anew(one):
    assert one.give("REGION=640x480+0+0\n") and one.wanted().region.at == (0, 0)
    one.began(one.camera)
    assert one.now()["words"] == {"REGION": "640x480+0+0"}
    assert one.give("REGION=640x480+0+0\nTRIGGER=Line9\n")
    # It doesn't take it: what it had before counts again, and is not lost.
    assert one.refused("TRIGGER=Line9: no such") and one.wanted().trigger is None
    one.began(one.camera)
    assert one.now()["words"] == {"REGION": "640x480+0+0"}
    assert one.now()["fault"] == "TRIGGER=Line9: no such"
    assert not one.refused("not the change's fault")


def test_what_was_changed_counts_from_the_start_on(tmp_path):
    (tmp_path / "set").write_text("GAIN=7\n")
    found = Changes(GENICAM, str(tmp_path / "set"), None, print)
    assert found.wanted().gain == 7 and found.refused("GAIN=7: no") and found.wanted().gain is None
    # Without a file nothing is looked at.
    assert not Changes(GENICAM, None, None, print).look(Camera())


def test_the_state_is_written_where_no_other_file_may_have_a_byte(tmp_path):
    soft, most = resource.getrlimit(resource.RLIMIT_FSIZE)
    resource.setrlimit(resource.RLIMIT_FSIZE, (0, most))
    try:
        changes.write(tmp_path / "state", "x" * 9000)
        assert resource.getrlimit(resource.RLIMIT_FSIZE) == (0, most)
    finally:
        resource.setrlimit(resource.RLIMIT_FSIZE, (soft, most))
    assert len((tmp_path / "state").read_text()) == 9000
    assert (tmp_path / "state").stat().st_mode & 0o777 == 0o644


class Steps(Device):
    """A device that does something between frames."""

    def wait(self, descriptor, seconds):
        while self.things and callable(self.things[0]):
            self.things.pop(0)()
        return super().wait(descriptor, seconds)


def test_controls_of_a_device_are_set_between_frames(tmp_path, monkeypatch):
    monkeypatch.setattr(changes, "EVERY", 0.0)
    states, told = [], []

    def give(words):
        return lambda: (tmp_path / "set").write_text(words)

    def look():
        states.append(json.loads((tmp_path / "state").read_text()))

    one, two, three, four, five = (frames_of(1, 64, seed=n) for n in range(5))
    things = [*one, give("CONTROL_exposure_time_absolute=99\nCONTROL_gain=20\n"), *two, *three]
    device = Steps([*things, look, give("CONTROL_gain=999\n"), *four, *five, look], knobs=knobs())
    file = FILE + "CONTROL_gain=7\n"
    found = Changes(file, str(tmp_path / "set"), str(tmp_path / "state"), told.append)
    with open(tmp_path / "out", "wb") as out:
        kind = film.OfLinux(words.wanted(file), told.append, device)
        sink, more = text.Text(out.fileno()), film.Given(changes=found)
        film.Film(kind, sink, told.append, device.over, None, more).run()
    gain = [value for name, value in device.set if name == "Gain"]
    # What is refused leaves all as it was.
    assert gain == [7, 20, 20] and device.opened == 1
    assert ("Exposure Time, Absolute", 99) in device.set
    takes = {it["word"]: it for it in states[0]["takes"]}
    assert takes["CONTROL_gain"] == {
        "word": "CONTROL_gain", "now": 20, "held": False, "least": 0, "most": 255, "step": 1,
    }
    assert takes["CONTROL_power_line_frequency"]["choices"] == ["0", "1", "2"]
    assert takes["CONTROL_white_balance_temperature"]["held"]
    assert "CONTROL_text" not in takes and "CONTROL_do_it" not in takes
    assert states[1]["fault"] == "CONTROL_gain=999: it takes 0 to 255"
    assert states[1]["words"] == states[0]["words"] and len(told) > 1
