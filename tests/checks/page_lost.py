"""Steps of page_check's part `console`: lost frames on tiles, events and the timeline, clocks that
are off, what comes where a ring is full, and a camera that is set from the browser and focused."""
import contextlib
import sys
import threading

from browser import TOP
from page_strangers import expect
from page_work import released, rows, typed

sys.path.append(str(TOP / "python/camera"))
from station_camera.changes import Changes  # noqa: E402
from station_camera.faults import Refused  # noqa: E402

SETTINGS = 'cameras = "set"\ncamera_states = "said"\n'
# What stands on the tile of a camera.
TILE = "return document.querySelector(`.cam[data-camera='${arguments[0]}']`).innerText"
FACTS = "return document.querySelector('#facts').innerText"
# How red the timeline is at the foot of its first lane: the pixels of such a colour.
RED = """const it = document.querySelector('#tracks'), data = it.getContext('2d')
    .getImageData(0, 0, it.width, it.height).data; let found = 0;
for (let at = 0; at < data.length; at += 4)
    found += data[at] > 180 && data[at + 1] < 110 && data[at + 2] < 110; return found;"""
MARKS = "return document.querySelector('#scale').dataset.causes"


def lost(browser, lab, shots):
    """Frames that were lost stand on the tile, at the event, on the timeline and beside the large
    picture; an event that lost none says nothing."""
    released(lab)
    lab.post("/api/keep", {"seconds": 1, "camera": "pump"})
    browser.until(lambda: len(rows(browser)) == 1, "an event")
    expect("lost" not in rows(browser)[0], f"a whole event says {rows(browser)[0]!r}")
    before = browser.run(RED)
    number = lab.stored("pendulum")[-1].number
    lab.order("!lose pendulum 3")
    lab.until(lambda: lab.stored("pendulum")[-1].number > number + 40, "frames")
    lab.post("/api/keep", {"seconds": 10, "camera": "pendulum"})
    browser.until(lambda: "3 lost" in browser.run(TILE, "pendulum"), "lost frames on the tile")
    expect("lost" not in browser.run(TILE, "pump"), "another tile says that frames are lost")
    browser.until(lambda: any("3 frames lost." in it for it in rows(browser)), "at the event")
    browser.until(lambda: browser.run(RED) > before, "a mark on the timeline")
    browser.shot(shots, "lost")
    browser.keys("1")
    browser.until(lambda: "3 frames: 3 before they came" in browser.run(FACTS), "beside it")
    browser.shot(shots, "lost-large")


def clock(browser, lab, shots):
    """A clock that is off by more than a second stands on the tile, and what to do."""
    lab.order("!clock pendulum 1900000")
    try:
        browser.until(lambda: "clock +1.9 s" in browser.run(TILE, "pendulum"), "clock on the tile")
        browser.until(lambda: "1.9 s ahead of" in browser.text("#banner"), "clock in the banner")
        browser.shot(shots, "clock")
    finally:
        lab.order("!clock pendulum 0")
    browser.until(lambda: "clock" not in browser.run(TILE, "pendulum"), "end of it")


def full(browser, lab, shots):
    """What comes where all is locked stands beside the room, before it does."""
    names = lab.names()
    browser.until(lambda: "then recording stops" in browser.text("#room"), "that it stops")
    try:
        for name in names:
            lab.order(f"!rule {name} release oldest tag 9")
        words = "then the oldest event is released of tag 9"
        browser.until(lambda: words in browser.text("#room"), words)
        browser.shot(shots, "full")
    finally:
        for name in names:
            lab.order(f"!rule {name} stop")


class Camera:
    """A camera as loop_camera has it: it takes an exposure up to 9,000."""

    AT_ONCE = ("EXPOSURE", "GAIN")

    def __init__(self):
        self.exposure = 1000.0

    def change(self, values):
        """Sets the exposure."""
        if values.get("EXPOSURE") == "5000":
            raise Refused("EXPOSURE=5000: the camera is too warm")
        self.exposure = float(values.get("EXPOSURE", self.exposure))

    def size(self):
        """The size of its frames."""
        return 320, 240

    def takes(self):
        """What may be changed."""
        return [
            {"word": "EXPOSURE", "now": self.exposure, "least": 10.0, "most": 9000.0},
            {"word": "TRIGGER", "now": "off", "choices": ["off", "Line1"]},
        ]


@contextlib.contextmanager
def taking(lab, name="pendulum"):
    """A camera's program, which takes what is changed."""
    (lab.folder / "said").mkdir(exist_ok=True)
    paths = [str(lab.folder / it) for it in (f"set/{name}.camera", f"said/{name}.json")]
    changes, camera = Changes("GENICAM=1\n", *paths, lambda line: None), Camera()
    over = threading.Event()

    def film():
        """Films, and looks."""
        changes.began(camera)
        while not over.wait(0.05):
            changes.looked = 0.0
            if changes.look(camera):
                changes.began(camera)

    thread = threading.Thread(target=film)
    thread.start()
    try:
        yield camera
    finally:
        over.set()
        thread.join()


def tuned(browser, lab, shots):
    """A camera is set beside its large picture, within what it takes; each change is marked; and
    how sharp the picture is stands there."""
    with taking(lab) as camera:
        browser.keys("1")
        field = "#tune [data-word='EXPOSURE']"
        browser.until(lambda: browser.one(field).is_displayed(), "field of the exposure")
        browser.until(lambda: browser.one(field).get_attribute("value") == "1000", "its value")
        typed(browser, field, "2000")
        browser.until(lambda: "EXPOSURE 1000 to 2000." in browser.text("#answer"), "word of it")
        expect(camera.exposure == 2000, f"the camera has {camera.exposure}")
        browser.until(lambda: "setting" in (browser.run(MARKS) or ""), "mark on the timeline")
        for value, says in (("5000", "too warm"), ("9001", "from 10 to 9000"), ("high", "number")):
            typed(browser, field, value)
            browser.until(lambda says=says: says in browser.text("#answer"), says)
            browser.until(lambda: browser.one(field).get_attribute("value") == "2000", "as it was")
        expect(camera.exposure == 2000, f"the camera has {camera.exposure}")
        browser.until(lambda: "% of the best" in browser.text("#sharp-words"), "sharpness")
        browser.shot(shots, "tuned")
        browser.keys("3")
        browser.until(lambda: not browser.one("#tune").is_displayed(), "no settings of another")


STEPS = (lost, clock, full, tuned)
