"""The page beside a true station, for page_check's part `station`: frames that are lost by their
numbers, clocks that are wrong or set, rings that are full under each rule, and cameras that come
and go by `reload` while the page is open."""
import contextlib
import os
import re
import shutil
import tempfile
import threading
import time

from page_strangers import expect
from power_loss import library

RING = {"source": "pattern", "pattern": "64x48 YM12 50:1", "minutes": 0.15}
CAMERAS = [
    {"name": "numbered", "source": "numbered.y4m", "times_from": "source", "minutes": 1},
    {"name": "stops", "when_full": "stop"} | RING,
    {"name": "oldest", "when_full": "release oldest"} | RING,
    {"name": "tagged", "when_full": "release oldest tag 9"} | RING,
    {"name": "saved", "when_full": "release saved"} | RING,
]
# The cameras whose ring, once it is full, gives way.
GIVING = ("oldest", "tagged", "saved")
ADDED = '[[camera]]\nname = "added"\nsource = "pattern"\nstore = "added.loop"\nminutes = 0.5\n'
FRAME = bytes(64 * 48 * 3 // 2)
# The computer's clock is set by so many seconds, so many milliseconds after the station began.
STEP, AFTER = 3600, 5000


class Numbered(threading.Thread):
    """A camera at a pipe, which gives its frames numbers and times of its own."""

    def __init__(self, path):
        super().__init__(daemon=True)
        self.path, self.number, self.ahead, self.is_over = path, 0, 0, False

    def run(self):
        """Gives 25 frames a second until it is over."""
        with contextlib.suppress(OSError), open(self.path, "wb", buffering=0) as pipe:
            pipe.write(b"YUV4MPEG2 W64 H48 F25:1 Ip C420jpeg\n")
            due = time.monotonic()
            while not self.is_over:
                due += 0.04
                time.sleep(max(0, due - time.monotonic()))
                moment = time.time_ns() // 1000 + self.ahead
                pipe.write(b"FRAME Xt=%d Xn=%d\n" % (moment, self.number) + FRAME)
                self.number += 1


@contextlib.contextmanager
def laboratory(program):
    """A laboratory with a true station, and a camera whose frames have numbers."""
    import conftest

    folder = tempfile.mkdtemp(prefix="page_check", dir="/var/tmp")
    plain, conftest.STATION = conftest.STATION, program
    lab = conftest.Laboratory(folder, CAMERAS, as_it_is=True)
    os.mkfifo(lab.folder / "numbered.y4m")
    lab.feeder = Numbered(lab.folder / "numbered.y4m")
    lab.feeder.start()
    try:
        lab.start_station().start_page()
        yield lab
    finally:
        lab.feeder.is_over = True
        lab.close()
        conftest.STATION = plain
        shutil.rmtree(folder)


def kept(lab, name, seconds=1):
    """Keeps the newest seconds of a camera, and answers their event's number; nothing where that
    is refused."""
    found = lab.post("/api/keep", {"camera": name, "seconds": seconds})
    return found.json()["answers"][0]["event"] if found.status == 200 else None


def events(lab):
    """The events by their numbers."""
    return {it["number"]: it for it in lab.ask("/api/events").json()["events"]}


def look_at_losses(lab):
    """Numbers that are left out are lost frames: of that camera, and of the event that has them."""
    lab.filmed(50, "numbered")
    before = kept(lab, "numbered")
    lab.feeder.number += 3
    count = lab.camera("numbered")["newest"][0]
    lab.filmed(count + 25, "numbered")
    number = kept(lab, "numbered", 20)
    lab.until(lambda: lab.camera("numbered")["lost"] == 3, "3 lost frames of the camera")
    lab.until(lambda: number in events(lab), "event")
    told = {it: events(lab)[it]["lost"] for it in (before, number)}
    expect(told == {before: 0, number: 3}, f"events have lost {told}")
    expect(not lab.camera("stops")["lost"], "another camera has lost frames")


def look_at_clock(lab):
    """A camera whose clock is 1.9 s ahead is said to be, until it is right."""
    lab.feeder.ahead = 1_900_000

    def is_said():
        """Whether the page says it."""
        found = lab.camera("numbered")
        return found["kind"] == "clock" and re.fullmatch(r"clock \+1\.\d s", found["short"])

    lab.until(is_said, "clock that is ahead")
    lab.feeder.ahead = 0
    lab.until(lambda: lab.camera("numbered")["kind"] != "clock", "clock that is right")


def look_at_stop(lab):
    """Where all is locked and the rule is to stop, that is said before it happens; a release lets
    it go on."""
    name = "stops"
    expect(lab.camera(name)["full"] == "stop", f"its rule is {lab.camera(name)['full']}")
    lab.until(lambda: lab.camera(name).get("removed_next"), "ring that is full")
    kept(lab, name, 60)
    lab.until(lambda: lab.camera(name)["kind"] == "locked", "word that it stops")
    lab.until(lambda: ("locked", name) in lab.alerts(), "warning that it stops")
    for clip in lab.ask("/api/clips").json()["clips"]:
        if clip["camera"] == name:
            lab.post("/api/release", {"camera": name, "id": clip["id"], "first": clip["first"]})
    lab.until(lambda: lab.camera(name)["kind"] != "locked", "end of that")
    lab.filmed(lab.camera(name)["newest"][0] + 20, name)


def two_events(lab):
    """Two events of each camera that gives way, by its name: the first one, and one with tag 9, or
    that is saved."""
    first = {name: kept(lab, name) for name in GIVING}
    count = {name: lab.camera(name)["newest"][0] for name in GIVING}
    for name in GIVING:
        lab.filmed(count[name] + 75, name)
    second = {name: kept(lab, name) for name in GIVING if name != "tagged"}
    lab.order("keep tagged 1 9")
    tagged = lab.until(lambda: [it for it, e in events(lab).items() if e["tag"] == 9], "tag 9")
    (clip,) = lab.until(lambda: events(lab).get(second["saved"]), "event to save")["clips"]
    lab.order(f"save saved {clip['id']} saved.y4m")
    lab.until((lab.folder / "saved.y4m").exists, "clip that is saved")
    return first, second | {"tagged": tagged[0]}


def look_at_full(lab):
    """Where all is locked and the rule is to release, the event that the rule says goes, and no
    other one of the two; that is warned of, and recording goes on."""
    first, second = two_events(lab)
    goes = {"oldest": first["oldest"], "tagged": second["tagged"], "saved": second["saved"]}
    stays = {"oldest": second["oldest"], "tagged": first["tagged"], "saved": first["saved"]}
    warned = set()

    def are_warned():
        """Whether all are warned of; what is new is locked until then."""
        warned.update(camera for kind, camera in lab.alerts() if kind == "released full")
        for name in set(GIVING) - warned:
            kept(lab, name)
        return set(GIVING) <= warned

    lab.until(are_warned, "warning of each camera that gives way")
    for name in GIVING:
        lab.until(lambda name=name: goes[name] not in events(lab), f"release by {name}'s rule")
        lab.until(lambda name=name: stays[name] in events(lab), f"event of {name} that stays")
    # The others stop, once nothing is left that their rule lets go.
    lab.filmed(lab.camera("oldest")["newest"][0] + 20, "oldest")
    expect((lab.folder / "saved.y4m").stat().st_size > 50 * len(FRAME), "a clip isn't saved")


def look_at_reload(lab):
    """A camera that the file has anew is there, and films; one that it has no more goes. The others
    go on meanwhile, and lose nothing."""
    path = lab.folder / "station.toml"
    plain = path.read_text()
    path.write_text(plain + ADDED)
    lab.order("reload")
    lab.until(lambda: "added" in {it["name"] for it in lab.status()["cameras"]}, "added camera")
    lab.filmed(20, "added")
    expect(kept(lab, "added"), "nothing is kept of it")
    path.write_text(plain)
    lab.order("reload")
    lab.until(lambda: "added" not in {it["name"] for it in lab.status()["cameras"]}, "its end")
    count = lab.camera("numbered")["newest"][0]
    lab.filmed(count + 20, "numbered")
    expect(lab.camera("numbered")["lost"] == 3, "another camera has lost frames meanwhile")


def look_at_step(lab):
    """The computer's clock is set while cameras record: that is told, no frame is moved by it, and
    a keep has the seconds before it."""
    lab.end(lab.station)
    more = {"LD_PRELOAD": library(str(lab.folder)), "LOOP_CLOCK": f"{AFTER}:{STEP}"}
    os.environ.update(more)
    try:
        lab.start_station()
    finally:
        for name in more:
            del os.environ[name]
    lab.until(lambda: ("clock", None) in lab.alerts(), "warning of a clock that was set")
    alerts = {(it["kind"], it["camera"]): it["text"] for it in lab.status()["alerts"]}
    text = alerts["clock", None]
    expect(re.search(r"stepped by 3(600|599)\.", text), f"the warning is {text!r}")
    count = lab.camera("stops")["newest"][0]
    lab.filmed(count + 150, "stops")
    number = kept(lab, "stops", 2)
    event = lab.until(lambda: events(lab).get(number), "event after the step")
    expect(1.5 < event["seconds"] < 2.5 and not event["lacks"], f"the event is {event}")
    late = abs(time.time() - event["to_us"] / 1e6)
    expect(late < STEP / 2, f"its frames are {late:.0f} s beside this clock")


def promises_part(program):
    """The page beside a true station: losses, clocks, full rings, `reload`."""
    took = []
    with laboratory(program) as lab:
        for step in (
            look_at_losses, look_at_clock, look_at_stop, look_at_full, look_at_reload, look_at_step,
        ):
            begun, name = time.monotonic(), step.__name__.removeprefix("look_at_")
            step(lab)
            took.append(f"{name} {time.monotonic() - begun:.1f} s")
    return ", ".join(took)
