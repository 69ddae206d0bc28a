"""The part `station` of tests/checks/page_check: the page beside a true station, which LOOP_STATION
names. What the station says as JSON is read, and what the page tells of it is so in the stores."""
import contextlib
import os
import shutil
import signal
import tempfile
import threading
import time

from page_strangers import expect
from page_true import promises_part

# A camera that never ends, one that stops when the check says so, and a small one with a tag that
# keeps on for two seconds.
PATTERN = "64x48 YM12 25:1"
CAMERAS = [
    {"name": "left", "pattern": PATTERN, "minutes": 1},
    {"name": "fed", "source": "fed.y4m", "minutes": 1},
    {"name": "small", "pattern": PATTERN, "bytes": 3_000_000, "after": 2, "tag": 7},
]
FRAME = b"FRAME\n" + bytes(64 * 48 * 3 // 2)


class Feeder(threading.Thread):
    """A camera at a pipe: it gives 25 frames a second, but for pauses."""

    def __init__(self, path):
        super().__init__(daemon=True)
        self.path, self.is_paused, self.is_over = path, False, False

    def run(self):
        """Gives frames until it is over."""
        with contextlib.suppress(OSError), open(self.path, "wb", buffering=0) as pipe:
            pipe.write(b"YUV4MPEG2 W64 H48 F25:1 Ip C420jpeg\n")
            due = time.monotonic()
            while not self.is_over:
                due += 0.04
                time.sleep(max(0, due - time.monotonic()))
                if not self.is_paused:
                    pipe.write(FRAME)


@contextlib.contextmanager
def laboratory(program):
    """A laboratory with a true station, and a camera at a pipe."""
    import conftest

    folder = tempfile.mkdtemp(prefix="page_check", dir="/var/tmp")
    plain, conftest.STATION = conftest.STATION, program
    lab = conftest.Laboratory(folder, CAMERAS, as_it_is=True)
    os.mkfifo(lab.folder / "fed.y4m")
    lab.feeder = Feeder(lab.folder / "fed.y4m")
    lab.feeder.start()
    try:
        lab.start_station().start_page()
        yield lab
    finally:
        lab.feeder.is_over = True
        lab.close()
        conftest.STATION = plain
        shutil.rmtree(folder)


def answers_of(lab, **wish):
    """What is answered to a keep, by camera."""
    found = lab.post("/api/keep", wish)
    expect(found.status == 200, f"a keep is answered {found.status}: {found.body[:300]}")
    return {it["camera"]: it for it in found.json()["answers"]}


def event_of(lab, number):
    """The event of a number; nothing where there is none."""
    found = [it for it in lab.ask("/api/events").json()["events"] if it["number"] == number]
    expect(len(found) <= 1, f"one press is {len(found)} events: {found}")
    return found[0] if found else None


def look_at_keep(lab):
    """One press of three cameras is one event; what it lacks is said, and what it has is so."""
    answers = answers_of(lab, seconds=20, note="run 7")
    numbers = {it["event"] for it in answers.values()}
    expect(len(numbers) == 1 and None not in numbers, f"one press has the numbers {numbers}")
    for name, answer in answers.items():
        expect(answer["kept"] and answer["clips"], f"{name} isn't kept: {answer}")
    left = answers["left"]
    expect(left["asked_us"] == 20_000_000, f"less than 20 s is held, and that isn't said: {left}")
    held = sum(it["to_us"] - it["from_us"] + 40_000 for it in left["clips"])
    expect(
        abs(held - left["held_us"]) < 500_000, f"{left['held_us']} us are said to be held: {left}"
    )
    expect("no frames are held from " in left["text"], f"the sentence is {left['text']}")
    expect(answers["small"]["until_us"], f"it isn't said that it goes on: {answers['small']}")
    number = numbers.pop()
    event = lab.until(lambda: event_of(lab, number), "event")
    expect(event["cameras"] == ["fed", "left", "small"], f"an event of {event['cameras']}")

    def whole():
        """The event, once its end is over."""
        found = event_of(lab, number)
        return found if found and found["until_us"] is None else None

    event = lab.until(whole, "end of the event")
    notes = {it["note"] for it in lab.ask("/api/clips").json()["clips"]}
    lab.until(
        lambda: {it["note"] for it in lab.ask("/api/clips").json()["clips"]} == {"run 7"},
        f"note: {notes}",
    )
    lacks = {it["camera"]: it for it in event["lacks"]}
    expect(set(lacks) == {"fed", "left", "small"}, f"it lacks something of {set(lacks)}")
    expect(lacks["small"]["why"] == "Gaps", f"the station said Gaps: {lacks}")
    return event


def look_at_hole(lab):
    """A keep over a time without frames says from when to when."""
    lab.feeder.is_paused = True
    time.sleep(2)
    lab.feeder.is_paused = False
    time.sleep(1)
    answer = answers_of(lab, camera="fed", seconds=4)["fed"]
    missing = (answer["asked_us"] or 0) - (answer["held_us"] or 0)
    expect(1_500_000 < missing < 3_000_000, f"{missing} us are missing of {answer}")
    expect("no frames are held from " in answer["lack"], f"a hole isn't said: {answer}")
    whole = answers_of(lab, camera="left", seconds=2)["left"]
    expect(whole["lack"] == "" and whole["held_us"] is None, f"nothing is missing of {whole}")


def look_at_release(lab, event):
    """All clips of an event are released, and a clip that begins with another frame isn't."""
    clip = answers_of(lab, camera="left", seconds=1)["left"]["clips"][0]
    lab.order(f"release left {clip['id']}")
    lab.order("keep left 2")
    wrong = {"camera": "left", "id": clip["id"], "first": clip["first"]}
    found = lab.post("/api/release", wrong)
    expect(found.status in (404, 409), f"another clip is released: {found.status} {found.body}")
    clips = [{key: it[key] for key in ("camera", "id", "first")} for it in event["clips"]]
    found = lab.post("/api/event/release", {"clips": clips})
    expect(found.status == 200, f"an event isn't released: {found.body}")
    expect(event_of(lab, event["number"]) is None, "an event that is released is still there")


def look_at_warnings(lab):
    """A camera that ends is warned of within 10 s, and a ring that is all locked; both leave."""
    lab.feeder.is_over = True
    start = time.monotonic()
    lab.until(lambda: ("missing", "fed") in lab.alerts(), "warning of a camera that has ended")
    took = time.monotonic() - start
    lab.feeder = Feeder(lab.folder / "fed.y4m")
    lab.feeder.start()
    lab.until(lambda: ("missing", "fed") not in lab.alerts(), "end of that warning")
    lab.until(lambda: lab.camera("small").get("removed_next"), "ring that is full")
    lab.post("/api/keep", {"camera": "small", "seconds": 60})
    lab.until(lambda: lab.camera("small")["kind"] == "locked", "word that all is locked")
    lab.until(lambda: ("locked", "small") in lab.alerts(), "warning that all is locked")
    # A busy machine may film fewer frames than it should.
    lab.until(lambda: is_free(lab, "small"), "end of that")
    lab.filmed(lab.camera("small")["newest"][0] + 20, "small")
    lab.until(lambda: ("locked", "small") not in lab.alerts(), "end of that warning")
    return took


def is_free(lab, name):
    """Whether not all of a camera's room is locked. Its clips are released, also one that a keep
    made meanwhile."""
    for clip in lab.ask("/api/clips").json()["clips"]:
        if clip["camera"] == name:
            lab.post("/api/release", {"camera": name, "id": clip["id"], "first": clip["first"]})
    return lab.camera(name)["kind"] != "locked"


def look_at_end(lab):
    """A station that is killed while an event goes on: the next one goes on with it."""
    lab.order("@me keep left 1 +6")
    number = lab.until(lambda: open_event(lab), "event that goes on")
    lab.end(lab.station, signal.SIGKILL)
    lab.until(lambda: ("station", None) in lab.alerts(), "word that the station has ended")
    lab.start_station()

    def ended():
        """Whether the event has ended."""
        found = event_of(lab, number)
        return found and found["until_us"] is None and found["to_us"] - found["from_us"] > 5_000_000

    lab.until(ended, "end of the event")
    lacks = event_of(lab, number)["lacks"]
    expect([it["why"] for it in lacks] == ["Gaps"], f"frames were lost by the kill: {lacks}")


def open_event(lab):
    """The number of an event that goes on."""
    found = [it for it in lab.ask("/api/events").json()["events"] if it["until_us"]]
    return found[0]["number"] if found else None


def look_at_text(lab):
    """A station whose configuration isn't for JSON is said to be that, and its answers aren't
    read."""
    lab.end(lab.page, signal.SIGTERM)
    lab.end(lab.station, signal.SIGTERM)
    path = lab.folder / "station.toml"
    path.write_text(path.read_text().replace('answers_form = "json"', ""))
    lab.start_station()
    lab.until(lambda: (lab.folder / "told").read_text(), "station that has read its file")
    path.write_text(path.read_text().replace("answers =", 'answers_form = "json"\nanswers ='))
    lab.start_page()
    lab.until(lambda: ("answers", None) in lab.alerts(), "word that answers can't be read")


def station_part(is_quick, shots):
    """The page beside a true station."""
    program = os.environ.get("LOOP_STATION")
    expect(program, "LOOP_STATION names no station")
    with laboratory(program) as lab:
        for name in lab.names():
            lab.filmed(100, name)
        event = look_at_keep(lab)
        look_at_hole(lab)
        look_at_release(lab, event)
        took = look_at_warnings(lab)
        look_at_end(lab)
        look_at_text(lab)
    return (
        f"station: events, holes, releases and warnings of {program}; a dead camera after"
        f" {took:.1f} s; {promises_part(program)}"
    )
