"""What `tools/demo --power` does: a station records onto a disk whose power is cut, and what it
told before is compared with what is there."""
import json
import os
import signal
import struct
import sys
import time
import urllib.request
from pathlib import Path

HERE = Path(__file__).resolve().parent
sys.path[1:1] = [str(HERE), str(HERE.parent / "python")]
import power_loss
from lapyrei import layout

CAMERA, KEEP, NOTE = "clock", 5, "kept before the power was cut"
# How long it records before the keep, and between the keep and the cut.
BEFORE, AFTER = 8, 3


class Told:
    """What the station has told, line by line, as it is printed."""

    def __init__(self):
        self.lines = []

    def last(self, words):
        """The last line with these words in it, or nothing."""
        return next((it for it in reversed(self.lines) if words in it), "")

    def wait(self, words, count, look, seconds=60):
        """The last line with these words, once more than so many have come."""
        end = time.monotonic() + seconds
        while sum(words in it for it in self.lines) <= count:
            look()
            if time.monotonic() > end:
                raise TimeoutError(f"the station doesn't say {words!r}")
            time.sleep(0.05)
        return self.last(words)


def order(folder, text):
    """Gives the station an order."""
    with open(folder / "orders", "w") as pipe:
        pipe.write(f"{text}\n")


def asked(port, path, body=None):
    """What the page answers."""
    data = None if body is None else json.dumps(body).encode()
    head = {"Content-Type": "application/json", "X-Loop-Page": "1"}
    request = urllib.request.Request(f"http://127.0.0.1:{port}{path}", data, head)
    with urllib.request.urlopen(request, timeout=30) as answer:
        return json.loads(answer.read())


def stored_by(line):
    """How many frames a line of `status` says are stored."""
    words = line.split()
    return int(words[words.index("stored") + 1]) if "stored" in words else 0


class Log:
    """The log of the disk, read on from where it was read last: whether something is written that
    isn't synced."""

    def __init__(self, path):
        self.path, self.at, self.is_pending = path, 0, False

    def look(self):
        """Reads on, without the bytes of writes."""
        with open(self.path, "rb") as file:
            file.seek(self.at)
            while len(head := file.read(17)) == 17:
                kind, count = chr(head[0]), struct.unpack_from("<QQ", head, 1)[1]
                size = count if kind in "WA" else 0
                if os.fstat(file.fileno()).st_size < file.tell() + size:
                    break
                self.at = file.seek(size, os.SEEK_CUR)
                if kind in "WTS":
                    self.is_pending = kind != "S"
        return self.is_pending


def cut_amid(run, log, tries=400):
    """Stops a station amid its writes where that comes about, and ends it."""
    seen = Log(log)
    for _ in range(tries):
        os.killpg(run.pid, signal.SIGSTOP)
        if seen.look():
            break
        os.killpg(run.pid, signal.SIGCONT)
        time.sleep(0.005)
    kill(run)


def kill(run):
    """Ends a program, with all that it began."""
    os.killpg(run.pid, signal.SIGKILL)
    run.wait()


class Cut:
    """A loss of power: the file before it, what was written and synced since, and what is left."""

    def __init__(self, path, base, log):
        self.path, self.before = path, path.read_bytes()
        records = [it for it in power_loss.log_of(log) if it[0] in "WTS"]
        last = max((at for at, it in enumerate(records) if it[0] == "S"), default=-1)
        self.unsynced = sum(len(it[2]) for it in records[last + 1 :] if it[0] == "W")
        self.image = power_loss.after_power_loss(base, records, power_loss.at_random)

    def apply(self):
        """Leaves the file as the loss of power does."""
        new = self.path.with_suffix(".left")
        new.write_bytes(self.image)
        new.rename(self.path)

    def lost(self, store, spans):
        """The frames of some spans that aren't there, or have other bytes than before."""
        held = {it.number for it in store.frames}
        return [it for first, last in spans for it in range(first, last + 1)
                if it not in held or self.differs(store, it)]

    def differs(self, store, number):
        """Whether a frame has other bytes than before the cut."""
        slots, g = store.geometry.slots, store.geometry
        index = next((it.place for it in store.segments
                      if it.open and it.block == number // slots), None)
        if index is None:
            return True
        at = g.slot_at(index, number % slots)
        end = at + layout.HEAD + g.size
        return self.image[at:end] != self.before[at:end]


def spans_words(spans):
    """Spans of frames in words."""
    return " ".join(f"{first}..{last}" for first, last in spans)


def compared(cut, kept, stored):
    """What was told and what is there, in lines; and whether all that was told is there."""
    lines = [f"told   kept {CAMERA} {spans_words(kept)}, and {stored} frames stored"]
    try:
        store = layout.read_store(str(cut.path))
    except layout.Refused as refused:
        return [*lines, f"there  {refused}", "WRONG  nothing that was told is there"], False
    lost, clips = cut.lost(store, kept), [(a, b) for _, a, b, _ in store.clips]
    count = sum(last - first + 1 for first, last in kept)
    found = spans_words(clips) or "none"
    lines.append(f"there  clip {found}, {count - len(lost)} of {count} frames"
                 f" whole; {store.next} frames stored")
    is_there = not lost and set(kept) <= set(clips) and store.next >= stored
    lines.append(f"lost   what waited in memory, and {cut.unsynced:,} bytes amid a write, of which"
                 " nothing was told" if is_there else
                 "WRONG  something that was told isn't there")
    return lines, is_there


def make_store(demo, programs, program, folder):
    """Lets a station make the store, and kills it: the file as it is then is the disk's."""
    demo.start_station(programs, program)
    demo.start_camera(programs, CAMERA)
    end = time.monotonic() + 120
    while not (folder / f"{CAMERA}.loop").exists():
        if time.monotonic() > end:
            raise TimeoutError("the station makes no store")
        time.sleep(0.1)
    for name in ("station", CAMERA):
        kill(programs.runs.pop(name))


def keep_and_cut(demo, programs, program, folder, port):
    """Records onto the disk, keeps, and cuts the power. Answers the cut, the frames that were told
    as kept, and how many as stored."""
    path, log = folder / f"{CAMERA}.loop", folder / "disk.log"
    base, told = path.read_bytes(), Told()
    disk = power_loss.under(power_loss.library(str(folder)), str(path), str(log))
    demo.start_station(programs, program, told.lines, env=disk)
    demo.start_camera(programs, CAMERA)
    demo.start_page(programs, port)
    demo.wait_for(programs, port, [CAMERA])
    demo.show_address(port)
    time.sleep(BEFORE)
    answer = asked(port, "/api/keep", {"camera": CAMERA, "seconds": KEEP, "note": NOTE})
    clips = answer["answers"][0]["clips"]
    time.sleep(AFTER)
    order(folder, "status")
    stored = stored_by(told.wait(f"status {CAMERA} stored", 0, programs.look))
    demo.say("\ncutting the power\n")
    cut_amid(programs.runs.pop("station"), log)
    kill(programs.runs.pop(CAMERA))
    cut = Cut(path, base, log)
    cut.apply()
    log.unlink()
    return cut, [(it["first"], it["last"]) for it in clips], stored


def show(demo, programs, program, folder, port):
    """All of it; what was told and what is there stands in the event's note too."""
    make_store(demo, programs, program, folder)
    cut, kept, stored = keep_and_cut(demo, programs, program, folder, port)
    lines, is_there = compared(cut, kept, stored)
    for line in lines:
        demo.say(f"    {line}")
    if not is_there:
        demo.say("\nThe disk has broken its word: what it acknowledged isn't there.")
        return
    time.sleep(AFTER)
    demo.say("\nthe power is back: the station opens the store as it is\n")
    demo.start_station(programs, program)
    demo.start_camera(programs, CAMERA)
    demo.wait_for(programs, port, [CAMERA])
    note = f"power cut: told {spans_words(kept)}, there all of them, whole"
    for event in asked(port, "/api/events")["events"]:
        if event["note"] == NOTE:
            clips = [{key: it[key] for key in ("camera", "id", "first")} for it in event["clips"]]
            asked(port, "/api/event/note", {"clips": clips, "note": note})
    demo.say(f"In the browser: the event {note!r}. Play it.")
