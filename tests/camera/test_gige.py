"""loop_camera over a GigE Vision camera of ours (gige.py): packed samples, colours, ids that jump
and wrap, a clock that jumps, lost packets, triggers by software, chunks, silence. Each frame that
is given on is one that the camera sent whole, by the camera's own log."""
import contextlib
import csv
import fcntl
import re
import signal
import socket
import struct
import subprocess
import sys
import time
from pathlib import Path

import gige
import gige_xml
import numpy as np
import pytest
from conftest import LOCK, parsed, until

# So few frames a second that those of some seconds have room in a socket of any system.
HEAD = "REGION=37x21\nRATE=25\nCLOCK=ptp\n"
SIZE = 37, 21


class Own:
    """The camera, which isn't started yet."""

    def __init__(self, folder):
        self.serial, self.log, self.run = "LAPGIGE", Path(folder) / "sent", None

    def start(self, *words):
        """Plugs it in."""
        self.run = subprocess.Popen(
            [sys.executable, "-B", gige.__file__, self.serial, f"log={self.log}", *words],
            stdin=subprocess.DEVNULL, stdout=subprocess.PIPE,
        )
        assert self.run.stdout.readline() == b"here\n"

    def stop(self):
        """Unplugs it."""
        if self.run:
            self.run.terminate()
            self.run.wait(60)
            self.run.stdout.close()

    def sent(self):
        """The frames that it sent whole, by their ids: time, CRC, exposure, lines."""
        rows = [line.split() for line in self.log.read_text().splitlines()]
        return {int(row[0]): (int(row[1]), int(row[2]), float(row[3]), int(row[4])) for row in rows}


@pytest.fixture
def own(tmp_path):
    """A camera of ours: one at a time has the port."""
    with open(LOCK, "a") as lock:
        with contextlib.suppress(OSError):
            LOCK.chmod(0o666)
        fcntl.flock(lock, fcntl.LOCK_EX)
        it = Own(tmp_path)
        yield it
        it.stop()


def file_of(own, format="Mono8", more="", head=HEAD):
    """The text of a file for it."""
    return f"GENICAM={own.serial}\n{head}FORMAT={format}\n{more}"


def given_on(it, own):
    """The frames that were given on, as the program's log has them: each is one that the camera
    sent whole, with the camera's own time, and none is there twice."""
    assert it.wait() == 0, it.told()
    log, (head, frames, rest) = it.log(), it.text()
    assert rest == b"" and len(frames) == len(log) > 0
    # The camera writes down what it has sent.
    until("the camera's log", lambda: {number for number, *_ in log} <= set(own.sent()))
    sent = own.sent()
    for number, stamp, _, crc in log:
        assert sent[number][:2] == (stamp, crc)
    assert len({number for number, *_ in log}) == len(log)
    return head, frames, log


@pytest.mark.parametrize(
    "format, colour", [("Mono8", "mono"), ("Mono10p", "mono10"), ("Mono12p", "mono12"),
                       ("Mono12Packed", "mono12")])
def test_samples_of_each_format_are_the_cameras(camera, own, format, colour):
    own.start()
    it = camera(file_of(own, format), "--frames", "30")
    head, frames, log = given_on(it, own)
    bits = 8 if format == "Mono8" else int(format[4:6])
    assert (head["W"], head["H"], head["C"]) == ("37", "21", colour)
    for (_, data), (number, *_) in zip(frames, log):
        kind = np.uint8 if bits == 8 else "<u2"
        assert np.frombuffer(data, kind).tolist() == gige.values(number - 1, *SIZE, bits)
    assert f"{len(frames)} frames given on" in it.told() and "lost" not in it.told()


def test_deep_samples_may_have_8_bits(camera, own):
    own.start()
    it = camera(file_of(own, "Mono12Packed", "BITS=8\n"), "--frames", "10")
    head, frames, log = given_on(it, own)
    assert head["C"] == "mono"
    for (_, data), (number, *_) in zip(frames, log):
        assert list(data) == [value >> 4 for value in gige.values(number - 1, *SIZE, 12)]


def test_colours_are_stored_for_each_pixel(camera, own):
    """As BT.601's formulas have them, within a rounding: each pixel has its own."""
    own.start()
    it = camera(file_of(own, "RGB8"), "--frames", "20")
    head, frames, log = given_on(it, own)
    assert head["C"] == "444"
    for (_, data), (number, *_) in zip(frames, log):
        raw = np.frombuffer(gige.picture(number - 1, *SIZE, "RGB8"), np.uint8)
        red, green, blue = raw.reshape(-1, 3).astype(float).T
        y = 16 + (65.481 * red + 128.553 * green + 24.966 * blue) / 255
        cb = 128 + (-37.797 * red - 74.203 * green + 112 * blue) / 255
        cr = 128 + (112 * red - 93.786 * green - 18.214 * blue) / 255
        found = np.frombuffer(data, np.uint8).reshape(3, -1).astype(float)
        assert np.abs(found - np.stack([y, cb, cr])).max() <= 2


@pytest.mark.parametrize(
    "words, lost",
    [
        (["start=65526"], 0),
        (["drop=7,8,15"], 3),
        # Beside the wrap: 65535 and 1 are missing.
        (["start=65526", "drop=9,10"], 2),
        (["jump=10+3"], 3),
        (["start=65530", "jump=5+4"], 4),
    ],
)
def test_ids_that_wrap_and_jump_are_counted_as_they_are(camera, own, words, lost):
    """After 65535 comes 1: 0 is no frame's id. The station is given numbers without an end."""
    own.start(*words)
    it = camera(file_of(own), "--frames", "30")
    _, _, log = given_on(it, own)
    assert 0 not in {number for number, *_ in log}
    # Of a camera that a busy machine holds up amid a frame, that frame is incomplete.
    counts = r"(?:, (\d+) frames? incomplete and dropped)?(?:, (\d+) frames? lost)?"
    said = it.says("ended: 30 frames given on" + counts)
    assert int(said[2] or 0) == lost, it.told()
    given = []
    parsed(it.out.read_bytes(), lambda line: given.append(int(re.search(rb"Xn=(\d+)", line[0])[1])))
    assert [(it - 1) % 65535 + 1 for it in given] == [number for number, *_ in log]
    steps = [after - before for before, after in zip(given, given[1:])]
    assert min(steps) == 1 and sum(steps) - len(steps) == lost + int(said[1] or 0)


def test_packets_that_are_lost_for_good_leave_incomplete_frames_out(camera, own):
    own.start("lose=17")
    head = "REGION=64x100\nRATE=50\nCLOCK=ptp\n"
    it = camera(file_of(own, "Mono12p", head=head), "--frames", "30")
    given_on(it, own)
    said = it.says(r"ended: 30 frames given on, (\d+) frames? incomplete and dropped")
    assert int(said[1]) > 5


@pytest.mark.parametrize("by", [5_000_000_000, -2_000_000_000])
def test_times_are_the_cameras_also_where_its_clock_jumps(camera, own, by):
    """Tied once, each frame has what the camera says."""
    own.start(f"clock=15{by:+}")
    it = camera(file_of(own, head=HEAD.replace("CLOCK=ptp\n", "")), "--frames", "60")
    _, frames, log = given_on(it, own)
    plus = int(it.says(r"tied to the system's clock: plus (-?\d+) us, read from the camera")[1])
    assert all(abs(micros - stamp // 1000 - plus) <= 1 for _, stamp, micros, _ in log)
    assert [time for time, _ in frames] == [micros for _, _, micros, _ in log]
    steps = np.diff([stamp for _, stamp, *_ in log])
    assert np.abs(steps - by).min() < 2_000_000_000


def order(at, value):
    """Writes a register, as another program in the network does."""
    with socket.socket(socket.AF_INET, socket.SOCK_DGRAM) as it:
        it.settimeout(60)
        it.sendto(struct.pack(">BBHHHII", 0x42, 1, gige.WRITEREG, 8, 7, at, value),
                  ("127.0.0.1", gige.PORT))
        it.recv(64)


def test_a_trigger_by_software_makes_a_frame(camera, own):
    own.start()
    it = camera(file_of(own, more="TRIGGER=Software\n"), "--frames", "5")
    it.says("filming LAPGIGE")
    for count in range(5):
        order(gige_xml.TRIGGER_SOFTWARE, 1)
        it.count(count + 1)
    given_on(it, own)
    assert len(own.sent()) == 5


@pytest.mark.parametrize("format", ["Mono8", "Mono12p", "RGB8"])
def test_chunks_are_those_of_each_frame_by_its_number(camera, own, tmp_path, format):
    own.start("drop=5", "lose=40")
    more = "CHUNKS=ExposureTime,LineStatusAll\nEXPOSURE=5000\n"
    it = camera(file_of(own, format, more), "--frames", "30", "--chunks", "lines")
    head, frames, log = given_on(it, own)
    sent = own.sent()
    (path,) = (tmp_path / "lines").iterdir()
    words, *rows = csv.reader(path.read_text().splitlines())
    assert words == ["number", "time_us", "ExposureTime", "LineStatusAll"]
    assert [(int(row[0]), int(row[1])) for row in rows] == [
        (number, micros) for number, _, micros, _ in log]
    # The exposure differs from frame to frame, and so do the lines.
    assert [(float(row[2]), int(row[3])) for row in rows] == [sent[it[0]][2:] for it in log]
    assert path.stat().st_mode & 0o777 == 0o644 and [it for it, _ in frames] == [
        int(row[1]) for row in rows]


def stopped(it):
    """How many seconds a stop takes. It ends well, and one that films says what it gave on."""
    films, began = "filming" in it.told(), time.monotonic()
    assert it.stop() == 0, it.told()
    took = time.monotonic() - began
    assert not films or "frames given on" in it.told(), "it doesn't say what it gave on"
    return took


@pytest.mark.parametrize("state", ["silent", "asked", "again", "gone", "opened"])
def test_a_stop_waits_for_no_camera(camera, own, tmp_path, state):
    """Within 2 s, and more where this machine takes long for any: just silent; asked whether it is
    there; waited for; unplugged; and amid being opened."""
    deaf = tmp_path / "deaf"
    own.start(f"deaf={deaf}")
    usual = camera(file_of(own))
    usual.count(5)
    usual = stopped(usual)
    (tmp_path / "log").unlink()
    if state == "opened":
        deaf.touch()
    it = camera(file_of(own))
    if state == "opened":
        until("signals are heard", lambda: hears(it.run.pid))
        # Until it is found.
        time.sleep(3)
    else:
        it.says("filming LAPGIGE")
        it.count(len(it.log()) + 5)
        deaf.touch()
        if state == "asked":
            time.sleep(3)
        elif state in ("again", "gone"):
            it.says("waiting for LAPGIGE: ")
            if state == "gone":
                own.stop()
            time.sleep(2)
    took = stopped(it)
    assert took < 2 + 3 * usual, f"the stop took {took:.1f} s, and a usual one {usual:.1f} s"


def hears(process):
    """Whether a process hears SIGTERM."""
    text = Path(f"/proc/{process}/status").read_text()
    return int(re.search(r"SigCgt:\s*(\w+)", text)[1], 16) >> signal.SIGTERM - 1 & 1


def test_a_camera_that_is_silent_for_a_while_is_filmed_again(camera, own, tmp_path):
    """By the same process: what finds the silence, Aravis' own thread, ends nothing."""
    deaf = tmp_path / "deaf"
    own.start(f"deaf={deaf}")
    it = camera(file_of(own))
    for turn in range(3):
        until("it films", lambda had=turn: it.told().count("filming LAPGIGE") > had)
        before = len(it.log())
        it.count(before + 5)
        deaf.touch()
        until("it waits", lambda had=turn: it.told().count("waiting for LAPGIGE") > had)
        deaf.unlink()
    it.count(len(it.log()) + 5)
    assert it.stop() == 0


def test_a_camera_without_a_chunk_is_refused_by_its_name(camera, own):
    own.start()
    it = camera(file_of(own, more="CHUNKS=ExposureTime,Temperature\n"))
    assert it.wait() == 1
    assert "CHUNKS=Temperature: the camera has no such chunk" in it.told()


def test_chunks_that_can_not_be_written_are_told_once_and_frames_go_on(camera, own, tmp_path):
    own.start()
    (tmp_path / "lines").write_text("a file")
    it = camera(file_of(own, more="CHUNKS=ExposureTime\n"), "--frames", "10", "--chunks", "lines")
    given_on(it, own)
    assert it.told().count("chunks can't be written into lines: ") == 1
