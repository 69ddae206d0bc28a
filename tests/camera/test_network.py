"""loop_camera over a camera that speaks GigE Vision on loopback: lost packets, a camera that
goes."""
import zlib
from pathlib import Path

import conftest
import pytest
import test_fake

from station_camera import genicam, words

# Few packets a frame: a busy machine loses few.
HEAD = "REGION=40x30\nRATE=50\nFORMAT=Mono16\nCLOCK=ptp\n"


def of(network, more=""):
    """The text of a file for it."""
    return f"GENICAM={network.serial}\n{HEAD}{more}"


class Stream:
    """What a stream is told."""

    def __init__(self):
        self.has = {}

    def set_property(self, name, value):
        self.has[name] = value


@pytest.mark.parametrize(
    "payload,wanted", [(640 * 480, 4_000_000), (5_000_000, 20_000_000), (16_000_000, 32_000_000)]
)
def test_the_socket_has_room_for_some_frames(payload, wanted):
    stream, told = Stream(), []
    genicam.widen(stream, payload, told.append, lambda asked: asked)
    assert stream.has["socket-buffer-size"] == wanted and told == []
    assert stream.has["socket-buffer"] == genicam.Aravis.GvStreamSocketBuffer.FIXED


def test_a_system_that_allows_no_such_room_is_told():
    told = []
    genicam.widen(Stream(), 1, told.append, lambda _: 212_992)
    (line,) = told
    assert "has 212992 bytes, of 4000000" in line
    command = "net.core.rmem_max=33554432"
    assert line.endswith(f"sudo sysctl {command}")
    # What the package sets at the boot is the same.
    shipped = (conftest.TOP / "packaging/sysctl.conf").read_text().splitlines()[-1]
    assert shipped.replace(" ", "") == command


def test_the_system_says_what_it_allows():
    most = int(Path("/proc/sys/net/core/rmem_max").read_text())
    assert genicam.socket_room(1 << 30) == most and genicam.socket_room(100_000) == 100_000


def test_a_stream_of_the_network_takes_it(network):
    network.start()
    wanted = words.wanted(of(network))
    told = []
    camera = conftest.until("the camera is there", lambda: opened(wanted, told))
    stream = camera.camera.create_stream(None, None)
    genicam.widen(stream, camera.payload, told.append)
    assert stream.get_property("socket-buffer-size") == 4_000_000
    camera.close()


def opened(wanted, told):
    """The camera, once it is there."""
    try:
        return genicam.Camera(wanted, told.append)
    except genicam.Gone:
        return None


def whole(it):
    """Each frame that was given on is one that the camera gave, whole, and none is there twice."""
    _, frames, rest = it.text()
    log = it.log()
    assert rest == b"" and len(frames) == len(log)
    for (time, data), (number, stamp, micros, crc) in zip(frames, log):
        assert data == test_fake.picture(number, "Mono16") and zlib.crc32(data) == crc
        assert time == micros == stamp // 1000
    return frames, log


def test_frames_of_the_network_are_the_cameras(camera, network):
    network.start()
    it = camera(of(network))
    it.count(100)
    assert it.stop() == 0
    whole(it)
    assert f"filming {network.serial}: 40x30 gray16le 50 a second of Mono16" in it.told()


def test_incomplete_frames_are_told_and_dropped(camera, network):
    # A frame of 100x100 has 15 packets, of which each thirtieth is lost: two frames of five.
    network.start("-r", "30")
    it = camera(of(network).replace("40x30", "100x100"))
    it.says(r"frames? incomplete and dropped.*since the start \d+ frames given on")
    it.count(20)
    assert it.stop() == 0
    _, frames, rest = it.text()
    log = it.log()
    assert rest == b"" and len(frames) == len(log) >= 20
    assert [zlib.crc32(data) for _, data in frames] == [crc for *_, crc in log]
    sums = it.says(r"ended: (\d+) frames given on, (\d+) frames? incomplete")
    assert int(sums[1]) == len(frames) and int(sums[2]) > 0
    for (_, data), (number, *_) in zip(frames, log):
        rows = [data[at : at + 200] for at in range(0, len(data), 200)]
        assert [row[1::2] for row in rows] == [
            bytes((x + y + number) % 255 for x in range(100)) for y in range(100)
        ]


def test_a_camera_that_goes_away_is_waited_for(camera, network):
    network.start()
    it = camera(of(network))
    it.count(20)
    network.kill()
    it.says(f"^left: waiting for {network.serial}: ")
    seen = len(it.log())
    network.start()
    it.count(seen + 20)
    assert it.stop() == 0
    frames, _ = whole(it)
    assert all(before < after for (before, _), (after, _) in zip(frames, frames[1:]))
    assert it.out.read_bytes().count(b"YUV4MPEG2") == 1
