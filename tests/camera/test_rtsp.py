"""loop_camera over a real RTSP server (rtsp.py, which is GStreamer's): frames come by ffmpeg, as
the server filmed them, and a server that goes ends the program, so that its service asks again."""
import subprocess
import sys
from pathlib import Path

import pytest
from conftest import parsed, until

SERVER = Path(__file__).with_name("rtsp.py")
SIZE, RATE = "96x64", 10
# The samples of GStreamer's red. JPEG's have the full range, so a store's have 219 and 224 of 255
# steps; and how far JPEG may be from that.
RED = 16 + 81 * 219 / 255, 128 + (90 - 128) * 224 / 255, 128 + (240 - 128) * 224 / 255
NEAR = 3


class Server:
    """The server, which is there until it is stopped."""

    def __init__(self):
        self.run = subprocess.Popen(
            [sys.executable, "-B", SERVER, SIZE, str(RATE)],
            stdin=subprocess.DEVNULL, stdout=subprocess.PIPE)
        self.port = int(self.run.stdout.readline())

    def stop(self):
        """Unplugs it."""
        self.run.kill()
        self.run.wait()
        self.run.stdout.close()


@pytest.fixture
def server():
    """A camera in the network."""
    it = Server()
    yield it
    it.stop()


def whole(it):
    """The header of what it has written, and the frames that are whole."""
    data = it.out.read_bytes()
    return parsed(data)[:2] if b"\n" in data else ({}, [])


def test_frames_of_a_real_server_are_as_it_films_them(camera, server):
    it = camera(f"SOURCE=rtsp://127.0.0.1:{server.port}/live\n")
    until("frames come", lambda: len(whole(it)[1]) >= 2 * RATE or it.run.poll() is not None)
    head, frames = whole(it)
    assert (head["W"], head["H"], head["F"], head["C"][:3]) == ("96", "64", "10:1", "420")
    luma = 96 * 64
    for _, data in frames:
        planes = data[:luma], data[luma : luma * 5 // 4], data[luma * 5 // 4 :]
        for plane, value in zip(planes, RED):
            assert value - NEAR <= min(plane) and max(plane) <= value + NEAR
    assert "it has no numbers, so the station estimates what is lost" in it.told()
    # A server that goes ends it.
    server.stop()
    assert it.wait() is not None


def test_size_and_rate_are_made_of_what_comes(camera, server):
    it = camera(f"SOURCE=rtsp://127.0.0.1:{server.port}/live\nSIZE=48x32\nRATE=5\n")
    until("frames come", lambda: len(whole(it)[1]) >= 5 or it.run.poll() is not None)
    head, frames = whole(it)
    assert (head["W"], head["H"], head["F"]) == ("48", "32", "5:1") and len(frames) >= 5
    # ffmpeg ends with 255 when it is told to.
    assert it.stop() == 255
