"""Films a device that stands in, and leaves what vivid_check's guest leaves: texts, what was said,
and what the kernel gave, as a device tells it that knows nothing of loop_camera.

    witnessed.py FOLDER        LOOP_CAMERA names the program whose modules are taken
"""
import random
import sys
import time
import zlib
from pathlib import Path

import conftest  # noqa: F401
import test_v4l2
from fake_device import Device, Given

from station_camera import planes
from station_camera import videodev as v

# Numbers that go round, of which three are missing.
FIRST, COUNT, MISSING, FAULTY = (1 << 32) - 10, 40, (5, 6, 17), (8, 20)


class Witnessed(Device):
    """A device that notes what it gives, as witness.c does."""

    folder = None

    def note(self, line):
        with open(self.folder / "witness", "a") as file:
            file.write(line + "\n")

    def streamon(self, it):
        super().streamon(it)
        self.note("start")

    def dqbuf(self, it):
        given = self.filled[0][1] if self.filled else None
        super().dqbuf(it)
        clocks = f"{time.monotonic_ns()} {time.time_ns()}"
        parts = " ".join(f"{len(part)}:{zlib.crc32(part)}" for part in given.parts)
        self.note(f"frame {given.number} {given.flags} {given.micros} {clocks} {parts}")
        for part, data in enumerate(given.parts):
            (self.folder / f"raw.{given.number}.{part}").write_bytes(data)


def film(folder, device):
    """Films a device into a folder."""
    folder.mkdir(parents=True)
    device.folder = folder
    run = test_v4l2.Run(folder, device)
    (folder / "out.y4m").rename(folder / "text")
    (folder / "said").write_text("\n".join(run.told))
    (folder / "status").write_text("0" if run.fault is None else "1")


def moment(number):
    """When a frame was taken: not when it comes."""
    return time.monotonic_ns() // 1000 - 900_000 + 20_000 * number


def formats(folder, words):
    """Three frames of each format."""
    for name in words:
        made, things = random.Random(name), []
        for number in range(3):
            parts, strides = [made.randbytes(3 * 8 * 6)], [3 * 8]
            if planes.LAYS[name].how != "rgb":
                parts, _, strides = test_v4l2.laid_out(name, 8, 6, 0, made)
            things.append(Given(number, parts, micros=moment(number)))
        more = dict(type=v.CAPTURE_PLANES) if len(strides) > 1 else {}
        film(folder / f"video0-{name}", Witnessed(things, name, (8, 6), [0] * len(strides), **more))


def numbers(folder):
    """Frames of which some are missing, and some faulty."""
    made, things = random.Random(5), []
    for place in (it for it in range(COUNT) if it not in MISSING):
        flags = v.CLOCK_IS_MONOTONIC | (v.IS_FAULTY if place in FAULTY else 0)
        number = (FIRST + place) % (1 << 32)
        things.append(Given(number, [made.randbytes(32)], flags, moment(place)))
    film(folder / "numbers", Witnessed(things, "GREY", (8, 4), [0], sizeimage=64))


if __name__ == "__main__":
    place = Path(sys.argv[1])
    formats(place, [it for it in planes.LAYS if it in sys.argv[2:]])
    numbers(place)
