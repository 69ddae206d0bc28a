"""What vivid_check does in its guest: films the kernel's driver vivid by loop_camera, in each way
that `plan` names, and leaves the texts, what was said, and what the witness noted in /out. It
judges nothing.

video0 is a webcam, video1 one whose planes lie in several buffers, video2 a tuner, which gives
fields. Another webcam is usb_webcam.py's, which the driver uvcvideo films."""
import json
import os
import signal
import subprocess
import sys
import time
from pathlib import Path

WORK, OUT = Path("/work"), Path("/out")
PATIENCE = 120
# What the kernel calls the first camera, whichever path it has, and the webcam.
FIRST, WEBCAM = "vivid-000-vid-cap", "Lapyrei webcam"
BY_ID, WEBCAM_BY_ID = (Path("/dev/v4l/by-id", it) for it in ("usb-vivid", "usb-webcam"))
DRIVER = Path("/sys/bus/platform/drivers/vivid")


def until(what, holds):
    """Waits until something holds."""
    end = time.monotonic() + PATIENCE
    while not (answer := holds()):
        if time.monotonic() > end:
            print(f"{what}: not within {PATIENCE} s", flush=True)
            return None
        time.sleep(0.05)
    return answer


class Film:
    """loop_camera over a file, into a text or a pipe."""

    def __init__(self, variant, name, file, to=None):
        self.place = OUT / variant / name
        self.place.mkdir(parents=True)
        (self.place / "left.camera").write_text(file)
        environment = dict(os.environ, LD_PRELOAD="/lib/witness.so")
        environment["WITNESS"] = str(self.place / "witness")
        program = WORK / variant / "python/camera/loop_camera"
        words = ["left.camera", "--to", to or "text", "--log", "log"]
        with open(self.place / "said", "wb") as said:
            self.run = subprocess.Popen(
                ["/bin/python3", "-B", str(program), *words],
                cwd=self.place,
                env=environment,
                stdin=subprocess.DEVNULL,
                stderr=said,
            )

    def counted(self):
        """How many frames it has given."""
        path = self.place / "log"
        return path.read_bytes().count(b"\n") if path.exists() else 0

    def count(self, least):
        """Waits for so many frames."""

        def enough():
            return self.counted() >= least or self.run.poll() is not None

        until(f"{self.place}: {least} frames", enough)

    def more(self, count):
        """Waits for so many frames from now on."""
        self.count(self.counted() + count)

    def says(self, words):
        """Waits until it has said something."""
        path = self.place / "said"
        until(f"{self.place} says {words}", lambda: words in path.read_text())

    def stop(self):
        """Ends it."""
        self.run.send_signal(signal.SIGTERM)
        self.end()

    def end(self):
        """Waits for its end, and notes its status."""
        (self.place / "status").write_text(str(self.run.wait(PATIENCE)))


class Knobs:
    """The driver's own controls, by which it drops frames and marks them as faulty. They are set by
    the true loop_camera's modules."""

    def __init__(self, path):
        sys.path[1:1] = [str(WORK / "true/python/camera"), str(WORK / "true/tools")]
        from station_camera import controls, v4l2, videodev

        self.controls, self.handle = controls, v4l2.Handle(path, videodev.Calls())

    def set(self, **values):
        """Sets some."""
        words = [(name, str(value)) for name, value in values.items()]
        self.controls.settle(self.handle.raw, words, print)

    def get(self, name):
        """What one is now."""
        known = {it.name: it for it in self.controls.items(self.handle.raw)}
        return self.controls.read(self.handle.raw, known[name])

    def press(self, name):
        """Presses a button."""
        self.controls.settle(self.handle.raw, [(name, "")], print)


def formats(variant, given):
    """Three frames of each format, of one buffer and of several."""
    size = "SIZE=320x180\nRATE=10\n"
    several(
        variant,
        [
            (f"{device}-{word}", f"DEVICE=/dev/{device}\nDEVICE_FORMAT={word}\n{size}")
            for device, words in given.items()
            for word in words
        ],
    )


def refusals(variant, _):
    """What the driver doesn't take."""
    several(
        variant,
        [
            ("format", "DEVICE=/dev/video0\nDEVICE_FORMAT=MJPG\nSIZE=320x180\nRATE=10\n"),
            ("size", "DEVICE=/dev/video0\nDEVICE_FORMAT=GREY\nSIZE=333x181\nRATE=10\n"),
            ("fields", "DEVICE=/dev/video2\nDEVICE_FORMAT=GREY\n"),
            ("control", "DEVICE=/dev/video0\nRATE=10\nCONTROL_brightness=256\n"),
        ],
    )


def several(variant, films):
    """Three frames of each film, all by one process: a start of Python takes long here."""
    environment = dict(os.environ, LD_PRELOAD="/lib/witness.so")
    words = ["/bin/python3", "-B", __file__, "films", variant]
    run = subprocess.Popen(words, env=environment, stdin=subprocess.PIPE)
    run.communicate(json.dumps(films).encode(), timeout=4 * PATIENCE)
    if run.returncode:
        print(f"{variant}: films ended with {run.returncode}", flush=True)


def films_inside(variant):
    """The same, in that process."""
    sys.path[1:1] = [str(WORK / variant / "python/camera"), str(WORK / variant / "tools")]
    from station_camera import program

    shown = sys.stderr
    for name, file in json.load(sys.stdin):
        place = OUT / variant / name
        place.mkdir(parents=True)
        os.chdir(place)
        Path("left.camera").write_text(file)
        # The witness asks for these at each frame.
        os.environ.update(WITNESS=str(place / "witness"), WITNESS_RAW=str(place / "raw"))
        try:
            with open("said", "w") as sys.stderr:
                status = program.main(["left.camera", "--to", "text", "--frames", "3"], "")
        finally:
            sys.stderr = shown
        Path("status").write_text(str(status))


GREY = "DEVICE_FORMAT=GREY\nSIZE=320x180\nRATE=20\n"


def numbers(variant, _):
    """Frames dropped and marked as faulty by the driver, and numbers that go round."""
    knobs = Knobs("/dev/video0")
    knobs.set(wrap_sequence_number=1)
    it = Film(variant, "numbers", "DEVICE=/dev/video0\nCONTROL_brightness=90\n" + GREY)
    it.count(10)
    for _ in range(3):
        knobs.press("inject_v4l2_buf_flag_error")
        time.sleep(0.4)
    knobs.set(percentage_of_dropped_buffers=30)
    # By now the film may be anywhere: what is said takes frames too.
    it.more(30)
    knobs.set(percentage_of_dropped_buffers=0)
    it.count(130)
    it.stop()
    knobs.set(wrap_sequence_number=0)
    knobs.handle.close()


def slow(variant, _):
    """A reader that stands still for two seconds, of frames that no pipe holds."""
    pipe = OUT / "pipe"
    os.mkfifo(pipe)
    file = "DEVICE=/dev/video0\nDEVICE_FORMAT=GREY\nSIZE=640x360\nRATE=10\n"
    it = Film(variant, "slow", file, to=str(pipe))
    with open(pipe, "rb") as taken, open(it.place / "text", "wb") as text:
        for pause in (0, 2.0, 0):
            for _ in range(12):
                text.write(taken.read(640 * 360))
            time.sleep(pause)
        it.run.send_signal(signal.SIGTERM)
        while piece := taken.read(1 << 16):
            text.write(piece)
    it.end()
    pipe.unlink()


def first(name=FIRST):
    """A camera's path below /dev now, found as udev does: by what it is; of a webcam's two the one
    that gives pictures. All three of vivid are one device to it, and come and go together."""
    for path in Path("/sys/class/video4linux").glob("video*"):
        is_it = (path / "name").read_text().startswith(name)
        if is_it and (path / "index").read_text() == "0\n" and Path("/dev", path.name).exists():
            return path.name
    return None


def unplugged(variant, _):
    """The device is unplugged while somebody has it open, so it comes back as another one."""
    BY_ID.parent.mkdir(parents=True, exist_ok=True)
    BY_ID.unlink(missing_ok=True)
    BY_ID.symlink_to(f"/dev/{first()}")
    it = Film(variant, "unplugged", "DEVICE=/dev/video0\nCONTROL_brightness=90\n" + GREY)
    it.count(20)
    held = os.open("/dev/video0", os.O_RDWR)
    (DRIVER / "unbind").write_text("vivid.0")
    BY_ID.unlink()
    it.says("it has gone")
    (DRIVER / "bind").write_text("vivid.0")
    new = until("it is there again", first) or ""
    (it.place / "became").write_text(new)
    BY_ID.symlink_to(f"/dev/{new}")
    it.more(25) if variant == "true" else time.sleep(4)
    knobs = Knobs(f"/dev/{new}")
    (it.place / "brightness").write_text(str(knobs.get("brightness")))
    knobs.handle.close()
    it.stop()
    os.close(held)
    # As it was, for the next one.
    (DRIVER / "unbind").write_text("vivid.0")
    (DRIVER / "bind").write_text("vivid.0")


def plugged(device):
    """Plugs a webcam in; answers its path below /dev."""
    device.plug()
    path = until("the webcam is there", lambda: first(WEBCAM)) or ""
    WEBCAM_BY_ID.parent.mkdir(parents=True, exist_ok=True)
    WEBCAM_BY_ID.unlink(missing_ok=True)
    WEBCAM_BY_ID.symlink_to(f"/dev/{path}")
    return path


def webcam(variant, words):
    """A webcam of USB by the kernel's own driver. It gives JPEGs, of which one is cut off and one
    marked as faulty, is unplugged while somebody has it open, and plugged in again; last it gives
    YUYV."""
    from usb_webcam import MJPG, YUYV, Webcam

    pictures = {
        kind: [it.read_bytes() for it in sorted((WORK / "pictures").glob(f"{name}.*"))]
        for kind, name in ((MJPG, "MJPG"), (YUYV, "YUYV"))
    }
    device = Webcam(pictures, words["size"], 10, (words["cut"],), (words["faulty"],))
    path, size = plugged(device), "SIZE={}x{}\nRATE=10\n".format(*words["size"])
    file = f"DEVICE=/dev/{path}\nDEVICE_FORMAT=MJPG\nCONTROL_brightness=9\n{size}"
    it = Film(variant, "webcam", file)
    it.count(20)
    held = os.open(f"/dev/{path}", os.O_RDWR)
    device.unplug()
    WEBCAM_BY_ID.unlink()
    it.says("it has gone")
    device.brightness = bytes(2)
    new = plugged(device)
    it.more(20)
    it.stop()
    os.close(held)
    brightness = int.from_bytes(device.brightness, "little", signed=True)
    (it.place / "became").write_text(f"{path} {new} {brightness}")
    it = Film(variant, "webcam-YUYV", f"DEVICE=/dev/{new}\nDEVICE_FORMAT=YUYV\n{size}")
    it.count(15)
    it.stop()
    device.unplug()


def drop_one(knobs, film):
    """Lets the driver drop one frame of two a second: what comes from 0.15 s after a frame on, for
    as long as a frame takes."""
    before = film.counted()
    while film.counted() == before:
        time.sleep(0.001)
    time.sleep(0.15)
    knobs.set(percentage_of_dropped_buffers=100)
    time.sleep(0.5)
    knobs.set(percentage_of_dropped_buffers=0)


def station(variant, _):
    """loop_station stores what loop_camera films, and of which the driver drops one frame; then it
    says how the camera stands, and keeps all. One that is compiled without a proof is slow here: it
    takes 0.2 s for a frame."""
    place = OUT / variant / "station"
    place.mkdir(parents=True)
    os.mkfifo(place / "left.y4m")
    (place / "station.toml").write_text(
        'times = false\n[[camera]]\nname = "left"\nsource = "left.y4m"\nstore = "left.loop"\n'
        'bytes = 8000000\ntimes_from = "source"\n'
    )
    with open(place / "told", "wb") as told:
        run = subprocess.Popen(
            ["/bin/loop_station", "station.toml"], cwd=place, stdin=subprocess.PIPE, stdout=told
        )
    knobs = Knobs("/dev/video0")
    file = "DEVICE=/dev/video0\nDEVICE_FORMAT=GREY\nSIZE=320x180\nRATE=2\n"
    film = Film(variant, "filmed", file, to=str(place / "left.y4m"))
    film.count(20)
    drop_one(knobs, film)
    film.count(60)
    film.stop()
    knobs.handle.close()
    time.sleep(2)
    for order in (b"status\n", b"keep left 60\n"):
        run.stdin.write(order)
        run.stdin.flush()
        time.sleep(1)
    run.communicate(b"stop\n", timeout=PATIENCE)
    (place / "left.y4m").unlink()


def listed(variant, _):
    """What is there."""
    program = WORK / variant / "python/camera/loop_camera"
    done = subprocess.run(["/bin/python3", "-B", program, "--list"], capture_output=True, text=True)
    (OUT / "list").write_text(done.stdout + done.stderr)


STEPS = (listed, formats, refusals, numbers, slow, unplugged, webcam, station)
STEPS = {it.__name__: it for it in STEPS}


def main():
    """Does what the plan says: for each form of loop_camera, its steps."""
    for variant, steps in json.loads((WORK / "plan").read_text()):
        for name, words in steps.items():
            print(f"    {variant}: {name}", flush=True)
            try:
                STEPS[name](variant, words)
            except Exception as fault:
                # What is missing then, the judge finds.
                print(f"{variant}: {name}: {type(fault).__name__}: {fault}", flush=True)


if __name__ == "__main__":
    films_inside(sys.argv[2]) if sys.argv[1:2] == ["films"] else main()
