"""A device of V4L2 without hardware: it answers the kernel's calls, and gives what a test says. It
knows the structures alone, and nothing of the program that reads it.

As a program it stands before loop_camera: the same words, over a device at each path that is there,
which gives a moving ramp at the rate that it is asked for.

    fake_device.py LOOP_CAMERA [WORDS..]
"""
import ctypes as c
import errno
import mmap
import os
import sys
import time
from pathlib import Path
from typing import NamedTuple

if __name__ == "__main__":
    PROGRAM = Path(sys.argv[1]).resolve()
    for place in ("../share/lapyrei", "../tools", "../../tools", "."):
        sys.path.insert(1, os.path.normpath(PROGRAM.parent / place))
    sys.dont_write_bytecode = True

from station_camera import videodev as v  # noqa: E402


class Given(NamedTuple):
    """A frame that the device gives: its number, its parts, its flags, its time by the kernel's
    clock in microseconds, and where the bytes of each part begin."""

    number: int
    parts: list
    flags: int = v.CLOCK_IS_MONOTONIC
    micros: int = 0
    starts: tuple = (0, 0, 0)


class Event(NamedTuple):
    """An event."""

    type: int = v.SOURCE_CHANGE


GONE, SILENT = "gone", "silent"


class Knob:
    """A control."""

    def __init__(self, id, kind, name, least=0, most=0, step=1, now=0, flags=0, menu=None):
        self.id, self.kind, self.name, self.now = id, kind, name, now
        self.least, self.most, self.step, self.flags, self.menu = least, most, step, flags, menu


class Device(v.Calls):
    """The device. What it gives is taken from `things`, one after the other; it is over when there
    are none left."""

    def __init__(self, things=(), fourcc="YUYV", size=(8, 4), strides=(0,), **more):
        self.things, self.formats, self.size, self.strides = list(things), [fourcc], size, strides
        self.type, self.field, self.rate, self.knobs = v.CAPTURE, v.WHOLE, (30, 1), []
        self.most, self.caps, self.faults, self.card = 32, None, {}, b"A fake"
        self.sizes, self.rates, self.sizeimage, self.takes_rates = [size], [(30, 1)], 4096, True
        self.__dict__.update(more)
        self.opened, self.set, self.asked, self.is_over, self.now = 0, [], [], False, None
        self.queue, self.filled, self.events, self.is_on = [], [], [], False

    def over(self):
        """Whether all was given."""
        return self.is_over

    # The calls.

    def open(self, path):
        self._fail("open")
        self.opened += 1
        self.path, self.queue, self.filled, self.events, self.is_on = path, [], [], [], False
        return 100 + self.opened

    def close(self, descriptor):
        self.is_on = False

    def map(self, descriptor, length, offset):
        index, part = divmod(offset, 16)
        return self.memory[index][part]

    def wait(self, descriptor, seconds):
        thing = self.things.pop(0) if self.things else None
        if thing is None:
            self.is_over = True
        elif thing is SILENT:
            time.sleep(seconds)
        elif thing is GONE:
            self.faults["ioctl"] = errno.ENODEV
            return True, False
        elif isinstance(thing, Event):
            self.events.append(thing)
        else:
            self._fill(thing)
        return bool(self.filled), bool(self.events)

    def ioctl(self, descriptor, word, what):
        name = next(it for it in NAMES if getattr(v, it) == word)
        self.asked.append(name)
        self._fail("ioctl")
        self._fail(name)
        getattr(self, name.lower())(what)

    def _fail(self, name):
        if name in self.faults:
            raise OSError(self.faults[name], os.strerror(self.faults[name]))

    def _refuse(self, number=errno.EINVAL):
        raise OSError(number, os.strerror(number))

    def querycap(self, it):
        own = v.CAN_CAPTURE if self.type == v.CAPTURE else v.CAN_CAPTURE_PLANES
        it.device_caps = own | v.CAN_STREAM if self.caps is None else self.caps
        it.capabilities, it.card = it.device_caps | v.HAS_DEVICE_CAPS, self.card

    def enum_fmt(self, it):
        if it.index >= len(self.formats):
            self._refuse()
        it.pixelformat = v.number_of(self.formats[it.index])

    def enum_framesizes(self, it):
        if it.index >= len(self.sizes):
            self._refuse()
        it.type, (it.width, it.most_width) = v.DISCRETE, self.sizes[it.index]

    def enum_frameintervals(self, it):
        if it.index >= len(self.rates):
            self._refuse()
        it.type, (it.denominator, it.numerator) = v.DISCRETE, self.rates[it.index]

    def g_fmt(self, it):
        self._tell(it, self.formats[0])

    def s_fmt(self, it):
        of = it.of.pix if self.type == v.CAPTURE else it.of.planes
        asked = v.word_of(of.pixelformat)
        self._tell(it, asked if asked in self.formats else self.formats[0])

    def _tell(self, it, fourcc):
        if it.type != self.type:
            self._refuse()
        of = it.of.pix if self.type == v.CAPTURE else it.of.planes
        (of.width, of.height), of.field = self.size, self.field
        of.pixelformat = v.number_of(fourcc)
        if self.type == v.CAPTURE:
            of.bytesperline, of.sizeimage = self.strides[0], self.sizeimage
            return
        of.num_planes = len(self.strides)
        for plane, stride in zip(of.plane_fmt, self.strides):
            plane.bytesperline, plane.sizeimage = stride, self.sizeimage

    def g_parm(self, it):
        if not self.rate:
            self._refuse(errno.ENOTTY)
        it.of.capture.denominator, it.of.capture.numerator = self.rate

    def s_parm(self, it):
        of = it.of.capture
        if self.takes_rates and self.rate and (of.denominator, of.numerator) in self.rates:
            self.rate = of.denominator, of.numerator
        self.g_parm(it)

    def g_input(self, it):
        self._refuse(errno.ENOTTY)

    def subscribe_event(self, it):
        if it.type != v.SOURCE_CHANGE:
            self._refuse()

    def dqevent(self, it):
        if not self.events:
            self._refuse(errno.ENOENT)
        it.type = self.events.pop(0).type

    def reqbufs(self, it):
        self.count = it.count = min(it.count, self.most)
        parts = range(len(self.strides))
        self.memory = [[mmap.mmap(-1, self.sizeimage) for _ in parts] for _ in range(it.count)]

    def querybuf(self, it):
        if self.type == v.CAPTURE:
            # The upper half isn't the offset's.
            it.length, it.place = self.sizeimage, 16 * it.index | 0x5A << 32
            return
        planes = (v.Plane * it.length).from_address(it.place)
        it.length = len(self.strides)
        for part, plane in zip(range(it.length), planes):
            plane.length, plane.offset = self.sizeimage, 16 * it.index + part

    def qbuf(self, it):
        if it.index in self.queue or self.type != v.CAPTURE and it.length != len(self.strides):
            self._refuse()
        self.queue.append(it.index)

    def streamon(self, it):
        if it.value != self.type:
            self._refuse()
        self.is_on = True

    def streamoff(self, it):
        self.is_on = False

    def _fill(self, given):
        """A frame comes: into the first free buffer, or nowhere."""
        if not self.queue or not self.is_on:
            return
        index = self.queue.pop(0)
        for memory, part, start in zip(self.memory[index], given.parts, given.starts):
            memory[start : start + len(part)] = part
        self.filled.append((index, given))

    def dqbuf(self, it):
        if not self.filled:
            self._refuse(errno.EAGAIN)
        it.index, given = self.filled.pop(0)
        it.sequence, it.flags = given.number, given.flags
        it.seconds, it.micros = divmod(given.micros, 1_000_000)
        used = [start + len(part) for start, part in zip(given.starts, given.parts)]
        if self.type == v.CAPTURE:
            it.bytesused = used[0]
            return
        planes = (v.Plane * it.length).from_address(it.place)
        it.length = len(used)
        for plane, bytes_used, start in zip(planes, used, given.starts):
            plane.bytesused, plane.data_offset = bytes_used, start

    # Controls.

    def query_ext_ctrl(self, it):
        after = it.id & ~v.NEXT_CONTROL
        knob = min((k for k in self.knobs if k.id > after), key=lambda k: k.id, default=None)
        if knob is None:
            self._refuse()
        it.id, it.type, it.name, it.flags = knob.id, knob.kind, knob.name.encode(), knob.flags
        it.minimum, it.maximum, it.step = knob.least, knob.most, knob.step

    def querymenu(self, it):
        knob = next(k for k in self.knobs if k.id == it.id)
        if it.index not in knob.menu:
            self._refuse()
        if knob.kind == v.MENU:
            it.of.name = knob.menu[it.index].encode()
        else:
            it.of.value = knob.menu[it.index]

    def g_ext_ctrls(self, it):
        one = it.controls[0]
        knob = next(k for k in self.knobs if k.id == one.id)
        if knob.kind == v.STRING:
            c.memmove(one.of.text, knob.now + b"\0", len(knob.now) + 1)
        elif knob.kind == v.INTEGER64:
            one.of.value64 = knob.now
        else:
            one.of.value = c.c_int32(knob.now).value

    def s_ext_ctrls(self, it):
        one = it.controls[0]
        knob = next(k for k in self.knobs if k.id == one.id)
        if knob.flags & v.INACTIVE:
            self._refuse(errno.EACCES)
        value = one.of.value64 if knob.kind == v.INTEGER64 else one.of.value
        if knob.kind == v.STRING:
            value = c.string_at(one.of.text)
        knob.now = value
        self.set.append((knob.name, value))


NAMES = (
    "QUERYCAP ENUM_FMT G_FMT S_FMT REQBUFS QUERYBUF QBUF DQBUF STREAMON STREAMOFF G_PARM S_PARM "
    "ENUMINPUT G_INPUT QUERYMENU G_EXT_CTRLS S_EXT_CTRLS ENUM_FRAMESIZES ENUM_FRAMEINTERVALS "
    "S_DV_TIMINGS QUERY_DV_TIMINGS DQEVENT SUBSCRIBE_EVENT QUERY_EXT_CTRL"
).split()


class Ramp(Device):
    """A device that gives YUYV at a rate for as long as its path is there."""

    def __init__(self, path):
        super().__init__(size=None, rates=())
        self.number, self.path = 0, path

    def open(self, path):
        if not os.path.exists(path):
            self._refuse(errno.ENOENT)
        self.number, self.began = 0, time.monotonic()
        return super().open(path)

    def s_fmt(self, it):
        self.size = it.of.pix.width, it.of.pix.height
        self.strides, self.sizeimage = [2 * self.size[0]], 2 * self.size[0] * self.size[1]
        super().s_fmt(it)

    def g_fmt(self, it):
        if self.size:
            super().g_fmt(it)

    def s_parm(self, it):
        self.rate = it.of.capture.denominator, it.of.capture.numerator

    def querycap(self, it):
        if not os.path.exists(self.path):
            self._refuse(errno.ENODEV)
        super().querycap(it)

    def wait(self, descriptor, seconds):
        if not os.path.exists(self.path):
            self.faults["DQBUF"] = errno.ENODEV
            return True, False
        self.faults.pop("DQBUF", None)
        due = self.began + self.number * self.rate[1] / self.rate[0]
        time.sleep(max(0, min(seconds, due - time.monotonic())))
        if time.monotonic() >= due:
            row = bytes((x + self.number) % 256 for x in range(2 * self.size[0]))
            micros = time.monotonic_ns() // 1000
            self._fill(Given(self.number, [row * self.size[1]], micros=micros))
            self.number += 1
        return bool(self.filled), False


if __name__ == "__main__":
    import signal

    from station_camera import program, words

    signal.signal(signal.SIGPIPE, signal.SIG_IGN)
    given = program.options(sys.argv[2:])
    wanted = words.wanted(Path(given.file).read_text(encoding="utf-8"))

    def tell(line):
        print(f"{Path(given.file).stem}: {line}", file=sys.stderr, flush=True)

    sys.exit(program.film(given, tell, Ramp(wanted.device)))
