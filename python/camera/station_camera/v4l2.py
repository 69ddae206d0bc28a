"""Cameras of Linux (V4L2), by the kernel's own calls: buffers are mapped, queued, and taken in the
order in which they were filled. Each frame has the kernel's number and time.

A frame that the driver marks as faulty, or that is shorter than its format, is counted as
incomplete; one whose number is missing is counted as lost."""
from __future__ import annotations

import ctypes as c
import errno
import glob
import os
import time
from fractions import Fraction
from typing import Any, Callable, Iterator, NamedTuple

from . import controls, planes
from . import videodev as v
from .clock import Clock
from .counts import Counts, Numbers
from .faults import Gone, Refused, Shorter
from .text import BadFrames, Form
from .words import Wanted

# What buffers may take while nobody reads, and how many they are at least and at most: the kernel
# gives no more.
BUFFER_ROOM, BUFFERS_LEAST, BUFFERS_MOST = 256_000_000, 4, 32
# How long a wait for a frame is, after which silence a device is asked whether it is there, and
# after which one that is there is started again.
POLL, SILENCE, STUCK = 0.2, 2.0, 10.0
# How often the clocks are compared.
CLOCK_EVERY = 1.0
LASTING = "/dev/v4l/by-id"
# Faults of a device that isn't there, or that another program has.
AWAY = (errno.ENOENT, errno.ENXIO, errno.ENODEV, errno.EIO, errno.EBUSY)
WHY = {
    errno.EACCES: "no permission: the user has to be in the group video",
    errno.EBUSY: "another program has it",
    errno.EIO: "it has failed",
    errno.ENODEV: "it has gone",
    errno.ENOENT: "it isn't there",
    errno.ENXIO: "it isn't there",
    errno.ENOSPC: "its USB has no room left: choose fewer or smaller frames, MJPG, or another port",
}
# Inputs without a signal.
NO_SIGNAL = (errno.ENOLINK, errno.ENOLCK, errno.ERANGE)


class Mode(NamedTuple):
    """What a device gives: the format's four letters, the size, and the rates."""

    format: str
    width: int
    height: int
    rates: list[str]


class Found(NamedTuple):
    """A device: its path, which stays its own where there is one such, its name, its modes and a
    line for each control; or why it doesn't say them."""

    device: str
    name: str
    modes: list[Mode]
    controls: list[str] = []
    why: str = ""


class Picture(NamedTuple):
    """A whole frame: the kernel's number, its time in nanoseconds of the kernel's clock (0 where
    the driver has none), when it came by the system's clock, and its bytes: a part for each memory
    plane. Of a JPEG also what is in it: its size, the colour of its planes, and these."""

    number: int
    stamp: int
    arrival: int
    parts: list[Any]
    decoded: tuple[int, int, str, list[Any]] | None = None

    @property
    def data(self) -> Any:
        """Its bytes as they came."""
        return self.parts[0] if len(self.parts) == 1 else b"".join(self.parts)


class Took(NamedTuple):
    """What a device has taken to give: the format, the size, the bytes of a row of each memory
    plane (0: without padding), and those of a whole frame."""

    lay: planes.Lay
    width: int
    height: int
    strides: list[int]
    size: int


def lasting(path: str, folder: str = LASTING) -> str:
    """The name of a device that stays with it, or its path."""
    for link in sorted(glob.glob(f"{folder}/*")):
        if os.path.realpath(link) == os.path.realpath(path):
            return link
    return path


def said(path: str, fault: OSError, what: str = "") -> Exception:
    """A fault of the system as one of ours: that a device isn't there for us now, or that it
    doesn't take what it is asked for."""
    why = (f"{what}: " if what else "") + (WHY.get(fault.errno or 0) or fault.strerror or "")
    return Gone(why) if fault.errno in AWAY else Refused(f"{path}: {why}")


def taken(path: str, type_: int, given: v.Format, wanted: Wanted) -> Took:
    """What a device's answer to a format means; refused where it isn't what the file asks for, or
    none that is read."""
    is_many = type_ == v.CAPTURE_PLANES
    of = given.of.planes if is_many else given.of.pix
    fourcc, width, height = v.word_of(of.pixelformat), of.width, of.height
    try:
        asked = planes.lay_of(wanted.device_format) if wanted.device_format else None
        size = (wanted.region.width, wanted.region.height) if wanted.region else (width, height)
        if asked and asked.fourcc != fourcc or size != (width, height):
            word = asked.fourcc if asked else fourcc
            raise Refused(
                f"{path} takes {width}x{height} {fourcc}, and not {size[0]}x{size[1]} {word}"
            )
        lay = planes.lay_of(fourcc)
    except planes.UnknownFormat as fault:
        raise Refused(str(fault)) from None
    if of.field not in (v.ANY_FIELD, v.WHOLE):
        raise Refused(f"{path} gives fields (interlaced), and not whole frames")
    memory = list(of.plane_fmt[: of.num_planes]) if is_many else [of]
    strides = [it.bytesperline for it in memory]
    if lay.how == "jpeg":
        strides = [0]
    elif strides[0] and strides[0] < planes.row_bytes(lay, width):
        raise Refused(f"{path} gives rows of {strides[0]} bytes for {width} pixels of {fourcc}")
    return Took(lay, width, height, strides, sum(it.sizeimage for it in memory))


def rate_in(parm: v.Parm) -> Fraction | None:
    """The rate that a device says, where it does."""
    it = parm.of.capture
    if not it.numerator or not it.denominator:
        return None
    return Fraction(it.denominator, it.numerator).limit_denominator(1_000_000)


def rate_of(wanted: Wanted, said_rate: Fraction | None, tell: Callable[[str], None]) -> Fraction:
    """The rate of the frames: the file's, unless the device says another."""
    asked = wanted.rate
    if said_rate is None:
        if asked is None:
            raise Refused("RATE is missing: the device doesn't say how many frames a second it has")
        return asked
    if asked and abs(said_rate - asked) > asked / 200:
        tell(f"RATE={wanted.rate_word}: the camera gives {float(said_rate):.6g} a second")
        return said_rate
    return asked or said_rate


def buffers_for(size: int, wanted: int | None) -> int:
    """How many buffers are asked for."""
    return wanted or max(BUFFERS_LEAST, min(BUFFERS_MOST, BUFFER_ROOM // max(1, size)))


def stamp_of(it: v.Buffer) -> int:
    """A frame's time by the kernel's clock, or 0 where the driver has another clock, or none."""
    if it.flags & v.CLOCK != v.CLOCK_IS_MONOTONIC:
        return 0
    return (it.seconds * 1_000_000 + it.micros) * 1000


class Handle:
    """An open device, and what is asked of it."""

    def __init__(self, path: str, calls: v.Calls) -> None:
        self.path, self.calls, self.is_on = path, calls, False
        self.maps: list[list[Any]] = []
        try:
            self.descriptor = calls.open(path)
        except OSError as fault:
            raise said(path, fault) from None
        try:
            self.can = v.Capability()
            self.ask(v.QUERYCAP, self.can, "it doesn't say what it is")
            caps, one = self.can.capabilities, self.can.device_caps
            self.caps = one if caps & v.HAS_DEVICE_CAPS else caps
        except BaseException:
            self.close()
            raise

    def type(self) -> int | None:
        """The type of its buffers, or None where it gives no frames by buffers."""
        if not self.caps & v.CAN_STREAM:
            return None
        if self.caps & v.CAN_CAPTURE:
            return v.CAPTURE
        return v.CAPTURE_PLANES if self.caps & v.CAN_CAPTURE_PLANES else None

    def raw(self, word: int, what: Any) -> None:
        """Makes a call; a refusal is an OSError."""
        self.calls.ioctl(self.descriptor, word, what)

    def ask(self, word: int, what: Any, name: str) -> None:
        """Makes a call; a refusal is one of ours, with a name."""
        try:
            self.raw(word, what)
        except OSError as fault:
            raise said(self.path, fault, name) from None

    def takes(self, word: int, what: Any) -> bool:
        """Makes a call that a device may not have; whether it has."""
        try:
            self.raw(word, what)
        except OSError as fault:
            if fault.errno == errno.ENODEV:
                raise said(self.path, fault) from None
            return False
        return True

    def close(self) -> None:
        """Ends the stream, and gives the device back."""
        if self.is_on:
            try:
                self.raw(v.STREAMOFF, c.c_int(self.type() or 0))
            except OSError:
                # It has gone.
                pass
            self.is_on = False
        for parts in self.maps:
            for it in parts:
                try:
                    it.close()
                except BufferError:
                    # Somebody looks at a frame still: it goes with the look.
                    pass
        self.maps = []
        self.calls.close(self.descriptor)


class Camera:
    """A camera that was opened and set as a file asks for."""

    # What it takes while it films.
    AT_ONCE = ("CONTROL_",)

    def __init__(
        self,
        wanted: Wanted,
        tell: Callable[[str], None],
        path: str | None = None,
        calls: v.Calls | None = None,
    ) -> None:
        self.wanted, self.tell = wanted, tell
        self.path = path or wanted.device or ""
        self.handle = Handle(self.path, calls or v.Calls())
        try:
            type_ = self.handle.type()
            if type_ is None:
                raise Refused(f"{self.path} gives no frames by buffers")
            self.type = type_
            self.decoder: Any = None
            self.colour: str | None = None
            self._timings()
            self.took = self._format()
            self.rate = self._rate()
            self._controls()
            self._decode()
            self._request()
        except BaseException:
            self.close()
            raise

    def close(self) -> None:
        """Gives the camera back, so that it can be opened anew."""
        self.handle.close()

    def change(self, values: dict[str, str]) -> None:
        """Sets what may be set while it films."""
        given = [(key.removeprefix("CONTROL_"), value) for key, value in values.items()]
        try:
            controls.settle(self.handle.raw, given, self.tell)
        except controls.Wrong as fault:
            raise Refused(str(fault)) from None
        except OSError as fault:
            raise said(self.path, fault) from None

    def size(self) -> tuple[int, int]:
        """The size of its frames."""
        return self.took.width, self.took.height

    def takes(self) -> list[dict[str, Any]]:
        """What may be changed, with what it has now, and between which bounds."""
        return [
            {"word": f"CONTROL_{name}", **found}
            for name, found in controls.ranges(self.handle.raw).items()
        ]

    def _timings(self) -> None:
        """Takes the timing of an input's signal, where it has one (HDMI), and asks to be told where
        that changes."""
        number, it, found = c.c_int(), v.Input(), v.Timings()
        if self.handle.takes(v.G_INPUT, number):
            it.index = number.value
            has = self.handle.takes(v.ENUMINPUT, it) and it.capabilities & v.HAS_TIMINGS
            if has:
                try:
                    self.handle.raw(v.QUERY_DV_TIMINGS, found)
                    self.handle.raw(v.S_DV_TIMINGS, found)
                except OSError as fault:
                    if fault.errno in NO_SIGNAL:
                        raise Gone("it has no signal") from None
                    raise said(self.path, fault, "its signal") from None
        self.handle.takes(v.SUBSCRIBE_EVENT, v.Subscription(type=v.SOURCE_CHANGE, id=number.value))

    def _format(self) -> Took:
        """Sets format and size."""
        it, wanted = v.Format(type=self.type), self.wanted
        self.handle.ask(v.G_FMT, it, "its format")
        of = it.of.planes if self.type == v.CAPTURE_PLANES else it.of.pix
        if wanted.device_format:
            try:
                of.pixelformat = v.number_of(planes.lay_of(wanted.device_format).fourcc)
            except planes.UnknownFormat as fault:
                raise Refused(f"DEVICE_FORMAT: {fault}") from None
        if wanted.region:
            of.width, of.height = wanted.region.width, wanted.region.height
        of.field = v.WHOLE
        # The driver says how long rows are.
        if self.type == v.CAPTURE:
            of.bytesperline = of.sizeimage = 0
        else:
            of.plane_fmt = (v.PlanePix * v.PLANES_MOST)()
        self.handle.ask(v.S_FMT, it, f"DEVICE_FORMAT={wanted.device_format or ''}")
        return taken(self.path, self.type, it, wanted)

    def _rate(self) -> Fraction:
        """Sets the rate, and answers what it is."""
        parm, asked = v.Parm(type=self.type), self.wanted.rate
        if asked:
            parm.of.capture.numerator = asked.denominator
            parm.of.capture.denominator = asked.numerator
        has = self.handle.takes(v.S_PARM if asked else v.G_PARM, parm)
        return rate_of(self.wanted, rate_in(parm) if has else None, self.tell)

    def _controls(self) -> None:
        try:
            controls.settle(self.handle.raw, self.wanted.controls, self.tell)
        except controls.Wrong as fault:
            raise Refused(str(fault)) from None
        except OSError as fault:
            raise said(self.path, fault) from None

    def _decode(self) -> None:
        if self.took.lay.how != "jpeg":
            self.pieces = planes.pieces(
                self.took.lay, self.took.width, self.took.height, self.took.strides
            )
            return
        from . import jpeg

        # Whether a picture is whole its end tells.
        self.decoder, self.pieces = jpeg.Decoder(), []

    def _request(self) -> None:
        """Takes buffers, maps them, and gives them to the driver."""
        count = buffers_for(self.took.size, self.wanted.buffers)
        asked = v.Request(count=count, type=self.type, memory=v.MMAP)
        self.handle.ask(v.REQBUFS, asked, f"{count} buffers")
        if asked.count < 2:
            raise Refused(f"{self.path} has memory for {asked.count} buffers")
        for index in range(asked.count):
            it, memory = self._buffer(index)
            self.handle.ask(v.QUERYBUF, it, "a buffer")
            places = (
                [(part.length, part.offset) for part in memory[: it.length]]
                if self.type == v.CAPTURE_PLANES
                else [(it.length, it.place)]
            )
            self.handle.maps.append([self._map(*place) for place in places])
            self._give(index)

    def _map(self, length: int, place: int) -> Any:
        try:
            return self.handle.calls.map(self.handle.descriptor, length, place & 0xFFFFFFFF)
        except OSError as fault:
            raise said(self.path, fault, "a buffer's memory") from None

    def _buffer(self, index: int = 0) -> tuple[v.Buffer, Any]:
        """A buffer as the calls take it, and its planes."""
        it = v.Buffer(index=index, type=self.type, memory=v.MMAP)
        memory = (v.Plane * v.PLANES_MOST)()
        if self.type == v.CAPTURE_PLANES:
            it.place, it.length = c.addressof(memory), v.PLANES_MOST
        return it, memory

    def _give(self, index: int) -> None:
        """Gives a buffer to the driver."""
        it, memory = self._buffer(index)
        if self.type == v.CAPTURE_PLANES:
            it.length = len(self.handle.maps[index])
        self.handle.ask(v.QBUF, it, "a buffer can't be given back")

    def buffers(self) -> int:
        """How many buffers there are."""
        return len(self.handle.maps)

    def what(self) -> str:
        """What it gives, in words."""
        return f"{self.took.lay.fourcc}, {self.buffers()} buffers"

    def clock(self) -> Clock:
        """The kernel's clock, as the file wants it."""
        latch = None if self.wanted.clock == "arrival" else time.monotonic_ns
        return Clock(self.wanted.clock, self.tell, latch, owner="kernel", is_followed=True)

    def form(self, picture: Picture | None = None) -> Form | None:
        """What its frames become; of JPEG None, before there is a picture."""
        lay, asked = self.took.lay, self.wanted.store_format
        colour = lay.colour
        if lay.how == "jpeg":
            if picture is None:
                return None
            width, height, colour, _ = picture.decoded
            if (width, height) != (self.took.width, self.took.height):
                raise Refused(
                    f"{self.path} takes {self.took.width}x{self.took.height}, and its JPEG has "
                    f"{width}x{height}"
                )
        elif self.wanted.bits and lay.bits > 8:
            colour = "gray"
        is_other = asked and asked != colour
        if is_other and lay.how == "samples" and not (lay.bayer and not asked.startswith("gray")):
            raise BadFrames(
                f"STORE_FORMAT={asked}: {lay.fourcc} gives {colour}"
                + (", or gray by BITS=8" if asked == "gray" else "")
            )
        form = Form(self.took.width, self.took.height, asked or colour, self.rate)
        form.check()
        self.colour = colour
        return form

    def ffmpeg(self, form: Form) -> str | None:
        """ffmpeg's word for what it makes into the store's frames, or None where they are such."""
        lay = self.took.lay
        if lay.how == "rgb":
            return planes.RGB[lay.fourcc]
        if form.colour == self.colour:
            return None
        if lay.bayer:
            return f"bayer_{lay.bayer}" + ("8" if lay.bits == 8 else "16le")
        return self.colour

    def pixels(self, it: Picture, form: Form, is_for_ffmpeg: bool) -> list[Any]:
        """The bytes of a frame, in pieces."""
        lay = self.took.lay
        if lay.how == "jpeg":
            width, height, colour, found = it.decoded
            if (width, height, colour) != (self.took.width, self.took.height, self.colour):
                raise Gone(f"its frames have {width}x{height} {colour} now")
            return found
        if lay.how == "samples":
            to = 16 if is_for_ffmpeg and lay.bits > 8 else 8 if self.wanted.bits else 0
            size = self.took.width, self.took.height, self.took.strides[0]
            return [planes.samples(lay, *size, it.parts, to)]
        return planes.planes(lay, self.pieces, it.parts)

    def answers(self) -> bool:
        """Whether the device is there."""
        try:
            self.handle.raw(v.QUERYCAP, v.Capability())
        except OSError:
            return False
        return os.path.exists(self.path)

    def film(self, counts: Counts, asked: Callable[[], bool]) -> Iterator[Picture]:
        """The frames, as long as nobody asks for the end, whole ones alone. Gone where the camera
        goes, or its source becomes another."""
        self.handle.ask(v.STREAMON, c.c_int(self.type), "it doesn't begin")
        self.handle.is_on = True
        numbers, heard = Numbers(self.tell), time.monotonic()
        stuck = max(STUCK, 3 / float(self.rate))
        is_triggered = any("trigger" in name for name, _ in self.wanted.controls)
        while not asked():
            can_take, has_event = self.handle.calls.wait(self.handle.descriptor, POLL)
            counts.look()
            if has_event:
                self._heed()
            found = self._take() if can_take else None
            if found is None:
                silence = time.monotonic() - heard
                if silence > SILENCE and not self.answers():
                    raise Gone("it has gone")
                if silence > stuck and not is_triggered:
                    raise Gone(f"it has given no frame for {stuck:.0f} s")
                continue
            heard = time.monotonic()
            try:
                picture = self._picture(*found, counts, numbers)
                if picture:
                    yield picture
            finally:
                self._give(found[0].index)

    def _heed(self) -> None:
        """Takes an event."""
        it = v.Event()
        if self.handle.takes(v.DQEVENT, it) and it.type == v.SOURCE_CHANGE:
            raise Gone("its source has changed")

    def _take(self) -> tuple[v.Buffer, Any] | None:
        """The next filled buffer and its planes, or None where there is none."""
        it, memory = self._buffer()
        try:
            self.handle.raw(v.DQBUF, it)
        except OSError as fault:
            if fault.errno in (errno.EAGAIN, errno.EINTR):
                return None
            if fault.errno in (errno.EINVAL, errno.EPIPE):
                raise Gone("it gives no more frames") from None
            raise said(self.path, fault) from None
        return it, memory

    def _picture(
        self, it: v.Buffer, memory: Any, counts: Counts, numbers: Numbers
    ) -> Picture | None:
        """The frame of a buffer, where it is whole."""
        counts.add("lost", numbers.before(it.sequence))
        parts = self._parts(it, memory)
        try:
            if it.flags & v.IS_FAULTY:
                raise Shorter("the driver says so")
            planes.check(self.pieces, parts)
            decoded = self.decoder.planes(bytes(parts[0])) if self.decoder else None
        except Shorter:
            counts.add("incomplete")
            return None
        return Picture(it.sequence, stamp_of(it), time.time_ns(), parts, decoded)

    def _parts(self, it: v.Buffer, memory: Any) -> list[Any]:
        """What the driver has filled."""
        maps = self.handle.maps[it.index]
        if self.type == v.CAPTURE:
            return [memoryview(maps[0])[: it.bytesused]]
        return [
            memoryview(whole)[part.data_offset : part.bytesused]
            for whole, part in zip(maps, memory)
        ]


def devices(calls: v.Calls | None = None, pattern: str = "/dev/video*") -> list[Found]:
    """Every device that gives pictures, and those that this user can't open."""
    found = []
    for path in sorted(glob.glob(pattern), key=lambda it: (len(it), it)):
        try:
            handle = Handle(path, calls or v.Calls())
        except Gone:
            continue
        except Refused as fault:
            found.append(Found(lasting(path), os.path.basename(path), [], [], str(fault)))
            continue
        try:
            modes = list(modes_of(handle))
            if modes:
                lines = [controls.line(handle.raw, it) for it in controls.items(handle.raw)]
                name = handle.can.card.decode(errors="replace") or os.path.basename(path)
                found.append(Found(lasting(path), name, modes, lines))
        except (Gone, OSError):
            continue
        finally:
            handle.close()
    return found


def modes_of(handle: Handle) -> Iterator[Mode]:
    """What a device gives, in formats that are read."""
    type_ = handle.type()
    if type_ is None:
        return
    for index in range(256):
        it = v.FormatWord(index=index, type=type_)
        if not handle.takes(v.ENUM_FMT, it):
            return
        word = v.word_of(it.pixelformat)
        if word in planes.LAYS:
            for width, height in sizes_of(handle, it.pixelformat):
                yield Mode(word, width, height, rates_of(handle, it.pixelformat, width, height))


def sizes_of(handle: Handle, pixelformat: int) -> Iterator[tuple[int, int]]:
    """The sizes of a format; of a range the largest one. A device that tells none has one."""
    for index in range(256):
        it = v.Size(index=index, pixel_format=pixelformat)
        if not handle.takes(v.ENUM_FRAMESIZES, it):
            break
        yield it.sides()
        if it.type != v.DISCRETE:
            return
    else:
        return
    if index == 0:
        now = v.Format(type=handle.type())
        if handle.takes(v.G_FMT, now):
            of = now.of.planes if now.type == v.CAPTURE_PLANES else now.of.pix
            yield of.width, of.height


def rates_of(handle: Handle, pixelformat: int, width: int, height: int) -> list[str]:
    """The rates of a size, or of a range the highest."""
    found: list[str] = []
    for index in range(64):
        it = v.Interval(index=index, pixel_format=pixelformat, width=width, height=height)
        if not handle.takes(v.ENUM_FRAMEINTERVALS, it):
            break
        if it.numerator and it.denominator:
            found.append(f"{it.denominator / it.numerator:.6g}")
        if it.type != v.DISCRETE:
            break
    return found
