"""The kernel's calls on a camera (V4L2): the structures and words of linux/videodev2.h, and what
makes the calls. A test has other calls, with a device of its own behind them."""
from __future__ import annotations

import ctypes as c
import fcntl
import mmap
import os
import select
from typing import Any

# Buffer types: all planes in one buffer, and a buffer for each.
CAPTURE, CAPTURE_PLANES = 1, 9
MMAP = 1
ANY_FIELD, WHOLE = 0, 1
CAN_CAPTURE, CAN_CAPTURE_PLANES, CAN_STREAM = 0x1, 0x1000, 0x04000000
HAS_DEVICE_CAPS = 0x80000000
CAN_SET_RATE = 0x1000
IS_FAULTY, CLOCK, CLOCK_IS_MONOTONIC = 0x40, 0xE000, 0x2000
DISCRETE = 1
SOURCE_CHANGE = 5
HAS_TIMINGS = 0x2
# Kinds of controls, and what a control may be.
INTEGER, BOOLEAN, MENU, BUTTON, INTEGER64, CLASS, STRING, BITMASK, INTEGER_MENU = range(1, 10)
DISABLED, READ_ONLY, INACTIVE, WRITE_ONLY, VOLATILE = 0x1, 0x4, 0x10, 0x40, 0x80
NEXT_CONTROL = 0x80000000
READ, WRITE = 2, 1
PLANES_MOST = 8
U32, S32, U64, S64 = c.c_uint32, c.c_int32, c.c_uint64, c.c_int64


class Capability(c.Structure):
    """struct v4l2_capability."""

    _fields_ = [
        ("driver", c.c_char * 16),
        ("card", c.c_char * 32),
        ("bus", c.c_char * 32),
        ("version", U32),
        ("capabilities", U32),
        ("device_caps", U32),
        ("reserved", U32 * 3),
    ]


class FormatWord(c.Structure):
    """struct v4l2_fmtdesc."""

    _fields_ = [
        ("index", U32),
        ("type", U32),
        ("flags", U32),
        ("description", c.c_char * 32),
        ("pixelformat", U32),
        ("mbus_code", U32),
        ("reserved", U32 * 3),
    ]


class Pix(c.Structure):
    """struct v4l2_pix_format."""

    _fields_ = [
        (name, U32)
        for name in (
            "width height pixelformat field bytesperline sizeimage colorspace priv flags ycbcr_enc "
            "quantization xfer_func"
        ).split()
    ]


class PlanePix(c.Structure):
    """struct v4l2_plane_pix_format."""

    _pack_ = 1
    _fields_ = [("sizeimage", U32), ("bytesperline", U32), ("reserved", c.c_uint16 * 6)]


class PlanesPix(c.Structure):
    """struct v4l2_pix_format_mplane."""

    _pack_ = 1
    _fields_ = [
        ("width", U32),
        ("height", U32),
        ("pixelformat", U32),
        ("field", U32),
        ("colorspace", U32),
        ("plane_fmt", PlanePix * PLANES_MOST),
        ("num_planes", c.c_uint8),
        ("flags", c.c_uint8),
        ("ycbcr_enc", c.c_uint8),
        ("quantization", c.c_uint8),
        ("xfer_func", c.c_uint8),
        ("reserved", c.c_uint8 * 7),
    ]


class Format(c.Structure):
    """struct v4l2_format."""

    class Of(c.Union):
        """By the buffer's type."""

        _fields_ = [("pix", Pix), ("planes", PlanesPix), ("raw", c.c_uint8 * 200), ("_", U64)]

    _fields_ = [("type", U32), ("of", Of)]


class Parm(c.Structure):
    """struct v4l2_streamparm."""

    class Of(c.Union):
        """By the buffer's type."""

        class Capture(c.Structure):
            """struct v4l2_captureparm."""

            _fields_ = [
                (name, U32)
                for name in (
                    "capability capturemode numerator denominator extendedmode readbuffers"
                ).split()
            ]

        _fields_ = [("capture", Capture), ("raw", c.c_uint8 * 200)]

    _fields_ = [("type", U32), ("of", Of)]


class Request(c.Structure):
    """struct v4l2_requestbuffers."""

    _fields_ = [
        ("count", U32),
        ("type", U32),
        ("memory", U32),
        ("capabilities", U32),
        ("flags", c.c_uint8),
        ("reserved", c.c_uint8 * 3),
    ]


class Plane(c.Structure):
    """struct v4l2_plane."""

    _fields_ = [
        ("bytesused", U32),
        ("length", U32),
        ("offset", U64),
        ("data_offset", U32),
        ("reserved", U32 * 11),
    ]


class Buffer(c.Structure):
    """struct v4l2_buffer. `place` is an offset, or the address of planes."""

    _fields_ = [
        ("index", U32),
        ("type", U32),
        ("bytesused", U32),
        ("flags", U32),
        ("field", U32),
        ("seconds", S64),
        ("micros", S64),
        ("timecode", U32 * 4),
        ("sequence", U32),
        ("memory", U32),
        ("place", U64),
        ("length", U32),
        ("reserved2", U32),
        ("request_fd", S32),
        ("_", U32),
    ]


class Size(c.Structure):
    """struct v4l2_frmsizeenum: a size, or the least, the most and the step of each side."""

    _fields_ = [
        (name, U32)
        for name in (
            "index pixel_format type width most_width step_width height most_height step_height "
            "reserved0 reserved1"
        ).split()
    ]

    def sides(self) -> tuple[int, int]:
        """The size, or the largest."""
        if self.type == DISCRETE:
            # The two words of struct v4l2_frmsize_discrete.
            return self.width, self.most_width
        return self.most_width, self.most_height


class Interval(c.Structure):
    """struct v4l2_frmivalenum: a time between frames, or the shortest."""

    _fields_ = [
        (name, U32)
        for name in (
            "index pixel_format width height type numerator denominator most_numerator "
            "most_denominator step_numerator step_denominator reserved0 reserved1"
        ).split()
    ]


class ControlWord(c.Structure):
    """struct v4l2_query_ext_ctrl."""

    _fields_ = [
        ("id", U32),
        ("type", U32),
        ("name", c.c_char * 32),
        ("minimum", S64),
        ("maximum", S64),
        ("step", U64),
        ("default", S64),
        ("flags", U32),
        ("elem_size", U32),
        ("elems", U32),
        ("nr_of_dims", U32),
        ("dims", U32 * 4),
        ("reserved", U32 * 32),
    ]


class MenuWord(c.Structure):
    """struct v4l2_querymenu."""

    class Of(c.Union):
        """A name, or a number."""

        _pack_ = 1
        _fields_ = [("name", c.c_char * 32), ("value", S64)]

    _pack_ = 1
    _fields_ = [("id", U32), ("index", U32), ("of", Of), ("reserved", U32)]


class Control(c.Structure):
    """struct v4l2_ext_control."""

    class Of(c.Union):
        """By the control's kind."""

        _pack_ = 1
        _fields_ = [("value", S32), ("value64", S64), ("text", U64)]

    _pack_ = 1
    _fields_ = [("id", U32), ("size", U32), ("reserved2", U32), ("of", Of)]


class Controls(c.Structure):
    """struct v4l2_ext_controls; `which` 0: the current values."""

    _fields_ = [
        ("which", U32),
        ("count", U32),
        ("error_idx", U32),
        ("request_fd", S32),
        ("reserved", U32),
        ("controls", c.POINTER(Control)),
    ]


class Event(c.Structure):
    """struct v4l2_event."""

    _fields_ = [
        ("type", U32),
        ("of", U64 * 8),
        ("pending", U32),
        ("sequence", U32),
        ("seconds", S64),
        ("nanos", S64),
        ("id", U32),
        ("reserved", U32 * 8),
    ]


class Subscription(c.Structure):
    """struct v4l2_event_subscription."""

    _fields_ = [("type", U32), ("id", U32), ("flags", U32), ("reserved", U32 * 5)]


class Input(c.Structure):
    """struct v4l2_input."""

    _fields_ = [
        ("index", U32),
        ("name", c.c_char * 32),
        ("type", U32),
        ("audioset", U32),
        ("tuner", U32),
        ("std", U64),
        ("status", U32),
        ("capabilities", U32),
        ("reserved", U32 * 3),
    ]


class Timings(c.Structure):
    """struct v4l2_dv_timings, which is only given back."""

    _pack_ = 1
    _fields_ = [("type", U32), ("of", c.c_uint8 * 128)]


def call(number: int, kind: Any, way: int) -> int:
    """The word of an ioctl, as linux/ioctl.h makes it."""
    return way << 30 | c.sizeof(kind) << 16 | ord("V") << 8 | number


QUERYCAP = call(0, Capability, READ)
ENUM_FMT = call(2, FormatWord, READ | WRITE)
G_FMT, S_FMT = call(4, Format, READ | WRITE), call(5, Format, READ | WRITE)
REQBUFS = call(8, Request, READ | WRITE)
QUERYBUF, QBUF, DQBUF = (call(number, Buffer, READ | WRITE) for number in (9, 15, 17))
STREAMON, STREAMOFF = call(18, c.c_int, WRITE), call(19, c.c_int, WRITE)
G_PARM, S_PARM = call(21, Parm, READ | WRITE), call(22, Parm, READ | WRITE)
ENUMINPUT, G_INPUT = call(26, Input, READ | WRITE), call(38, c.c_int, READ)
QUERYMENU = call(37, MenuWord, READ | WRITE)
G_EXT_CTRLS, S_EXT_CTRLS = call(71, Controls, READ | WRITE), call(72, Controls, READ | WRITE)
ENUM_FRAMESIZES = call(74, Size, READ | WRITE)
ENUM_FRAMEINTERVALS = call(75, Interval, READ | WRITE)
S_DV_TIMINGS, QUERY_DV_TIMINGS = call(87, Timings, READ | WRITE), call(99, Timings, READ)
DQEVENT, SUBSCRIBE_EVENT = call(89, Event, READ), call(90, Subscription, WRITE)
QUERY_EXT_CTRL = call(103, ControlWord, READ | WRITE)


def word_of(pixelformat: int) -> str:
    """A pixel format's four letters, without the spaces at their end."""
    return pixelformat.to_bytes(4, "little").decode("latin-1").rstrip()


def number_of(fourcc: str) -> int:
    """The number of four letters."""
    return int.from_bytes(fourcc.ljust(4).encode("latin-1"), "little")


class Calls:
    """What a program asks of the system for a device. Each refusal is an OSError."""

    def open(self, path: str) -> int:
        """Opens a device."""
        return os.open(path, os.O_RDWR | os.O_NONBLOCK | os.O_CLOEXEC)

    def ioctl(self, descriptor: int, word: int, what: Any) -> None:
        """Makes a call, which changes `what`."""
        fcntl.ioctl(descriptor, word, what)

    def map(self, descriptor: int, length: int, offset: int) -> Any:
        """The memory of a buffer."""
        both = mmap.PROT_READ | mmap.PROT_WRITE
        return mmap.mmap(descriptor, length, mmap.MAP_SHARED, both, offset=offset)

    def wait(self, descriptor: int, seconds: float) -> tuple[bool, bool]:
        """Waits; whether a buffer can be taken (or taking one says what is wrong), and whether an
        event can."""
        poll = select.poll()
        poll.register(descriptor, select.POLLIN | select.POLLPRI)
        found = dict(poll.poll(1000 * seconds)).get(descriptor, 0)
        return bool(found & ~select.POLLPRI), bool(found & select.POLLPRI)

    def close(self, descriptor: int) -> None:
        """Gives a device back."""
        os.close(descriptor)
