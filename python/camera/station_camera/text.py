"""YUV4MPEG2: what a station reads. Samples of more than 8 bits have two bytes, the lower one
first."""
from __future__ import annotations

import errno
import fcntl
import os
import time
from fractions import Fraction
from typing import Callable, NamedTuple

# The largest pipe that every user may have.
PIPE = 1 << 20
SET_PIPE_SIZE = 1031
# How often a pipe's reader is looked for.
READER = 0.1
# The words of ffmpeg for what a store may hold, and YUV4MPEG2's.
COLOURS = {"gray": "mono", "yuv420p": "420jpeg", "yuv422p": "422", "yuv444p": "444"}
for _bits in (9, 10, 12, 14, 16):
    COLOURS[f"gray{_bits}le"] = f"mono{_bits}"
    for _name in ("420", "422", "444"):
        COLOURS[f"yuv{_name}p{_bits}le"] = f"{_name}p{_bits}"
LARGEST_FRAME, LARGEST_SIDE = 16_777_216, 16_384


class BadFrames(Exception):
    """No store may have these frames."""


class NobodyReads(Exception):
    """The reader has gone."""


class Form(NamedTuple):
    """What frames are: their size in pixels, their colour in ffmpeg's words, and their rate."""

    width: int
    height: int
    colour: str
    rate: Fraction

    def bytes_of_frame(self) -> int:
        """The bytes of a frame: its planes, row by row, without padding."""
        half, high = (self.width + 1) // 2, (self.height + 1) // 2
        luma = self.width * self.height
        chroma = {"gray": 0, "yuv420": half * high, "yuv422": half * self.height, "yuv444": luma}
        return (luma + 2 * chroma[self.kind()]) * (2 if self.bits() > 8 else 1)

    def kind(self) -> str:
        """The colour without its bits."""
        return "gray" if self.colour.startswith("gray") else self.colour[:6]

    def bits(self) -> int:
        """The bits of a sample."""
        rest = self.colour.removesuffix("le").removeprefix(self.kind()).removeprefix("p")
        return int(rest) if rest else 8

    def check(self) -> None:
        """Refuses what no store may have."""
        if not (1 <= self.width <= LARGEST_SIDE and 1 <= self.height <= LARGEST_SIDE):
            raise BadFrames(f"{self.width}x{self.height}: a side may have {LARGEST_SIDE} pixels")
        # A row has the bytes of so many pixels at most.
        if self.bits() > 8 and 2 * self.width > LARGEST_SIDE:
            raise BadFrames(
                f"{self.width}x{self.height} {self.colour}: a row may have {LARGEST_SIDE // 2} "
                "samples of more than 8 bits: choose a narrower region, or 8 bits"
            )
        if self.bytes_of_frame() > LARGEST_FRAME:
            raise BadFrames(
                f"a frame has {self.bytes_of_frame()} bytes, and a store takes {LARGEST_FRAME}: "
                "choose a smaller region, or 8 bits"
            )
        if self.width % 2 and self.kind() in ("yuv420", "yuv422") and self.bits() > 8:
            raise BadFrames(f"{self.colour} of an odd width, {self.width}, isn't recorded")

    def header(self) -> bytes:
        """The first line."""
        rate = f"{self.rate.numerator}:{self.rate.denominator}"
        size, colour = f"W{self.width} H{self.height}", COLOURS[self.colour]
        return f"YUV4MPEG2 {size} F{rate} Ip A0:0 C{colour}\n".encode()


class Text:
    """A text that is written to a descriptor, or to a path, which is opened later. A frame is
    written whole, or the reader has gone."""

    def __init__(self, descriptor: int | None, path: str | None = None) -> None:
        self.descriptor, self.path, self.is_busy = descriptor, path, False
        if descriptor is not None:
            self._widen(descriptor)

    def open(self, asked: Callable[[], bool]) -> bool:
        """Waits for a pipe's reader; False where somebody asks for the end meanwhile."""
        while self.descriptor is None:
            try:
                flags = os.O_WRONLY | os.O_CREAT | os.O_TRUNC | os.O_NONBLOCK
                found = os.open(self.path or "", flags, 0o644)
            except OSError as fault:
                if fault.errno != errno.ENXIO:
                    raise
                # Nobody reads it yet.
                if asked():
                    return False
                time.sleep(READER)
                continue
            os.set_blocking(found, True)
            self._widen(found)
            self.descriptor = found
        return True

    def _widen(self, descriptor: int) -> None:
        """Makes a pipe as large as may be."""
        try:
            fcntl.fcntl(descriptor, SET_PIPE_SIZE, PIPE)
        except OSError:
            # It is no pipe, or the user's pipes have their share already.
            pass

    def header(self, form: Form) -> None:
        """Writes the first line."""
        self._write([form.header()])

    def frame(self, pieces: list, micros: int | None = None, number: int | None = None) -> None:
        """Writes a frame, with the time of the camera, since 1970, and its number, where there are
        such."""
        time = "" if micros is None else f" Xt={micros}"
        own = "" if number is None else f" Xn={number}"
        self._write([f"FRAME{time}{own}\n".encode(), *pieces])

    def _write(self, pieces: list) -> None:
        """Writes all bytes of these pieces."""
        rest = [memoryview(it).cast("B") for it in pieces]
        while rest:
            self.is_busy = True
            try:
                done = os.writev(self.descriptor, rest)
            except OSError as fault:
                if fault.errno == errno.EPIPE:
                    raise NobodyReads("nobody reads the frames any more") from None
                raise
            finally:
                self.is_busy = False
            while rest and done >= len(rest[0]):
                done -= len(rest.pop(0))
            if rest:
                rest[0] = rest[0][done:]
