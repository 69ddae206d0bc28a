"""Pixel formats of GenICam (PFNC): grey and Bayer of 8 to 16 bits become samples of one or two
bytes."""
from __future__ import annotations

import re
from math import gcd
from typing import NamedTuple

import numpy as np

from .faults import Shorter

GREY = re.compile(r"(Mono|Bayer(?:BG|GB|GR|RG))(8|10|12|14|16)(p|Packed)?")
# ffmpeg's words for colours that aren't grey samples, and for Bayer's orders.
COLOUR = {
    "RGB8": "rgb24",
    "RGB8Packed": "rgb24",
    "BGR8": "bgr24",
    "BGR8Packed": "bgr24",
    "YUV422_8": "yuyv422",
    "YUV422_YUYV_Packed": "yuyv422",
    "YUV422_8_UYVY": "uyvy422",
    "YUV422Packed": "uyvy422",
    "YCbCr422_8": "yuyv422",
    "YCbCr422_8_CbYCrY": "uyvy422",
}
BAYER = {
    "BayerBG": "bayer_bggr",
    "BayerGB": "bayer_gbrg",
    "BayerGR": "bayer_grbg",
    "BayerRG": "bayer_rggb",
}
SIZES = {"rgb24": 3, "bgr24": 3, "yuyv422": 2, "uyvy422": 2}
# What of a store has all that these have: each pixel's colour, or that of each two.
PLANES = {"rgb24": "yuv444p", "bgr24": "yuv444p", "yuyv422": "yuv422p", "uyvy422": "yuv422p"}


class UnknownFormat(Exception):
    """A pixel format that this program doesn't read."""


class Format(NamedTuple):
    """A pixel format: its name, the bits of a sample, how samples are packed ('', 'p' or
    'Packed'), and ffmpeg's word for what isn't grey, once it is unpacked to 8 or 16 bits."""

    name: str
    bits: int
    packing: str
    ffmpeg: str | None

    def is_grey(self) -> bool:
        """Whether a sample is a grey pixel."""
        return self.ffmpeg is None

    def is_bayer(self) -> bool:
        """Whether samples have a colour each."""
        return self.name.startswith("Bayer")

    def is_samples(self) -> bool:
        """Whether a pixel is one sample, grey or Bayer."""
        return self.is_grey() or self.is_bayer()

    def planes(self) -> str:
        """What its frames become in a store where nothing else is asked for: samples as they are,
        and colours for as many pixels as the camera gives them."""
        if self.is_samples():
            return "gray" if self.bits == 8 else f"gray{self.bits}le"
        return PLANES[self.ffmpeg or ""]


def format_of(name: str) -> Format:
    """The format of a name."""
    if name in COLOUR:
        return Format(name, 8, "", COLOUR[name])
    found = GREY.fullmatch(name)
    packing = found[3] or "" if found else ""
    if not found or packing and found[2] in ("8", "16") or packing == "Packed" and found[2] == "14":
        raise UnknownFormat(
            f"the format {name} isn't read: choose one of Mono8 to Mono16, Bayer..8 to 16, RGB8"
        )
    bits = int(found[2])
    word = None if found[1] == "Mono" else BAYER[found[1]] + ("8" if bits == 8 else "16le")
    return Format(name, bits, packing, word)


def row_bytes(form: Format, width: int) -> int:
    """The bytes of a row, where each begins at a byte."""
    if not form.is_samples():
        return width * SIZES[form.ffmpeg]
    if form.packing == "Packed":
        return (width * 3 + 1) // 2
    return (width * (form.bits if form.packing else 8 * sample_bytes(form)) + 7) // 8


def sample_bytes(form: Format) -> int:
    """The bytes of a sample, once it is unpacked."""
    return 1 if form.bits == 8 else 2


def frame_bytes(form: Format, width: int, height: int, padding: int = 0) -> int:
    """The bytes that a camera sends for a frame. Rows of packed samples follow one another without
    a gap, unless the camera says that rows are padded."""
    if padding or not form.packing:
        return (row_bytes(form, width) + padding) * height
    return row_bytes(form, width * height)


def unpack_lsb(data: np.ndarray, bits: int, count: int) -> np.ndarray:
    """Samples whose bits follow one another, the lowest first (Mono10p, Mono12p, Mono14p)."""
    size = 8 // gcd(bits, 8)
    step = bits * size // 8
    groups = -(-count // size)
    whole = np.zeros(groups * step, np.uint8)
    whole[: len(data)] = data[: groups * step]
    rows = whole.reshape(groups, step).astype(np.uint32)
    out = np.empty((groups, size), np.uint16)
    for number in range(size):
        byte, shift = divmod(number * bits, 8)
        value = rows[:, byte] >> shift
        for more in range(1, (shift + bits + 7) // 8):
            value |= rows[:, byte + more] << (8 * more - shift)
        out[:, number] = value & ((1 << bits) - 1)
    return out.reshape(-1)[:count]


def unpack_pairs(data: np.ndarray, bits: int, count: int) -> np.ndarray:
    """Two samples in three bytes, as GigE Vision's Mono10Packed and Mono12Packed have them: the
    upper 8 bits of each in a byte of its own, and their lower bits in the byte between."""
    groups, low = -(-count // 2), bits - 8
    whole = np.zeros(groups * 3, np.uint8)
    whole[: len(data)] = data[: groups * 3]
    rows = whole.reshape(groups, 3).astype(np.uint16)
    out = np.empty((groups, 2), np.uint16)
    mask = (1 << low) - 1
    out[:, 0] = rows[:, 0] << low | rows[:, 1] & mask
    out[:, 1] = rows[:, 2] << low | rows[:, 1] >> 4 & mask
    return out.reshape(-1)[:count]


def unpack_mipi(rows: np.ndarray, bits: int, width: int) -> np.ndarray:
    """Samples of V4L2's packed formats, as MIPI has them: the upper 8 bits of some samples, a byte
    each, and then the lower bits of these, the first one's lowest. Each of `rows` begins anew."""
    size, low = {10: 4, 12: 2, 14: 4}[bits], bits - 8
    step, groups = size * bits // 8, -(-width // size)
    whole = np.zeros((len(rows), groups * step), np.uint8)
    whole[:, : rows.shape[1]] = rows[:, : groups * step]
    parts = whole.reshape(len(rows), groups, step).astype(np.uint32)
    rest = sum(parts[:, :, size + n] << 8 * n for n in range(step - size))
    out = np.empty((len(rows), groups, size), np.uint16)
    for number in range(size):
        out[:, :, number] = parts[:, :, number] << low | rest >> low * number & (1 << low) - 1
    return np.ascontiguousarray(out.reshape(len(rows), -1)[:, :width]).reshape(-1)


def unpack(form: Format, data: np.ndarray, count: int) -> np.ndarray:
    """So many samples."""
    if form.packing == "p":
        return unpack_lsb(data, form.bits, count)
    if form.packing == "Packed":
        return unpack_pairs(data, form.bits, count)
    return data[: count * sample_bytes(form)].view("<u2" if form.bits > 8 else np.uint8)


def samples(form: Format, data: bytes, width: int, height: int, padding: int = 0) -> np.ndarray:
    """The samples of a frame, row by row, of `uint8` or `uint16`."""
    if len(data) < frame_bytes(form, width, height, padding):
        raise Shorter(f"a frame of {width}x{height} {form.name} has {len(data)} bytes")
    flat = np.frombuffer(data, np.uint8)
    if not padding:
        return unpack(form, flat, width * height)
    size = row_bytes(form, width)
    rows = flat[: (size + padding) * height].reshape(height, size + padding)[:, :size]
    return np.concatenate([unpack(form, np.ascontiguousarray(row), width) for row in rows])


def frame(form: Format, data: bytes, width: int, height: int, padding: int = 0, to_8: bool = False):
    """The bytes of a frame as a store has them: grey samples, Bayer as it is, or the camera's
    colours for ffmpeg. With `to_8` the upper 8 bits of each sample."""
    if not form.is_samples():
        if len(data) < frame_bytes(form, width, height, padding):
            raise Shorter(f"a frame of {width}x{height} {form.name} has {len(data)} bytes")
        size = row_bytes(form, width)
        rows = np.frombuffer(data, np.uint8)[: (size + padding) * height]
        return np.ascontiguousarray(rows.reshape(height, size + padding)[:, :size]).reshape(-1)
    if form.bits == 8 or not to_8:
        whole = not padding and not form.packing
        if whole and len(data) == frame_bytes(form, width, height):
            return data
        return np.ascontiguousarray(samples(form, data, width, height, padding))
    return (samples(form, data, width, height, padding) >> (form.bits - 8)).astype(np.uint8)


def full(form: Format, data: bytes, width: int, height: int, padding: int = 0):
    """The bytes of a frame as ffmpeg takes it: Bayer of 10, 12 and 14 bits is shifted to the whole
    16."""
    if not form.is_samples() or form.bits in (8, 16):
        return frame(form, data, width, height, padding)
    return samples(form, data, width, height, padding) << (16 - form.bits)
