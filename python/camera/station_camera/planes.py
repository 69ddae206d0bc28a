"""Pixel formats of V4L2 made into the planes of a store, as they are in the picture: rows without
their padding, and nothing computed but where samples are packed. The kernel's pages on pixel
formats say how each lies.

A frame comes as parts, one for each memory plane; a `Lay` says how a format's planes lie in them.
Only packed and deep samples need numpy."""
from __future__ import annotations

from typing import Any, NamedTuple, Sequence

from .faults import Shorter
from .needed import numpy

GREY = {"GREY": 8, "Y10": 10, "Y12": 12, "Y14": 14, "Y16": 16}
GREY_PACKED = {"Y10P": 10, "Y12P": 12, "Y14P": 14}
# Bayer by its bits, in the orders BGGR, GBRG, GRBG and RGGB.
ORDERS = ("bggr", "gbrg", "grbg", "rggb")
BAYER = {
    8: "BA81 GBRG GRBG RGGB",
    10: "BG10 GB10 BA10 RG10",
    12: "BG12 GB12 BA12 RG12",
    14: "BG14 GB14 GR14 RG14",
    16: "BYR2 GB16 GR16 RG16",
}
BAYER_PACKED = {10: "pBAA pGAA pgAA pRAA", 12: "pBCC pGCC pgCC pRCC", 14: "pBEE pGEE pgEE pREE"}
# Two pixels in four bytes: where the first luma, Cb and Cr are.
PAIRS = {"YUYV": (0, 1, 3), "YVYU": (0, 3, 1), "UYVY": (1, 0, 2), "VYUY": (1, 2, 0)}
# Luma, then a plane of Cb and Cr by turns, or of Cr and Cb.
TWINS = {
    "NV12": ("yuv420p", False),
    "NV21": ("yuv420p", True),
    "NV16": ("yuv422p", False),
    "NV61": ("yuv422p", True),
    "NM12": ("yuv420p", False),
    "NM21": ("yuv420p", True),
    "NM16": ("yuv422p", False),
    "NM61": ("yuv422p", True),
}
# Three planes: luma, Cb and Cr, or luma, Cr and Cb.
THREE = {
    "YU12": ("yuv420p", False),
    "YV12": ("yuv420p", True),
    "422P": ("yuv422p", False),
    "YM12": ("yuv420p", False),
    "YM21": ("yuv420p", True),
    "YM16": ("yuv422p", False),
    "YM61": ("yuv422p", True),
    "YM24": ("yuv444p", False),
    "YM42": ("yuv444p", True),
}
RGB = {"RGB3": "rgb24", "BGR3": "bgr24"}
JPEG = ("MJPG", "JPEG")
# What ffmpeg calls them, which files of before have.
WORDS = {
    "yuyv422": "YUYV",
    "uyvy422": "UYVY",
    "yvyu422": "YVYU",
    "mjpeg": "MJPG",
    "gray": "GREY",
    "gray10le": "Y10",
    "gray12le": "Y12",
    "gray16le": "Y16",
    "nv12": "NV12",
    "nv21": "NV21",
    "yuv420p": "YU12",
    "yuv422p": "422P",
    "rgb24": "RGB3",
    "bgr24": "BGR3",
    "bayer_bggr8": "BA81",
    "bayer_gbrg8": "GBRG",
    "bayer_grbg8": "GRBG",
    "bayer_rggb8": "RGGB",
}


class UnknownFormat(Exception):
    """A pixel format that this program doesn't read."""


class Lay(NamedTuple):
    """A pixel format: its four letters; how it lies ('samples', 'pairs', 'twins', 'three', 'rgb',
    'jpeg'); what its planes are, in ffmpeg's words, where that is known before a picture has come;
    of samples the bits, whether they are packed as MIPI has it, and Bayer's order."""

    fourcc: str
    how: str
    colour: str | None
    bits: int = 8
    packing: str = ""
    bayer: str | None = None


def known() -> dict[str, Lay]:
    """Every format that is read."""
    found = {}
    for table, packing in ((GREY, ""), (GREY_PACKED, "mipi")):
        for word, bits in table.items():
            found[word] = Lay(word, "samples", grey(bits), bits, packing)
    for table, packing in ((BAYER, ""), (BAYER_PACKED, "mipi")):
        for bits, words in table.items():
            for word, order in zip(words.split(), ORDERS):
                found[word] = Lay(word, "samples", grey(bits), bits, packing, order)
    found |= {word: Lay(word, "pairs", "yuv422p") for word in PAIRS}
    found |= {word: Lay(word, "twins", colour) for word, (colour, _) in TWINS.items()}
    found |= {word: Lay(word, "three", colour) for word, (colour, _) in THREE.items()}
    found |= {word: Lay(word, "rgb", "yuv444p") for word in RGB}
    return found | {word: Lay(word, "jpeg", None) for word in JPEG}


def grey(bits: int) -> str:
    """ffmpeg's word for grey samples."""
    return "gray" if bits == 8 else f"gray{bits}le"


LAYS = known()


def lay_of(word: str) -> Lay:
    """The format of four letters, or of ffmpeg's word."""
    fourcc = next((it for it in (word, WORDS.get(word.lower()), word.upper()) if it in LAYS), None)
    if fourcc is None:
        raise UnknownFormat(f"the format {word} isn't read: choose one of {' '.join(LAYS)}")
    return LAYS[fourcc]


def chroma(colour: str, width: int, height: int) -> tuple[int, int]:
    """The sides of a plane of Cb or Cr."""
    wide = width if colour == "yuv444p" else (width + 1) // 2
    return wide, (height + 1) // 2 if colour == "yuv420p" else height


class Piece(NamedTuple):
    """A plane in a frame's parts: which part, where it begins, the bytes from a row to the next,
    those of a row, and the rows."""

    part: int
    start: int
    stride: int
    wide: int
    high: int

    def end(self) -> int:
        """The byte after its last one; the last row needn't be padded."""
        return self.start + self.stride * (self.high - 1) + self.wide if self.high else self.start

    def cut(self, parts: Sequence[Any]) -> Any:
        """Its bytes, row by row without padding; where they lie, if they lie so."""
        part = parts[self.part]
        if self.stride == self.wide:
            return part[self.start : self.start + self.wide * self.high]
        data = bytes(part[self.start : self.end()])
        rows = range(0, self.stride * self.high, self.stride)
        return b"".join([data[at : at + self.wide] for at in rows])


def row_bytes(lay: Lay, width: int) -> int:
    """The bytes of a row of a format's first plane."""
    if lay.packing:
        # So many samples share their lower bits.
        size = {10: 4, 12: 2, 14: 4}[lay.bits]
        return -(-width // size) * size * lay.bits // 8
    return width * {"pairs": 2, "rgb": 3}.get(lay.how, 2 if lay.bits > 8 else 1)


def pieces(lay: Lay, width: int, height: int, strides: Sequence[int]) -> list[Piece]:
    """Where a format's planes are. `strides` has the bytes of a row of each memory plane; a stride
    of 0 is one without padding."""
    wide = row_bytes(lay, width)
    first = Piece(0, 0, strides[0] or wide, wide, height)
    if lay.how not in ("twins", "three"):
        return [first]
    half, high = chroma(lay.colour, width, height)
    wide = 2 * half if lay.how == "twins" else half
    if len(strides) > 1:
        more = [Piece(n, 0, it or wide, wide, high) for n, it in enumerate(strides[1:], 1)]
        return [first, *more]
    # Planes in one buffer follow one another, the smaller ones with a share of the padding.
    stride = wide if first.stride == first.wide else first.stride * wide // first.wide
    found, at = [first], first.stride * height
    for _ in range(1 if lay.how == "twins" else 2):
        found.append(Piece(0, at, stride, wide, high))
        at += stride * high
    return found


def check(found: Sequence[Piece], parts: Sequence[Any]) -> None:
    """Refuses a frame that hasn't all bytes of its format."""
    for it in found:
        if it.part >= len(parts) or len(parts[it.part]) < it.end():
            have = [len(part) for part in parts]
            raise Shorter(f"a frame has {have} bytes, and its format {it.end()}")


def planes(lay: Lay, found: Sequence[Piece], parts: Sequence[Any]) -> list[Any]:
    """The planes of a frame in the store's order, of a format that isn't JPEG; those of RGB are
    its own three bytes a pixel, and packed samples are as they came."""
    check(found, parts)
    cut = [it.cut(parts) for it in found]
    if lay.how == "pairs":
        data, (luma, blue, red) = bytes(cut[0]), PAIRS[lay.fourcc]
        return [data[luma::2], data[blue::4], data[red::4]]
    if lay.how == "twins":
        data, is_red_first = bytes(cut[1]), TWINS[lay.fourcc][1]
        return [cut[0], data[is_red_first::2], data[not is_red_first :: 2]]
    if lay.how == "three" and THREE[lay.fourcc][1]:
        return [cut[0], cut[2], cut[1]]
    return cut


def samples(lay: Lay, width: int, height: int, stride: int, parts: Sequence[Any], to: int) -> Any:
    """The samples of a frame, row by row: those of 8 bits as bytes, others as `uint16`. `to` is 8
    for the upper 8 bits, and 16 for all 16, as ffmpeg takes Bayer; else they stay."""
    found = pieces(lay, width, height, [stride])
    check(found, parts)
    bits = lay.bits
    if not lay.packing and (to in (0, bits) or bits == 8):
        return found[0].cut(parts)
    if not lay.packing and (bits, to) == (16, 8):
        return bytes(found[0].cut(parts))[1::2]
    np = numpy()
    if lay.packing:
        from .samples import unpack_mipi

        rows = np.frombuffer(found[0].cut(parts), np.uint8).reshape(height, -1)
        whole = unpack_mipi(rows, bits, width)
    else:
        whole = np.frombuffer(found[0].cut(parts), "<u2")
    if to == 8:
        return (whole >> (bits - 8)).astype(np.uint8)
    return whole << (16 - bits) if to == 16 else whole
