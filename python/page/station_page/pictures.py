"""Frames as pictures. Colours are taken as ffmpeg takes them (docs/export.md): Y from 16 to 235
where there are three planes, and from 0 to 255 in grey; of more than 8 bits so many times that."""
import functools
import io
import struct
import zlib

import layout
import numpy
from lapyrei.colour import rgb_of
from lapyrei.errors import Gone, UnknownDepth
from lapyrei.parts import Form
from lapyrei.parts import form_of as form_of_depth
from PIL import Image

JPEG_QUALITY = 82
# The parts of the pixels that a stretch `auto` makes black and white, and how far the two are apart
# at least.
AUTO_BLACK, AUTO_WHITE, AUTO_LEAST = 0.005, 0.995, 4
# By how much a stretch makes colours stronger at most: of a dark picture they are mostly noise.
COLOUR_GAIN = 3.0
# How many values a histogram has.
BARS = 256

# A black and a white point, in the values that the store has.
Stretch = tuple[int, int]


def form_of(geometry: layout.Geometry, bits: int) -> Form:
    """How the samples of a frame lie; Gone where no frame has so many bits."""
    try:
        return form_of_depth(geometry, bits)
    except UnknownDepth as fault:
        raise Gone(str(fault)) from None


def planes_of(form: Form, data: bytes | memoryview) -> list[numpy.ndarray]:
    """A frame's planes, each rows by columns."""
    found, at = [], 0
    for high, wide in form.planes:
        plane = numpy.frombuffer(data, form.dtype, high * wide, at)
        found.append(plane.reshape(high, wide))
        at += plane.nbytes
    return found


def step_of(form: Form, width: int | None) -> int:
    """Each how many-th pixel is taken for a picture at most about so wide."""
    return max(1, -(-form.planes[0][1] // width)) if width else 1


def luma_of(
    geometry: layout.Geometry, data: bytes, width: int | None = None, bits: int = 8
) -> numpy.ndarray:
    """The brightness of a frame's pixels as the store has it, rows by columns; of fewer pixels
    where a width is given."""
    form = form_of(geometry, bits)
    high, wide = form.planes[0]
    luma = numpy.frombuffer(data, form.dtype, high * wide).reshape(high, wide)
    step = step_of(form, width)
    return luma[::step, ::step]


def auto_stretch(luma: numpy.ndarray, bits: int = 8) -> Stretch:
    """The black and the white point that show nearly all of a picture's values."""
    top = (1 << bits) - 1
    below = numpy.cumsum(numpy.bincount(luma.ravel(), minlength=top + 1)) / max(1, luma.size)
    black, white = (
        min(top, int(numpy.searchsorted(below, part))) for part in (AUTO_BLACK, AUTO_WHITE)
    )
    if white - black < AUTO_LEAST:
        black = max(0, min(black, top - AUTO_LEAST))
        white = black + AUTO_LEAST
    return black, white


# A table for samples of two bytes has 64 KiB.
@functools.lru_cache(64)
def shown(bits: int, black: int, white: int) -> numpy.ndarray:
    """What each value of the store is shown as, where these two are shown black and white."""
    values = numpy.arange(256 if bits == 8 else 65536)
    bytes_ = numpy.rint((values - black) * 255 / max(1, white - black))
    return numpy.clip(bytes_, 0, 255).astype(numpy.uint8)


def luma_shown(form: Form, stretch: Stretch | None) -> numpy.ndarray | None:
    """What each brightness is shown as, or nothing where it is shown as it is."""
    if stretch:
        return shown(form.bits, *stretch)
    if len(form.planes) > 1:
        unit = 1 << (form.bits - 8)
        return shown(form.bits, 16 * unit, 235 * unit)
    return shown(form.bits, 0, (1 << form.bits) - 1) if form.bits > 8 else None


@functools.lru_cache(64)
def colours_for(stretch: Stretch | None, bits: int = 8) -> numpy.ndarray:
    """What each value of a colour plane is shown as."""
    unit, gain = 1 << (bits - 8), 1.0
    if stretch is not None:
        gain = min(COLOUR_GAIN, max(1.0, 219 * unit / max(1, stretch[1] - stretch[0])))
    values = numpy.arange(256 if bits == 8 else 65536)
    bytes_ = numpy.rint((values - 128 * unit) * 255 / (224 * unit) * gain + 128)
    return numpy.clip(bytes_, 0, 255).astype(numpy.uint8)


def band_of(values: numpy.ndarray, table: numpy.ndarray | None) -> Image.Image:
    """A plane as a band of an image, each value shown as a table has it."""
    if table is not None and values.dtype != numpy.uint8:
        return Image.fromarray(table[values], "L")
    band = Image.fromarray(numpy.ascontiguousarray(values), "L")
    return band if table is None else band.point(table.tolist())


def image_of(
    geometry: layout.Geometry,
    data: bytes,
    width: int | None = None,
    stretch: Stretch | None = None,
    between: Image.Resampling = Image.Resampling.BILINEAR,
    bits: int = 8,
) -> Image.Image:
    """A frame as an image in grey or Y'CbCr, at most about so wide where a width is given, and
    stretched for the eye where that is asked for. `between` is how colours are spread that stand
    for several pixels. Of more than 8 bits the upper 8 are seen, or those of the stretch."""
    form = form_of(geometry, bits)
    step, (luma, *colours) = step_of(form, width), planes_of(form, data)
    bands = [band_of(luma[::step, ::step], luma_shown(form, stretch))]
    if not colours:
        return bands[0]
    sparse = max(1, step // max(layout.DIVIDED[geometry.format]))
    size, table = bands[0].size, colours_for(stretch, bits)
    for colour in colours:
        band = band_of(colour[::sparse, ::sparse], table)
        bands.append(band if band.size == size else band.resize(size, between))
    return Image.merge("YCbCr", bands)


def jpeg(
    geometry: layout.Geometry,
    data: bytes,
    width: int | None = None,
    stretch: Stretch | None = None,
    quality: int = JPEG_QUALITY,
    bits: int = 8,
) -> bytes:
    """A frame as JPEG. A JPEG halves the colours again, so that those of the frame come out as they
    were where each was repeated."""
    out = io.BytesIO()
    image_of(geometry, data, width, stretch, Image.Resampling.NEAREST, bits).save(
        out, "JPEG", quality=quality
    )
    return out.getvalue()


def png(geometry: layout.Geometry, data: bytes, bits: int = 8) -> bytes:
    """A frame as PNG, all pixels of it: grey as it is, and colours as RGB. Of more than 8 bits it
    has 16 of each pixel, with the values of the store, or RGB of as many bits."""
    if bits > 8:
        form = form_of(geometry, bits)
        planes = planes_of(form, data)
        return deep_png(planes[0] if len(planes) == 1 else rgb_of(tuple(planes), bits))
    image, out = image_of(geometry, data), io.BytesIO()
    (image if image.mode == "L" else image.convert("RGB")).save(out, "PNG", compress_level=1)
    return out.getvalue()


def deep_png(pixels: numpy.ndarray) -> bytes:
    """Pixels of 16 bits as PNG, which Pillow writes in grey alone."""
    high, wide = pixels.shape[:2]
    rows = pixels.astype(">u2").reshape(high, -1).view(numpy.uint8)
    # Each row begins with the number of its filter: none.
    lines = numpy.hstack([numpy.zeros((high, 1), numpy.uint8), rows])
    head = struct.pack(">IIBBBBB", wide, high, 16, 0 if pixels.ndim == 2 else 2, 0, 0, 0)
    parts = [(b"IHDR", head), (b"IDAT", zlib.compress(lines.tobytes(), 1)), (b"IEND", b"")]
    whole = [b"\x89PNG\r\n\x1a\n"]
    for name, part in parts:
        sum_ = zlib.crc32(name + part)
        whole.append(struct.pack(">I", len(part)) + name + part + struct.pack(">I", sum_))
    return b"".join(whole)


def light(geometry: layout.Geometry, data: bytes, bits: int = 8) -> dict:
    """How often each brightness is there in a frame, as the store has it, in 256 steps; and the
    stretch that `auto` takes."""
    luma = luma_of(geometry, data, bits=bits)
    black, white = auto_stretch(luma, bits)
    counts = numpy.bincount(numpy.minimum(luma >> (bits - 8), BARS - 1).ravel(), minlength=BARS)
    found = {"counts": counts.tolist(), "black": black, "white": white, "bits": bits}
    return found | {"sharpness": sharpness(luma)}


def sharpness(luma: numpy.ndarray) -> float:
    """How steep edges are, as a part of the mean brightness: it is largest where a picture is in
    focus, and another exposure changes little of it."""
    if min(luma.shape) < 3:
        return 0.0
    plain = luma.astype(numpy.float32)
    across, down = plain[:, 2:] - plain[:, :-2], plain[2:] - plain[:-2]
    steep = float(numpy.sqrt(numpy.mean(across**2) + numpy.mean(down**2)))
    return round(steep / max(1e-3, float(plain.mean())), 4)


def value_at(geometry: layout.Geometry, part, x: int, y: int, bits: int = 8) -> dict[str, int]:
    """A pixel's values as the store has them. `part` answers so many bytes of the frame from a
    place on."""
    form = form_of(geometry, bits)
    size, (high, wide) = form.dtype.itemsize, form.planes[0]

    def sample(place: int) -> int:
        return int.from_bytes(part(place * size, size), "little")

    if len(form.planes) == 1:
        return {"value": sample(y * wide + x)}
    across, down = layout.DIVIDED[geometry.format]
    colour_high, colour_wide = form.planes[1]
    place, colour = (y // down) * colour_wide + x // across, colour_high * colour_wide
    return {
        "Y": sample(y * wide + x),
        "Cb": sample(high * wide + place),
        "Cr": sample(high * wide + colour + place),
    }
