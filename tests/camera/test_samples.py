"""Pixel formats: packed samples are compared with a plain reading, bit by bit."""
import random

import numpy as np
import pytest

from station_camera import samples

PACKED = [f"Mono{bits}{how}" for bits in (10, 12) for how in ("p", "Packed")] + [
    "Mono14p",
    "BayerRG12p",
    "BayerGB10Packed",
]


def packed(values, bits, how):
    """Samples as a camera packs them, by the standard's words: the lowest bit first, or two samples
    in three bytes with their lower bits in the middle one."""
    if how == "p":
        stream = "".join(format(value, f"0{bits}b")[::-1] for value in values)
        stream += "0" * (-len(stream) % 8)
        return bytes(int(stream[at : at + 8][::-1], 2) for at in range(0, len(stream), 8))
    out = bytearray()
    for at in range(0, len(values), 2):
        one, two = values[at], values[at + 1] if at + 1 < len(values) else 0
        low = bits - 8
        mask = (1 << low) - 1
        out += bytes([one >> low, one & mask | (two & mask) << 4, two >> low])
    return bytes(out)


@pytest.mark.parametrize("name", PACKED)
@pytest.mark.parametrize("width,height", [(8, 4), (7, 3), (1, 1), (2, 5)])
def test_packed_samples_are_taken_apart(name, width, height):
    form = samples.format_of(name)
    values = [random.randrange(1 << form.bits) for _ in range(width * height)]
    data = packed(values, form.bits, form.packing)
    assert len(data) >= samples.frame_bytes(form, width, height)
    found = samples.frame(form, data, width, height)
    assert list(np.asarray(found)) == values and np.asarray(found).dtype == np.uint16
    assert list(samples.frame(form, data, width, height, to_8=True)) == [
        it >> form.bits - 8 for it in values
    ]


@pytest.mark.parametrize(
    "name,bits", [("Mono8", 8), ("Mono10", 10), ("Mono12", 12), ("Mono14", 14), ("Mono16", 16)]
)
def test_plain_samples_stay_as_they_are(name, bits):
    form = samples.format_of(name)
    values = np.array([0, 1, (1 << bits) - 1, 5, 6, 7], "<u2" if bits > 8 else np.uint8)
    assert bytes(samples.frame(form, values.tobytes(), 3, 2)) == values.tobytes()
    assert list(samples.frame(form, values.tobytes(), 3, 2, to_8=bits > 8)) == list(
        values >> (bits - 8)
    )


def test_rows_with_padding_are_cut():
    grey = samples.format_of("Mono16")
    rows = b"".join(bytes([row, 0, row, 1]) + b"??" for row in range(3))
    assert bytes(samples.frame(grey, rows, 2, 3, 2)) == b"".join(
        bytes([row, 0, row, 1]) for row in range(3)
    )
    form = samples.format_of("Mono12p")
    rows = b"".join(packed([row, 100 + row], 12, "p") + b"??" for row in range(3))
    assert list(samples.frame(form, rows, 2, 3, 2)) == [0, 100, 1, 101, 2, 102]
    assert bytes(samples.frame(samples.format_of("RGB8"), b"abc??def??", 1, 2, 2)) == b"abcdef"


@pytest.mark.parametrize("name", ["Mono8", "Mono16", "Mono12p", "Mono10Packed", "RGB8"])
def test_fewer_bytes_than_a_frame_are_refused(name):
    form = samples.format_of(name)
    data = bytes(samples.frame_bytes(form, 8, 4) - 1)
    with pytest.raises(samples.Shorter):
        samples.frame(form, data, 8, 4)


def test_bytes_after_a_frame_are_left_out():
    assert bytes(samples.frame(samples.format_of("Mono8"), b"abcd" + b"?" * 9, 2, 2)) == b"abcd"


@pytest.mark.parametrize(
    "name", ["Mono8s", "Mono9", "Mono14Packed", "Mono8p", "Coord3D_A16", "BayerRG32", ""]
)
def test_other_formats_are_refused_by_name(name):
    with pytest.raises(samples.UnknownFormat, match=name):
        samples.format_of(name)


def test_bayer_for_ffmpeg_has_the_whole_16_bits():
    form = samples.format_of("BayerGR12")
    assert form.ffmpeg == "bayer_grbg16le" and form.is_bayer()
    assert list(samples.full(form, np.array([1, 4095], "<u2").tobytes(), 2, 1)) == [16, 65520]


@pytest.mark.parametrize(
    "name,colour",
    [("Mono8", "gray"), ("Mono10p", "gray10le"), ("BayerRG12Packed", "gray12le"),
     ("RGB8", "yuv444p"), ("BGR8Packed", "yuv444p"), ("YUV422_8", "yuv422p"),
     ("YCbCr422_8_CbYCrY", "yuv422p")],
)
def test_colours_are_for_as_many_pixels_as_the_camera_gives_them(name, colour):
    assert samples.format_of(name).planes() == colour
