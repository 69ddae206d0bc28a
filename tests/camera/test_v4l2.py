"""Cameras of Linux, over a device that stands in: formats, numbers, times, faults, refusals."""
import ctypes
import errno
import os
import random
import re
import shutil
import subprocess
import sys
import time
from fractions import Fraction
from pathlib import Path

import pytest
from conftest import PROGRAM, parsed, until
from fake_device import GONE, NAMES, SILENT, Device, Event, Given, Knob

from station_camera import controls, film, planes, program, text, v4l2, words
from station_camera import videodev as v
from station_camera.clock import Clock
from station_camera.counts import Numbers
from station_camera.faults import Gone, Refused

FILE = "DEVICE=/dev/video7\nRATE=30\n"
HERE = Path(__file__).resolve().parent


class Run:
    """A device filmed into a text, until it is over: its frames, each as its words and bytes, what
    was said, and how it ended."""

    def __init__(self, folder, device, file=FILE, frames=None):
        self.told, self.device = [], device
        path = Path(folder) / "out.y4m"
        wanted = words.wanted(file)
        with open(path, "wb") as out:
            kind = film.OfLinux(wanted, self.told.append, device)
            it = film.Film(kind, text.Text(out.fileno()), self.told.append, device.over, frames)
            try:
                it.run()
                self.fault = None
            except Exception as fault:
                self.fault = fault
        self.counts = it.counts.whole
        self.head, self.frames, self.lines = read(path.read_bytes())

    def says(self, pattern):
        """Whether it has said a line of a pattern."""
        return any(re.search(pattern, line) for line in self.told)


def read(data):
    """The header, the frames and the lines of these."""
    if not data:
        return {}, [], []
    lines = []
    head, frames, rest = parsed(data, lambda found: lines.append(found[1].decode()))
    assert rest == b""
    return head, [pixels for _, pixels in frames], lines


def frames_of(count, size, seed=1, **more):
    """So many frames of so many bytes."""
    made = random.Random(seed)
    return [Given(number, [made.randbytes(size)], **more) for number in range(count)]


# Formats: pictures whose planes are known, laid out as the kernel's pages on each format say.


def plane(made, wide, high, most=255):
    return [[made.randint(0, most) for _ in range(wide)] for _ in range(high)]


def flat(rows, padding=0, size=1):
    return b"".join(
        b"".join(it.to_bytes(size, "little") for it in row) + b"?" * padding for row in rows
    )


def mixed(*rows):
    """Rows of values that are taken by turns."""
    return [[it for those in zip(*row) for it in those] for row in zip(*rows)]


def laid_out(fourcc, width, height, padding, made):
    """The parts that a device gives of a picture, the bytes that a store has of it, and the bytes
    of a row of each part."""
    lay = planes.LAYS[fourcc]
    if lay.how == "samples":
        rows = plane(made, width, height, (1 << lay.bits) - 1)
        size = 1 if lay.bits == 8 else 2
        whole = flat(rows, size=size)
        if not lay.packing:
            return [flat(rows, padding, size)], whole, [width * size + padding]
        packed = b"".join(mipi(row, lay.bits) + b"?" * padding for row in rows)
        return [packed], whole, [len(packed) // height]
    luma = plane(made, width, height)
    wide, high = planes.chroma(lay.colour, width, height)
    blue, red = plane(made, wide, high), plane(made, wide, high)
    whole = flat(luma) + flat(blue) + flat(red)
    if lay.how == "pairs":
        pairs = {
            "YUYV": lambda y, z, b, r: (y, b, z, r),
            "YVYU": lambda y, z, b, r: (y, r, z, b),
            "UYVY": lambda y, z, b, r: (b, y, r, z),
            "VYUY": lambda y, z, b, r: (r, y, b, z),
        }[fourcc]
        rows = [
            [it for n in range(wide) for it in pairs(y[2 * n], y[2 * n + 1], b[n], r[n])]
            for y, b, r in zip(luma, blue, red)
        ]
        return [flat(rows, padding)], whole, [2 * width + padding]
    is_red_first = fourcc in ("NV21", "NV61", "NM21", "NM61", "YV12", "YM21", "YM61", "YM42")
    chroma = (red, blue) if is_red_first else (blue, red)
    if lay.how == "twins":
        pieces, strides = [luma, mixed(*chroma)], [width + padding, 2 * wide + padding]
        pads = [padding, padding]
    else:
        pads = [padding, padding // 2, padding // 2]
        pieces, strides = [luma, *chroma], [width + padding, *2 * [wide + padding // 2]]
    parts = [flat(it, pad) for it, pad in zip(pieces, pads)]
    if fourcc[1] == "M":
        return parts, whole, strides
    return [b"".join(parts)], whole, strides[:1]


def mipi(row, bits):
    """A row of samples as MIPI packs them: whole numbers of groups."""
    size, low = {10: 4, 12: 2, 14: 4}[bits], bits - 8
    out = b""
    for at in range(0, len(row), size):
        those = row[at : at + size]
        rest = sum((it & (1 << low) - 1) << low * n for n, it in enumerate(those))
        out += bytes(it >> low for it in those) + rest.to_bytes(size * low // 8, "little")
    return out


PLAIN = [it for it, lay in planes.LAYS.items() if lay.how not in ("rgb", "jpeg")]


@pytest.mark.parametrize("fourcc", PLAIN)
@pytest.mark.parametrize("padding", [0, 8])
def test_a_picture_becomes_its_planes(tmp_path, fourcc, padding):
    made, things, wanted = random.Random(fourcc), [], []
    for number in range(3):
        parts, whole, strides = laid_out(fourcc, 8, 6, padding, made)
        things.append(Given(number, parts, micros=5))
        wanted.append(whole)
    more = dict(type=v.CAPTURE_PLANES) if len(strides) > 1 else {}
    device = Device(things, fourcc, (8, 6), strides if padding else [0] * len(strides), **more)
    it = Run(tmp_path, device, FILE + f"DEVICE_FORMAT={fourcc}\nSIZE=8x6\n")
    assert it.fault is None and it.frames == wanted, it.told
    assert it.head["C"] == text.COLOURS[planes.LAYS[fourcc].colour]
    assert (it.head["W"], it.head["H"], it.head["F"]) == ("8", "6", "30:1")


@pytest.mark.parametrize("fourcc", ["Y10", "Y12P", "BG14", "GR16", "Y16", "pRAA"])
def test_deep_samples_are_shifted_to_8_bits_where_that_is_asked(tmp_path, fourcc):
    parts, whole, strides = laid_out(fourcc, 8, 6, 0, random.Random(fourcc))
    device = Device([Given(0, parts)], fourcc, (8, 6), strides)
    it = Run(tmp_path, device, FILE + "BITS=8\n")
    values = [int.from_bytes(whole[at : at + 2], "little") for at in range(0, len(whole), 2)]
    shift = planes.LAYS[fourcc].bits - 8
    assert it.head["C"] == "mono" and it.frames == [bytes(it >> shift for it in values)]


def test_planes_may_lie_in_several_buffers_behind_other_bytes(tmp_path):
    parts, whole, strides = laid_out("NM12", 8, 6, 0, random.Random(3))
    things = [Given(number, parts, starts=(16, 32)) for number in range(2)]
    device = Device(things, "NM12", (8, 6), strides, type=v.CAPTURE_PLANES)
    assert Run(tmp_path, device).frames == [whole] * 2


def test_odd_sides_round_up(tmp_path):
    luma, chroma = bytes(range(15)), bytes(range(100, 112))
    device = Device([Given(0, [luma + chroma])], "YU12", (3, 5))
    it = Run(tmp_path, device)
    assert it.frames == [luma + chroma] and it.head["W"] == "3"


@pytest.mark.parametrize("word, fourcc", [("yuyv422", "YUYV"), ("y12", "Y12"), ("mjpeg", "MJPG")])
def test_ffmpegs_words_for_formats_are_known(word, fourcc):
    assert planes.lay_of(word).fourcc == fourcc


@pytest.mark.parametrize("word", ["ABCD", "H264", ""])
def test_other_formats_are_refused_by_name(word):
    with pytest.raises(planes.UnknownFormat, match=f"the format {word} isn't read"):
        planes.lay_of(word)


# JPEG: its planes are those that another decoder gives.


def jpeg(folder, width, height, colour, *words):
    """A JPEG of a test picture, and its planes by ffmpeg."""
    path = Path(folder) / f"{colour}.jpg"
    base = ["ffmpeg", "-nostdin", "-v", "error", "-y"]
    size = ["-vf", f"scale={width}:{height}"]
    made = ["-f", "lavfi", "-i", "testsrc2=size=320x240", *size, "-frames:v", "1", "-q:v", "3"]
    made += words
    subprocess.run([*base, *made, "-pix_fmt", colour, path], check=True)
    out = ["-pix_fmt", colour, "-f", "rawvideo", "-"]
    return (
        path.read_bytes(),
        subprocess.run([*base, "-i", path, *out], check=True, capture_output=True).stdout,
    )


def compressed(pixels, width, height, halved):
    """A JPEG by libturbojpeg, of grey (3) or of RGB with another halving of chroma."""
    library = ctypes.CDLL("libturbojpeg.so.0")
    library.tjInitCompress.restype = ctypes.c_void_p
    handle, out, size = (
        ctypes.c_void_p(library.tjInitCompress()),
        ctypes.c_void_p(),
        ctypes.c_ulong(),
    )
    kind = 6 if halved == 3 else 0
    size_of = ctypes.byref(out), ctypes.byref(size)
    words = width, 0, height, kind, *size_of, halved, 98, 0
    assert library.tjCompress2(handle, pixels, *words) == 0
    return ctypes.string_at(out.value, size.value)


def near(one, other):
    """Whether two decoders may differ so."""
    return len(one) == len(other) and max(abs(a - b) for a, b in zip(one, other)) <= 3


@pytest.mark.parametrize("width,height", [(64, 48), (50, 38), (33, 17)])
@pytest.mark.parametrize(
    "colour,stored", [("yuvj420p", "420jpeg"), ("yuvj422p", "422"), ("yuvj444p", "444")]
)
def test_a_jpeg_is_its_planes_without_a_change_of_colours(tmp_path, width, height, colour, stored):
    data, pixels = jpeg(tmp_path, width, height, colour)
    device = Device([Given(0, [data]), Given(1, [data + bytes(40)])], "MJPG", (width, height))
    device.sizeimage = 1 << 16
    it = Run(tmp_path, device)
    assert it.fault is None and it.head["C"] == stored and len(it.frames) == 2, it.told
    assert all(near(frame, pixels) for frame in it.frames)


def test_a_grey_jpeg_is_grey(tmp_path):
    rows = bytes(4 * (x + y) % 256 for y in range(16) for x in range(16))
    data = compressed(rows, 16, 16, 3)
    it = Run(tmp_path, Device([Given(0, [data])], "MJPG", (16, 16), sizeimage=1 << 16))
    assert it.head["C"] == "mono" and near(it.frames[0], rows), it.told


def test_a_jpeg_without_its_tables_is_read_as_webcams_give_it(tmp_path):
    data, pixels = jpeg(tmp_path, 64, 48, "yuvj422p", "-huffman", "default")
    at = data.index(b"\xff\xc4")
    bare = data[:at] + data[at + 2 + int.from_bytes(data[at + 2 : at + 4], "big") :]
    assert b"\xff\xc4" not in bare[: bare.index(b"\xff\xda")]
    end = bare.rindex(b"\xff\xd9")
    things = [Given(0, [bare]), Given(1, [bare[:end] + b"\0\0\0\xff\xd9"])]
    it = Run(tmp_path, Device(things, "MJPG", (64, 48), sizeimage=1 << 16))
    assert len(it.frames) == 2 and all(near(frame, pixels) for frame in it.frames), it.told


def test_a_jpeg_that_is_cut_off_is_incomplete(tmp_path):
    data, _ = jpeg(tmp_path, 64, 48, "yuvj422p")
    half = data[: len(data) // 2]
    things = [half, half + b"\xff\xd9", b"", b"?" * 99, data]
    device = Device([Given(n, [it]) for n, it in enumerate(things)], "MJPG", (64, 48))
    device.sizeimage = 1 << 16
    it = Run(tmp_path, device)
    assert it.counts["incomplete"] == 4 and it.lines == [" Xn=4"]


def test_a_jpeg_of_other_planes_is_refused(tmp_path):
    # Chroma that is halved downwards alone.
    data = compressed(bytes(3 * 16 * 16), 16, 16, 4)
    it = Run(tmp_path, Device([Given(0, [data])], "MJPG", (16, 16), sizeimage=1 << 16))
    assert isinstance(it.fault, Refused) and "choose another format" in str(it.fault)


def test_a_jpeg_of_another_size_than_the_devices_is_refused(tmp_path):
    data = compressed(bytes(256), 16, 16, 3)
    it = Run(tmp_path, Device([Given(0, [data])], "MJPG", (32, 16), sizeimage=1 << 16))
    assert isinstance(it.fault, Refused) and "its JPEG has 16x16" in str(it.fault)


# Colours that ffmpeg makes.


def test_other_planes_than_the_devices_are_made_by_ffmpeg_and_keep_time_and_number(tmp_path):
    luma, blue, red = b"\x30" * 32, b"\x90" * 16, b"\x60" * 16
    data = b"".join(bytes([0x30, 0x90, 0x30, 0x60]) for _ in range(16))
    things = [Given(3 * n, [data], micros=1000 * n + 1) for n in range(4)]
    it = Run(tmp_path, Device(things), FILE + "STORE_FORMAT=yuv420p\n")
    assert it.head["C"] == "420jpeg" and it.frames == [luma + blue[:8] + red[:8]] * 4, it.told
    assert [int(re.search(r"Xn=(\d+)$", line)[1]) for line in it.lines] == [0, 3, 6, 9]
    assert len({re.search(r"Xt=(\d+)", line)[1] for line in it.lines}) == 4


@pytest.mark.parametrize("fourcc,pixel", [("RGB3", (255, 0, 0)), ("BGR3", (0, 0, 255))])
def test_rgb_is_stored_in_full(tmp_path, fourcc, pixel):
    rows = (bytes(pixel) * 8 + b"?" * 8) * 4
    it = Run(tmp_path, Device([Given(0, [rows])], fourcc, (8, 4), [32]))
    assert it.head["C"] == "444" and near(
        it.frames[0], bytes([81] * 32 + [90] * 32 + [240] * 32)
    ), it.told


def test_bayer_is_made_into_colours_where_that_is_asked(tmp_path):
    parts, _, strides = laid_out("RG12", 8, 6, 0, random.Random(2))
    device = Device([Given(0, parts)], "RG12", (8, 6), strides)
    it = Run(tmp_path, device, FILE + "STORE_FORMAT=yuv420p\n")
    assert it.head["C"] == "420jpeg" and len(it.frames[0]) == 72, it.told


@pytest.mark.parametrize(
    "fourcc,more,says",
    [
        ("Y12", "STORE_FORMAT=gray\n", "STORE_FORMAT=gray: Y12 gives gray12le, or gray by BITS=8"),
        ("GREY", "STORE_FORMAT=yuv420p\n", "STORE_FORMAT=yuv420p: GREY gives gray$"),
    ],
)
def test_samples_are_not_made_into_others(tmp_path, fourcc, more, says):
    it = Run(tmp_path, Device(frames_of(1, 64), fourcc), FILE + more)
    assert isinstance(it.fault, text.BadFrames) and re.search(says, str(it.fault))


# Numbers, times and faults.


def test_a_missing_number_is_a_lost_frame(tmp_path):
    things = [it for it in frames_of(9, 64) if it.number not in (2, 5, 6)]
    it = Run(tmp_path, Device(things))
    assert it.counts["lost"] == 3 and it.lines == [f" Xn={n}" for n in (0, 1, 3, 4, 7, 8)]
    assert it.says("ended: 6 frames given on, 3 frames lost before they came")


@pytest.mark.parametrize(
    "numbers,given,lost",
    [
        ([(1 << 32) - 1, 0, 2], [(1 << 32) - 1, 1 << 32, (1 << 32) + 2], 1),
        ([8, 9, 9, 10, 12], [8, 9, 9, 10, 12], 1),
        ([8, 9, 0, 1, 3], [8, 9, 0, 1, 3], 1),
        ([0, 0, 0, 0], [0, 0, None, None], 0),
    ],
)
def test_the_station_is_given_numbers_without_an_end(tmp_path, numbers, given, lost):
    """Those that come again or go back stay as they are: there it begins anew."""
    things = [it._replace(number=n) for it, n in zip(frames_of(len(numbers), 64), numbers)]
    it = Run(tmp_path, Device(things))
    assert it.lines == ["" if n is None else f" Xn={n}" for n in given]
    assert it.counts["lost"] == lost


def test_numbers_go_round_and_begin_anew():
    told = []
    numbers = Numbers(told.append)
    given = [7, 8, (1 << 32) - 3, (1 << 32) - 2, 1, 2, 0, 65_537, 65_536 + 65_539, 9, 9, 9]
    found = [numbers.before(it) for it in given]
    assert found == [0, 0, 0, 0, 2, 0, 0, 0, 0, 0, 0, 0]
    assert [line.split(":")[1] for line in told] == [
        " 4294967293 after 8",
        " 0 after 2",
        " 65537 after 0",
        " 131075 after 65537",
        " 9 after 131075",
        " what it loses isn't known",
    ]


@pytest.mark.parametrize("missing", [0, 1, 65_535])
def test_so_many_frames_may_be_missing(missing):
    numbers = Numbers(pytest.fail)
    numbers.before(10)
    assert numbers.before(11 + missing) == missing


def test_a_frame_has_the_kernels_time_by_the_time_of_day(tmp_path, monkeypatch):
    clock = {"monotonic": 50 * 10**9, "day": 1_795_880_280 * 10**9}
    monkeypatch.setattr(v4l2.time, "monotonic_ns", lambda: clock["monotonic"])
    monkeypatch.setattr(
        Clock.__init__, "__defaults__", (None, lambda: clock["day"], "camera", False)
    )
    things = [it._replace(micros=49_000_000 + 40_000 * it.number) for it in frames_of(3, 64)]
    it = Run(tmp_path, Device(things))
    start = 1_795_880_279_000_000
    assert it.lines == [f" Xt={start + 40_000 * n} Xn={n}" for n in range(3)]
    assert it.says("times are the kernel's, tied to the system's clock: plus .* within 0 us")


@pytest.mark.parametrize("flags", [0, 0x4000])
def test_a_driver_with_another_clock_gives_no_times(tmp_path, flags):
    it = Run(tmp_path, Device([it._replace(micros=9, flags=flags) for it in frames_of(2, 64)]))
    assert it.lines == [" Xn=0", " Xn=1"]


def test_arrival_gives_no_times(tmp_path):
    things = [it._replace(micros=9) for it in frames_of(2, 64)]
    assert Run(tmp_path, Device(things), FILE + "CLOCK=arrival\n").lines == [" Xn=0", " Xn=1"]


def test_faulty_and_short_frames_are_dropped_and_told(tmp_path):
    things = frames_of(6, 64)
    things[1] = things[1]._replace(flags=v.CLOCK_IS_MONOTONIC | v.IS_FAULTY)
    things[3] = things[3]._replace(parts=[things[3].parts[0][:63]])
    things[4] = things[4]._replace(parts=[b""])
    it = Run(tmp_path, Device(things))
    assert it.lines == [" Xn=0", " Xn=2", " Xn=5"]
    assert (it.counts["incomplete"], it.counts["lost"]) == (3, 0)
    assert it.says("3 frames incomplete and dropped")


def test_the_last_row_may_lack_its_padding(tmp_path):
    row = bytes(range(16))
    device = Device([Given(0, [(row + b"????") * 3 + row])], strides=[20])
    assert Run(tmp_path, device).counts["incomplete"] == 0


def test_every_buffer_is_given_back(tmp_path):
    things = frames_of(200, 64)
    things[5] = things[5]._replace(flags=v.IS_FAULTY)
    device = Device(things)
    it = Run(tmp_path, device)
    assert len(it.frames) == 199 and sorted(device.queue) == list(range(32))


# What a device takes.


@pytest.mark.parametrize(
    "device,file,says",
    [
        (dict(size=(16, 4)), "SIZE=8x4\n", "takes 16x4 YUYV, and not 8x4 YUYV"),
        (dict(fourcc="UYVY"), "DEVICE_FORMAT=YUYV\n", "takes 8x4 UYVY, and not 8x4 YUYV"),
        (dict(), "DEVICE_FORMAT=H264\n", "the format H264 isn't read"),
        (dict(fourcc="H264"), "", "the format H264 isn't read"),
        (dict(field=4), "", r"gives fields \(interlaced\)"),
        (dict(field=7), "", r"gives fields \(interlaced\)"),
        (dict(strides=[15]), "", "rows of 15 bytes for 8 pixels"),
        (dict(caps=v.CAN_CAPTURE), "", "gives no frames by buffers"),
        (dict(caps=v.CAN_STREAM), "", "gives no frames by buffers"),
        (dict(most=1), "", "memory for 1 buffers"),
        (dict(faults={"REQBUFS": errno.ENOMEM}), "", "32 buffers: Cannot allocate memory"),
        (dict(faults={"S_FMT": errno.EINVAL}), "DEVICE_FORMAT=YUYV\n", "DEVICE_FORMAT=YUYV: "),
        (dict(faults={"open": errno.EACCES}), "", "the user has to be in the group video"),
        (dict(faults={"STREAMON": errno.EPIPE}), "", "it doesn't begin: Broken pipe"),
        (dict(faults={"STREAMON": errno.ENOSPC}), "", "its USB has no room left"),
        (dict(), "CONTROL_gain=3\n", "CONTROL_gain=3: the device has no such control"),
    ],
)
def test_what_a_device_does_not_take_is_refused_by_its_word(tmp_path, device, file, says):
    it = Run(tmp_path, Device(frames_of(1, 64), **device), FILE + file)
    assert isinstance(it.fault, Refused) and re.search(says, str(it.fault)), it.fault
    assert it.frames == []


def test_without_a_rate_one_is_wanted(tmp_path):
    it = Run(tmp_path, Device(frames_of(1, 64), rate=None), "DEVICE=/dev/video7\n")
    assert isinstance(it.fault, Refused) and "RATE is missing" in str(it.fault)


@pytest.mark.parametrize(
    "rate,file,found",
    [
        ((25, 1), "", "25:1"),
        ((25, 1), "RATE=30\n", "25:1"),
        ((30000, 1001), "RATE=29.97\n", "2997:100"),
        (None, "RATE=12.5\n", "25:2"),
    ],
)
def test_the_rate_is_the_devices_own_or_what_it_takes(tmp_path, rate, file, found):
    device = Device(frames_of(1, 64), rate=rate, takes_rates=False)
    it = Run(tmp_path, device, "DEVICE=/dev/video7\n" + file)
    assert it.head["F"] == found
    assert it.says("RATE=30: the camera gives 25 a second") == ("RATE=30" in file)


@pytest.mark.parametrize(
    "size,wanted,count",
    [(4096, None, 32), (4096, 6, 6), (16_000_000, None, 16), (200_000_000, None, 4)],
)
def test_there_are_as_many_buffers_as_memory_allows(size, wanted, count):
    assert v4l2.buffers_for(size, wanted) == count


def test_what_the_file_leaves_out_stays_as_the_device_has_it(tmp_path):
    device = Device(frames_of(1, 64), rate=(15, 1))
    it = Run(tmp_path, device, "DEVICE=/dev/video7\n")
    assert (it.head["W"], it.head["H"], it.head["F"]) == ("8", "4", "15:1")
    assert it.says("filming /dev/video7: 8x4 yuv422p 15 a second of YUYV, 32 buffers")


# Controls.


def knobs():
    """A webcam's."""
    return [
        Knob(1, v.CLASS, "User Controls", flags=v.READ_ONLY),
        Knob(2, v.INTEGER, "Gain", 0, 255, 1, 10),
        Knob(3, v.BOOLEAN, "White Balance, Automatic", 0, 1, 1, 1),
        Knob(
            4,
            v.MENU,
            "Power Line Frequency",
            0,
            2,
            1,
            0,
            0,
            {0: "Disabled", 1: "50 Hz", 2: "60 Hz"},
        ),
        Knob(5, v.INTEGER, "Exposure Time, Absolute", 3, 2047, 4, 251),
        Knob(6, v.INTEGER, "White Balance Temperature", 2800, 6500, 1, 4000, v.INACTIVE),
        Knob(7, v.INTEGER_MENU, "Link Frequency", 0, 3, 1, 0, 0, {0: 100, 3: 400}),
        Knob(8, v.INTEGER64, "Pixel Rate", 0, 1 << 40, 1, 5),
        Knob(9, v.STRING, "Text", 0, 8, 1, b"abc"),
        Knob(10, v.BITMASK, "Bits", 0, 0xF0, 0, 0x10),
        Knob(11, v.BUTTON, "Do It"),
        Knob(12, v.INTEGER, "Off", flags=v.DISABLED),
    ]


def test_controls_are_set_by_name_in_the_files_order(tmp_path):
    device = Device(frames_of(1, 64), knobs=knobs())
    file = (
        "CONTROL_white_balance_automatic=off\nCONTROL_gain=20\nCONTROL_power_line_frequency='50 hz'"
        "\nCONTROL_exposure_time_absolute=99\nCONTROL_link_frequency=3\n"
        "CONTROL_pixel_rate=1099511627776\nCONTROL_text=xyz\nCONTROL_bits=0x30\nCONTROL_do_it=\n"
    )
    it = Run(tmp_path, device, FILE + file)
    assert it.fault is None and len(it.frames) == 1, it.fault
    assert device.set == [
        ("White Balance, Automatic", 0),
        ("Gain", 20),
        ("Power Line Frequency", 1),
        ("Exposure Time, Absolute", 99),
        ("Link Frequency", 3),
        ("Pixel Rate", 1 << 40),
        ("Text", b"xyz"),
        ("Bits", 0x30),
        ("Do It", 0),
    ]
    # Before a frame comes, and after the format, on which some ranges depend.
    order = device.asked
    assert order.index("S_FMT") < order.index("S_EXT_CTRLS") < order.index("STREAMON")


@pytest.mark.parametrize(
    "word,says",
    [
        ("gain=256", "CONTROL_gain=256: it takes 0 to 255$"),
        ("gain=high", "it takes 0 to 255"),
        ("exposure_time_absolute=100", "it takes 3 to 2047 by 4"),
        ("power_line_frequency=3", r"it takes 0 \(Disabled\), 1 \(50 Hz\), 2 \(60 Hz\)"),
        ("link_frequency=1", r"it takes 0 \(100\), 3 \(400\)"),
        ("white_balance_automatic=2", "it takes 0 or 1"),
        ("white_balance_temperature=3000", "another control sets it"),
        ("text=123456789", "it takes a text of 0 to 8 bytes"),
        ("bits=1", "it takes 0 to 0xf0"),
        ("do_it=1", "it takes no value"),
        ("off=1", "no such control"),
        ("user_controls=1", "no such control"),
    ],
)
def test_a_value_that_a_control_does_not_take_is_refused(tmp_path, word, says):
    device = Device(frames_of(1, 64), knobs=knobs())
    it = Run(tmp_path, device, FILE + f"CONTROL_{word}\n")
    assert isinstance(it.fault, Refused) and re.search(says, str(it.fault)), it.fault
    assert device.set == []


def test_a_value_that_the_device_changes_is_told(tmp_path):
    class Rounds(Device):
        def s_ext_ctrls(self, it):
            super().s_ext_ctrls(it)
            self.knobs[1].now = 16

    it = Run(tmp_path, Rounds(frames_of(1, 64), knobs=knobs()), FILE + "CONTROL_gain=20\n")
    assert it.says("^CONTROL_gain=20: the device has 16 now$")


def test_a_name_is_written_as_v4l2_ctl_writes_it():
    assert controls.plain(b"Exposure Time, Absolute") == "exposure_time_absolute"
    assert controls.plain(b" Focus (absolute)!") == "focus_absolute"


def test_devices_are_listed_with_their_modes_and_controls(tmp_path, capsys, monkeypatch):
    (tmp_path / "video0").write_text("")
    device = Device(sizes=[(640, 480), (320, 240)], rates=[(30, 1), (2997, 100)], knobs=knobs()[:7])
    device.formats = ["YUYV", "ABCD", "Y12"]
    (found,) = v4l2.devices(device, str(tmp_path / "video*"))
    assert found.name == "A fake" and found.modes == [
        v4l2.Mode(word, *size, ["30", "29.97"])
        for word in ("YUYV", "Y12")
        for size in ((640, 480), (320, 240))
    ]
    monkeypatch.setattr(v4l2, "devices", lambda: [found])
    monkeypatch.setattr(program.needed, "genicam", lambda: Away)
    assert program.list_all(False) == 0
    out = capsys.readouterr().out.splitlines()
    assert out[:2] == [f"DEVICE={tmp_path}/video0  A fake", "    YUYV 640x480 30 29.97 a second"]
    assert out[5:] == [
        "    CONTROL_gain: 0 to 255; 10 now",
        "    CONTROL_white_balance_automatic: 0 or 1; 1 now",
        "    CONTROL_power_line_frequency: 0 (Disabled), 1 (50 Hz), 2 (60 Hz); 0 now",
        "    CONTROL_exposure_time_absolute: 3 to 2047 by 4; 251 now",
        "    CONTROL_white_balance_temperature: 2800 to 6500; 4000 now; another one sets it now",
        "    CONTROL_link_frequency: 0 (100), 3 (400); 0 now",
    ]


class Away:
    """GenICam without a camera."""

    @staticmethod
    def cameras(_fake):
        return []


def test_a_device_of_another_user_is_listed_with_why(tmp_path):
    (tmp_path / "video0").write_text("")
    device = Device(faults={"open": errno.EACCES})
    (found,) = v4l2.devices(device, str(tmp_path / "video*"))
    assert "the user has to be in the group video" in found.why and found.modes == []
    assert "group video" in program.lines_of_device(found)[1]


def test_a_device_that_gives_no_pictures_is_left_out(tmp_path):
    (tmp_path / "video0").write_text("")
    assert v4l2.devices(Device(caps=v.CAN_STREAM), str(tmp_path / "video*")) == []
    assert v4l2.devices(Device(faults={"open": errno.ENODEV}), str(tmp_path / "video*")) == []


# Cameras that go, come back, or become others.


def test_a_source_that_has_changed_is_opened_anew(tmp_path):
    things = [*frames_of(2, 64), Event(), *frames_of(3, 64, seed=2)]
    device = Device(things)
    it = Run(tmp_path, device)
    assert it.says("^waiting for /dev/video7: its source has changed$") and device.opened == 2
    assert it.lines == [f" Xn={n}" for n in (0, 1, 0, 1, 2)] and it.counts["lost"] == 0


def test_a_source_of_another_size_ends_the_text(tmp_path):
    class Grows(Device):
        def open(self, path):
            if self.opened:
                self.size = 16, 4
            return super().open(path)

    it = Run(tmp_path, Grows([*frames_of(2, 64), Event(), *frames_of(3, 128)]))
    assert isinstance(it.fault, text.BadFrames) and len(it.frames) == 2
    assert str(it.fault) == (
        "its frames are 16x4 yuv422p 30 a second now, and were 8x4 yuv422p 30 a second"
    )


def test_other_events_are_passed_over(tmp_path):
    device = Device([frames_of(1, 64)[0], Event(3), *frames_of(2, 64)[1:]])
    assert len(Run(tmp_path, device).frames) == 2 and device.opened == 1


def test_an_input_without_a_signal_is_waited_for(tmp_path):
    class Timed(Device):
        def g_input(self, it):
            it.value = 3

        def enuminput(self, it):
            assert it.index == 3
            it.capabilities = v.HAS_TIMINGS

        def query_dv_timings(self, it):
            if self.opened == 1:
                self._refuse(errno.ENOLINK)
            it.of[5] = 77

        def s_dv_timings(self, it):
            self.took = it.of[5]

    device = Timed(frames_of(1, 64))
    it = Run(tmp_path, device)
    assert it.says("waiting for /dev/video7: it has no signal$") and device.took == 77
    assert len(it.frames) == 1


def test_a_camera_that_is_plugged_in_again_is_found_by_the_name_that_stays(tmp_path, monkeypatch):
    folder, opened = tmp_path / "by-id", []
    folder.mkdir()
    monkeypatch.setattr(v4l2, "LASTING", str(folder))
    monkeypatch.setattr(v4l2.lasting, "__defaults__", (str(folder),))
    (tmp_path / "video0").write_text("")
    (folder / "usb-cam").symlink_to(tmp_path / "video0")

    class Comes(Device):
        def open(self, path):
            opened.append(path)
            if len(opened) in (2, 3):
                self._refuse(errno.ENOENT)
            self.faults.clear()
            return super().open(path)

    device = Comes([*frames_of(2, 64), GONE, *frames_of(2, 64)])
    it = Run(tmp_path, device, f"DEVICE={tmp_path}/video0\nRATE=30\n")
    assert opened == [f"{tmp_path}/video0", *3 * [f"{folder}/usb-cam"]]
    assert it.says(f"^waiting for {folder}/usb-cam: it has gone$")
    assert it.says(f"^waiting for {folder}/usb-cam: it isn't there$") and len(it.frames) == 4


@pytest.mark.parametrize("fault", [errno.EIO, errno.EINVAL, errno.EPIPE, errno.ENODEV])
def test_a_stream_that_fails_begins_anew(tmp_path, monkeypatch, fault):
    class Fails(Device):
        def wait(self, descriptor, seconds):
            if len(self.things) == 2 and self.opened == 1:
                self.faults["DQBUF"] = fault
                return True, False
            return super().wait(descriptor, seconds)

        def open(self, path):
            self.faults.clear()
            return super().open(path)

    device = Fails(frames_of(5, 64))
    assert len(Run(tmp_path, device).frames) == 5 and device.opened == 2


@pytest.mark.parametrize(
    "control,is_there,opened,says",
    [
        ("", True, 2, "it has given no frame for 0 s"),
        ("CONTROL_trigger_mode=1\n", True, 1, None),
        ("", False, 2, "it has gone"),
    ],
)
def test_a_silent_camera_is_begun_anew_unless_it_is_triggered(
    tmp_path, monkeypatch, control, is_there, opened, says
):
    for name, value in (("SILENCE", 0.1), ("STUCK", 0.4), ("POLL", 0.05)):
        monkeypatch.setattr(v4l2, name, value)
    path = tmp_path / "video0"
    path.write_text("") if is_there else None
    things = [*frames_of(1, 64), *12 * [SILENT], *frames_of(1, 64)]
    device = Device(things, knobs=[Knob(1, v.BOOLEAN, "Trigger Mode", 0, 1)], rate=(1000, 1))
    device.rates = [(1000, 1)]
    it = Run(tmp_path, device, f"DEVICE={path}\nRATE=1000\n{control}")
    assert min(device.opened, 2) == opened and len(it.frames) == 2
    assert says is None or it.says(says)


def test_a_camera_that_another_program_has_is_waited_for(tmp_path):
    class Busy(Device):
        def s_fmt(self, it):
            if self.opened == 1:
                self._refuse(errno.EBUSY)
            super().s_fmt(it)

    it = Run(tmp_path, Busy(frames_of(1, 64)))
    assert it.says("waiting for /dev/video7: .*another program has it$") and len(it.frames) == 1


def test_a_clock_that_was_set_is_followed():
    told, at = [], [0, 10**18]
    clock = Clock("tied", told.append, lambda: at[0], lambda: at[1], "kernel", True)
    at[0] += 10**9
    at[1] += 10**9 + 20_000_000
    clock.look(1, 0)
    assert clock.micros(10**9, 0) == (10**18 + 10**9) // 1000 and len(told) == 1
    at[1] += 3_600 * 10**9
    clock.look(1, 0)
    assert clock.micros(10**9, 0) == (10**18 + 3_601 * 10**9 + 20_000_000) // 1000
    assert told[1:] == ["the system's clock was set: times are 3600020 ms later from here on"]


# The program.


@pytest.fixture
def stand_in(tmp_path, monkeypatch):
    """loop_camera over a device that stands in, which is there where its path is."""
    path = tmp_path / "loop_camera"
    path.write_text(f'#!/bin/sh\nexec {sys.executable} -B {HERE}/fake_device.py {PROGRAM} "$@"\n')
    path.chmod(0o755)
    monkeypatch.setattr("conftest.PROGRAM", str(path))
    return tmp_path / "device"


def test_a_device_is_waited_for_filmed_and_filmed_again(camera, stand_in):
    it = camera(f"DEVICE={stand_in}\nDEVICE_FORMAT=yuyv422\nSIZE=64x48\nRATE=50\n")
    it.says(f"^left: waiting for {stand_in}: it isn't there$")
    stand_in.write_text("")
    it.count(20)
    stand_in.unlink()
    it.says(f"^left: waiting for {stand_in}: it has gone$")
    seen = len(it.log())
    stand_in.write_text("")
    it.count(seen + 20)
    assert it.stop() == 0
    head, frames, rest = it.text()
    assert (head["C"], head["F"], rest) == ("422", "50:1", b"") and len(frames) == len(it.log())
    plus = int(it.says(r"tied to the system's clock: plus (\d+) us")[1])
    for (at, data), (number, stamp, micros, _) in zip(frames, it.log()):
        row = bytes((x + number) % 256 for x in range(128))
        assert data == 48 * row[::2] + 48 * row[1::4] + 48 * row[3::4]
        assert at == micros and abs(micros - stamp // 1000 - plus) < 100_000
    times = [at for at, _ in frames]
    assert times == sorted(times) and [number for number, *_ in it.log()].count(0) == 2


def test_so_many_frames_end_it(camera, stand_in):
    stand_in.write_text("")
    it = camera(f"DEVICE={stand_in}\nDEVICE_FORMAT=YUYV\nSIZE=8x4\nRATE=50\n", "--frames", "5")
    assert it.wait() == 0 and len(it.text()[1]) == 5


def test_a_camera_that_is_there_waits_for_a_reader_of_its_pipe(camera, stand_in, tmp_path):
    os.mkfifo(tmp_path / "pipe")
    stand_in.write_text("")
    words = "--to", "pipe", "--frames", "3"
    it = camera(f"DEVICE={stand_in}\nDEVICE_FORMAT=YUYV\nSIZE=8x4\nRATE=50\n", *words)
    time.sleep(0.5)
    assert it.run.poll() is None and it.told() == ""
    # The first frame that it takes is the camera's first.
    assert len(parsed((tmp_path / "pipe").read_bytes())[1]) == 3 and it.wait() == 0
    assert it.log()[0][0] == 0


def test_a_signal_ends_the_wait_for_a_reader(camera, stand_in, tmp_path):
    os.mkfifo(tmp_path / "pipe")
    it = camera(f"DEVICE={stand_in}\nDEVICE_FORMAT=YUYV\nSIZE=8x4\nRATE=50\n", "--to", "pipe")
    it.says("waiting for")
    stand_in.write_text("")
    time.sleep(1.5)
    assert it.stop() == 0 and "ended: 0 frames given on" in it.told()


def test_a_device_that_is_none_is_told(camera):
    it = camera("DEVICE=/dev/null\nRATE=30\n")
    assert it.wait() == 1
    assert re.search("^left: /dev/null: it doesn't say what it is: ", it.told(), re.M)


def test_a_real_device_that_is_not_there_is_waited_for(camera, tmp_path):
    it = camera(f"DEVICE={tmp_path}/none\nRATE=30\n")
    it.says(f"^left: waiting for {tmp_path}/none: it isn't there$")
    assert it.stop() == 0


# Network cameras and films.


def program_in(folder, name, script):
    """A program that stands before the true one."""
    place = Path(folder) / "bin"
    place.mkdir(exist_ok=True)
    (place / name).write_text("#!/bin/sh\n" + script)
    (place / name).chmod(0o755)
    return {"PATH": f"{place}:{os.environ['PATH']}"}


@pytest.mark.parametrize(
    "file,command",
    [
        (
            "SOURCE=rtsp://10.0.0.9/live\nSIZE=64x48\nRATE=25\n",
            "-rtsp_transport tcp -timeout 10000000 -i rtsp://10.0.0.9/live -an "
            "-vf scale=64:48,fps=25 -fps_mode passthrough -pix_fmt yuv420p",
        ),
        (
            "SOURCE=/films/a.mp4\nSTORE_FORMAT=yuv444p\n",
            "-re -i /films/a.mp4 -an -fps_mode passthrough -pix_fmt yuv444p",
        ),
        (
            "SOURCE=http://10.0.0.9/\n",
            "-i http://10.0.0.9/ -an -fps_mode passthrough -pix_fmt yuv420p",
        ),
    ],
)
def test_a_network_camera_is_filmed_by_ffmpeg(camera, tmp_path, file, command):
    made = 'printf "%s\\n" "$*" >words; printf "YUV4MPEG2 W2 H1 F30:1 Cmono\\nFRAME\\nab"\n'
    it = camera(file, env=program_in(tmp_path, "ffmpeg", made))
    assert it.wait() == 0 and it.text()[1] == [(None, b"ab")]
    assert (tmp_path / "words").read_text() == (
        f"-nostdin -v error {command} -strict -1 -f yuv4mpegpipe -\n"
    )
    assert "it has no numbers, so the station estimates what is lost" in it.told()


def test_a_real_film_is_played(camera, tmp_path):
    made = ["-f", "lavfi", "-i", "testsrc=size=64x48:rate=25:duration=0.4", tmp_path / "a.avi"]
    subprocess.run(["ffmpeg", "-nostdin", "-v", "error", *made], check=True)
    it = camera(f"SOURCE={tmp_path}/a.avi\n")
    assert it.wait() == 0, it.told()
    data = it.out.read_bytes()
    assert data.startswith(b"YUV4MPEG2 W64 H48 F25:1 ") and data.count(b"FRAME\n") == 10


# The kernel's structures.

WORDS = [it for it in dir(v) if it.isupper() and isinstance(getattr(v, it), int)]
STRUCTURES = {
    "capability": v.Capability,
    "fmtdesc": v.FormatWord,
    "format": v.Format,
    "streamparm": v.Parm,
    "requestbuffers": v.Request,
    "buffer": v.Buffer,
    "plane": v.Plane,
    "pix_format_mplane": v.PlanesPix,
    "frmsizeenum": v.Size,
    "frmivalenum": v.Interval,
    "query_ext_ctrl": v.ControlWord,
    "querymenu": v.MenuWord,
    "ext_control": v.Control,
    "ext_controls": v.Controls,
    "event": v.Event,
    "event_subscription": v.Subscription,
    "input": v.Input,
    "dv_timings": v.Timings,
}


def test_structures_and_words_are_the_kernels(tmp_path):
    header = Path("/usr/include/linux/videodev2.h")
    if not header.exists() or not shutil.which("cc"):
        pytest.skip("the kernel's header isn't here, or no compiler")
    lines = [f'P(sizeof(struct v4l2_{it}), "{it}")' for it in STRUCTURES]
    lines += [f'P(VIDIOC_{it}, "{it}")' for it in NAMES]
    lines += [f'P(v4l2_fourcc({",".join(map(repr, it.ljust(4)))}), "{it}")' for it in planes.LAYS]
    (tmp_path / "a.c").write_text(
        "#include <linux/videodev2.h>\n#include <stdio.h>\n#define P(value, name) "
        'printf("%s=%lu\\n", name, (unsigned long)(value));\nint main(void) {\n'
        + "\n".join(lines)
        + "\n}\n"
    )
    subprocess.run(["cc", "-o", tmp_path / "a", tmp_path / "a.c"], check=True)
    told = subprocess.run([tmp_path / "a"], capture_output=True, text=True, check=True).stdout
    found = dict(line.rsplit("=", 1) for line in told.splitlines())
    for name, kind in STRUCTURES.items():
        assert int(found[name]) == ctypes.sizeof(kind), name
    for name in NAMES:
        assert int(found[name]) == getattr(v, name), name
    for name in planes.LAYS:
        assert int(found[name]) == v.number_of(name) and v.word_of(v.number_of(name)) == name


def test_rates_are_fractions_of_the_device():
    parm = v.Parm()
    assert v4l2.rate_in(parm) is None
    parm.of.capture.numerator, parm.of.capture.denominator = 1001, 30000
    assert v4l2.rate_in(parm) == Fraction(30000, 1001)


def test_a_fault_says_what_to_do():
    assert isinstance(v4l2.said("/dev/video0", OSError(errno.EBUSY, "x")), Gone)
    assert str(v4l2.said("/dev/video0", OSError(errno.EPERM, "no"), "so")) == "/dev/video0: so: no"


def test_a_signal_ends_it(camera, stand_in):
    stand_in.write_text("")
    it = camera(f"DEVICE={stand_in}\nDEVICE_FORMAT=YUYV\nSIZE=64x48\nRATE=100\n")
    until("it films", lambda: len(it.log()) > 3)
    assert it.stop() == 0 and f"ended: {len(it.text()[1])} frames given on" in it.told()
