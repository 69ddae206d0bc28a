"""Samples of more than 8 bits: how they are seen, and fetched."""
import io
import subprocess
import zipfile
from types import SimpleNamespace

import layout
import numpy
import pytest
from conftest import LIMIT, Laboratory
from lapyrei.colour import rgb_of
from PIL import Image
from station_page import pictures
from station_page.bundle import Bundle
from station_page.eye import calmed
from station_page.films import Fetch, Text
from station_page.reader import Clip, Gone
from station_page.words import Unfit

DEPTHS = [9, 10, 12, 14, 16]


def frame(form, bits, width=8, height=4):
    """A frame whose samples are all different, with its geometry."""
    geometry = layout.geometry_of(2 * width, height, form, 25, 1, 2, 2)
    count = geometry.size // 2
    samples = numpy.linspace(0, (1 << bits) - 1, count).astype("<u2")
    return geometry, samples, samples.tobytes()


@pytest.mark.parametrize("bits", DEPTHS)
@pytest.mark.parametrize("form", sorted(layout.DIVIDED))
def test_a_deep_frame_is_a_picture_of_its_size_with_each_value(form, bits):
    geometry, samples, data = frame(form, bits)
    assert Image.open(io.BytesIO(pictures.jpeg(geometry, data, bits=bits))).size == (8, 4)
    assert Image.open(io.BytesIO(pictures.jpeg(geometry, data, 4, bits=bits))).size == (4, 2)
    whole = pictures.png(geometry, data, bits)
    kind = "gray16be" if form == b"GREY" else "rgb48be"
    words = ["ffmpeg", "-v", "error", "-i", "-", "-f", "rawvideo", "-pix_fmt", kind, "-"]
    shown = subprocess.run(words, input=whole, capture_output=True, check=True).stdout
    planes, at = [], 0
    for count in layout.planes_of(8, 4, form):
        wide = 8 if count == 32 else 8 // layout.DIVIDED[form][0]
        planes.append(samples[at : at + count].reshape(-1, wide))
        at += count
    wanted = planes[0] if form == b"GREY" else rgb_of(tuple(planes), bits)
    assert shown == wanted.astype(">u2").tobytes()


@pytest.mark.parametrize("bits", DEPTHS)
def test_grey_is_shown_by_its_whole_range_or_by_a_window(bits):
    geometry, samples, data = frame(b"GREY", bits)
    top = (1 << bits) - 1
    plain = numpy.asarray(pictures.image_of(geometry, data, bits=bits))
    assert (plain.ravel() == numpy.rint(samples / top * 255)).all()
    black, white = top // 4, top // 2
    seen = numpy.asarray(
        pictures.image_of(geometry, data, stretch=(black, white), bits=bits)
    ).ravel()
    assert (seen[samples <= black] == 0).all() and (seen[samples >= white] == 255).all()
    between = (samples > black) & (samples < white)
    assert (
        between.any()
        and (abs(seen[between] - (samples[between] - black) * 255.0 / (white - black)) <= 0.5).all()
    )


@pytest.mark.parametrize("bits", DEPTHS)
def test_deep_colours_are_as_ffmpeg_takes_them(bits):
    geometry = layout.geometry_of(32, 16, b"YM12", 25, 1, 2, 2)
    unit = 1 << (bits - 8)
    planes = [
        numpy.full(count // 2, value * unit, "<u2")
        for count, value in zip(layout.planes_of(32, 16, b"YM12"), (81, 90, 240))
    ]
    data = b"".join(plane.tobytes() for plane in planes)
    red = pictures.image_of(geometry, data, bits=bits).convert("RGB").getpixel((4, 8))
    assert red[0] > 240 and max(red[1:]) < 20


@pytest.mark.parametrize("bits", DEPTHS)
def test_auto_finds_a_narrow_range_of_deep_samples(bits):
    top = (1 << bits) - 1
    values = numpy.array([100] * 500 + [140] * 500, numpy.uint16)
    assert pictures.auto_stretch(values, bits) == (100, 140)
    assert pictures.auto_stretch(numpy.full(9, top, numpy.uint16), bits) == (top - 4, top)
    # What no such camera gives isn't beyond the range.
    assert pictures.auto_stretch(numpy.full(9, 65535, numpy.uint16), bits) == (top - 4, top)


def test_a_narrow_stretch_follows_and_a_wide_one_doesnt_flicker():
    assert calmed((100, 140), (104, 144)) == (104, 144) and calmed((100, 140), (102, 138)) == (
        100,
        140,
    )
    assert calmed((0, 64000), (900, 64900)) == (0, 64000) and calmed(None, (1, 5)) == (1, 5)


@pytest.mark.parametrize(
    "form, at",
    [
        (b"GREY", [2 * 8 + 7]),
        (b"YM12", [2 * 8 + 7, 32 + 7, 40 + 7]),
        (b"YM24", [2 * 8 + 7, 32 + 23, 64 + 23]),
    ],
)
def test_a_pixel_has_its_whole_value(form, at):
    geometry, samples, data = frame(form, 12)
    found = pictures.value_at(geometry, lambda place, count: data[place : place + count], 7, 2, 12)
    assert list(found.values()) == [int(samples[place]) for place in at]


def test_light_has_256_steps_and_the_largest_value():
    geometry, samples, data = frame(b"GREY", 12)
    found = pictures.light(geometry, data, 12)
    assert found["bits"] == 12 and sum(found["counts"]) == 32 and len(found["counts"]) == 256
    assert all(found["counts"][value >> 4] for value in samples.tolist())


def test_a_depth_that_no_frame_has_isnt_shown():
    geometry, _, data = frame(b"GREY", 12)
    with pytest.raises(Gone, match="17 bits"):
        pictures.jpeg(geometry, data, bits=17)


@pytest.fixture(scope="module")
def deep(tmp_path_factory):
    """A laboratory with a grey camera of 12 bits and a coloured one of 10, and a clip of each."""
    cameras = [
        {"name": "left", "pattern": "40x20 GREY 25:1", "bits": 12},
        {"name": "right", "pattern": "32x16 YM12 25:1", "bits": 10},
    ]
    lab = Laboratory(tmp_path_factory.mktemp("deep"), cameras)
    lab.start_station().start_page().filmed(60)
    answers = lab.post("/api/keep", {"seconds": 1}).json()["answers"]
    lab.clips = {it["camera"]: it["clips"][0] for it in answers}
    yield lab
    lab.close()


def test_a_camera_says_its_size_in_samples_and_its_bits(deep):
    found = {it["name"]: it for it in deep.ask("/api/status").json()["cameras"]}
    assert [found["left"][it] for it in ("width", "height", "bits")] == [40, 20, 12]
    assert [found["right"][it] for it in ("width", "height", "bits")] == [32, 16, 10]


def test_a_deep_frame_is_seen_by_a_window(deep):
    number = deep.clips["left"]["first"]
    path = f"/api/cameras/left/frames/{number}"
    samples = numpy.arange(800) * 3 + number
    samples %= 1 << 12
    assert deep.ask(f"{path}/value?x=39&y=19").json()["values"] == {"value": int(samples[-1])}
    assert deep.ask(f"{path}/value?x=40&y=0").status == 400
    light = deep.ask(f"{path}/light").json()
    assert light["bits"] == 12 and sum(light["counts"]) == 800
    for query in ("", "?stretch=auto", "?stretch=100,4095", "?width=16"):
        found = deep.ask(f"{path}/picture{query}")
        size = Image.open(io.BytesIO(found.body)).size
        assert found.status == 200 and size == ((14, 7) if "width" in query else (40, 20)), query
    assert Image.open(io.BytesIO(deep.ask(f"{path}.jpg").body)).size == (40, 20)


@pytest.mark.parametrize("camera, colour, bits", [("left", "mono12", 12), ("right", "420p10", 10)])
def test_a_deep_clip_is_fetched_as_it_is(deep, camera, colour, bits):
    clip = deep.clips[camera]
    wide, high = (40, 20) if camera == "left" else (32, 16)
    text = deep.ask(f"/api/clips/{camera}/{clip['id']}.y4m").body
    front, rest = text.split(b"\n", 1)
    assert front.decode() == f"YUV4MPEG2 W{wide} H{high} F25:1 Ip A0:0 C{colour}"
    frames = deep.recording_of(camera, clip["first"], clip["last"]).frames.values()
    assert rest == b"".join(b"FRAME\n" + it for it in frames)
    listed = next(it for it in deep.ask("/api/clips").json()["clips"] if it["camera"] == camera)
    assert listed["bytes"] == len(text)
    kind = {"left": "gray12le", "right": "yuv420p10le"}[camera]
    words = ["ffmpeg", "-v", "error", "-i", "-", "-f", "rawvideo", "-pix_fmt", kind, "-"]
    shown = subprocess.run(words, input=text, capture_output=True, check=True, timeout=LIMIT).stdout
    assert shown == b"".join(frames)


def test_a_zip_has_films_and_deep_pictures(deep):
    (event,) = deep.ask("/api/events").json()["events"]
    named = "~".join(f"{name}.{it['id']}.{it['first']}" for name, it in deep.clips.items())
    found = deep.ask(f"/api/event.zip?clips={named}&what=mp4,y4m,png,csv")
    assert found.status == 200 and len(event["clips"]) == 2
    with zipfile.ZipFile(io.BytesIO(found.body)) as archive:
        assert archive.testzip() is None
        (told,) = [it for it in archive.namelist() if it.endswith("event.txt")]
        assert b"40x20 GREY of 12 bits" in archive.read(told)
        names = [it for it in archive.namelist() if "/left_png/" in it]
        assert len(names) == deep.clips["left"]["last"] - deep.clips["left"]["first"] + 1
        pixels = numpy.asarray(Image.open(io.BytesIO(archive.read(names[0]))))
        wanted = (numpy.arange(800) * 3 + deep.clips["left"]["first"]) % 4096
        assert (pixels.ravel() == wanted).all()
        films = [it for it in archive.namelist() if it.endswith(".mp4")]
        assert len(films) == 2
        for name in films:
            path = deep.folder / "film.mp4"
            path.write_bytes(archive.read(name))
            words = [
                "ffprobe",
                "-v",
                "error",
                "-count_frames",
                "-show_entries",
                "stream=nb_read_frames",
                "-of",
                "csv=p=0",
                path,
            ]
            counted = subprocess.run(words, capture_output=True, check=True, text=True).stdout
            assert int(counted.strip(",\n")) == len(names)


def test_a_clip_of_several_depths_is_fetched_as_pictures_alone():
    geometry, _, data = frame(b"GREY", 12)
    frames = tuple(
        layout.Frame(it, it, 0x2000 | bits << 24, 5 + it, geometry.size)
        for it, bits in enumerate((12, 0))
    )
    opened = SimpleNamespace(geometry=geometry, frame=lambda number: data)
    fetch = Fetch("left", Clip(0, 0, 1, 0, 5, 6), opened, frames)
    with pytest.raises(Unfit, match="have 8 and 12 bits"):
        Text(fetch)
    bundle = Bundle([fetch], ["png"], "")
    assert b"8x4 GREY of 8 and 12 bits" in bundle.text()
    deep_one, plain = (step[2] for step in bundle.png_pieces(fetch))
    assert Image.open(io.BytesIO(deep_one)).size == (8, 4) and Image.open(
        io.BytesIO(plain)
    ).size == (16, 4)
