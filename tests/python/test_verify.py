"""Exports that are read back: by the module itself, and here by readers that share no code with
it. Each format of source is in each format of file, bit for bit."""
import json
import os
import struct
import subprocess
import sys
from pathlib import Path
from xml.etree import ElementTree

import conftest
import lapyrei
import layout
import numpy as np
import pytest
from conftest import FORMATS
from lapyrei import exports, verify
from test_export import by_hand, pages_of, run, store_of

DEPTHS = [8, 9, 10, 11, 12, 13, 14, 15, 16]
SOURCES = [(form, bits) for form in FORMATS for bits in DEPTHS]
ARRAYS = ["h5", "zarr", "zarr3", "npy", "y4m", "tiff", "ome-tiff", "ome-zarr", "png"]
CHECKED = lapyrei.Options(verify=True)


def flat(picture):
    """The bytes of a picture's planes, each with its name."""
    planes = picture._asdict() if isinstance(picture, lapyrei.Planes) else {"frames": picture}
    return {name: plane.tobytes() for name, plane in planes.items()}


def read_zarr2(path, name, place, plane):
    """A chunk that isn't compressed is a file."""
    return (path / name / f"{place}.0.0").read_bytes()


def read_zarr3(path, name, place, plane):
    """By the description of the third version."""
    about = json.loads((path / name / "zarr.json").read_text())
    assert about["zarr_format"] == 3 and about["node_type"] == "array"
    assert about["shape"][1:] == list(plane.shape) and about["fill_value"] == 0
    assert about["data_type"] == plane.dtype.name
    assert about["chunk_grid"]["configuration"]["chunk_shape"] == [1, *plane.shape]
    assert about["codecs"] == [{"name": "bytes", "configuration": {"endian": "little"}}]
    return (path / name / "c" / str(place) / "0" / "0").read_bytes()


def read_npy(path, name, place, plane):
    """Its header has a length; the samples follow."""
    data = (path / f"{name}.npy").read_bytes()
    (length,) = struct.unpack("<I", data[8:12])
    return data[12 + length :][place * plane.nbytes : (place + 1) * plane.nbytes]


def read_h5(path, name, place, plane):
    """By h5dump."""
    raw = path.with_suffix(".raw")
    count = f"1,{plane.shape[0]},{plane.shape[1]}"
    words = ["h5dump", "-d", name, "-s", f"{place},0,0", "-c", count]
    run(*words, "-b", "LE", "-o", raw, path)
    return raw.read_bytes()


@pytest.mark.parametrize("form, bits", SOURCES)
def test_planes_of_each_source_are_those_of_the_file(tmp_path, form, bits):
    store = store_of(tmp_path, form, bits, (10, 6), 3)
    readers = {"zarr": read_zarr2, "zarr3": read_zarr3, "npy": read_npy, "h5": read_h5}
    for kind, read in readers.items():
        out = tmp_path / f"out_{kind}"
        assert lapyrei.export(store, kind, str(out), CHECKED) == 3
        for at in (0, 2):
            planes = store[at]._asdict() if form != b"GREY" else {"frames": store[at]}
            for name, plane in planes.items():
                if kind != "h5" or bits in (8, 16):
                    assert read(out, name, at, plane) == plane.tobytes(), (kind, name)
    lapyrei.export(store, "y4m", str(tmp_path / "a.y4m"), CHECKED)
    data = (tmp_path / "a.y4m").read_bytes()
    size = sum(map(len, flat(store[0]).values()))
    wanted = b"".join(b"FRAME\n" + b"".join(flat(it).values()) for it in store)
    assert data[-3 * (size + 6) :] == wanted and data.startswith(b"YUV4MPEG2 W10 H6 ")


def rgb_by_hand(picture, form, bits):
    """Red, green and blue as BT.601's formulas have them, in limited range, in 64 bits."""
    if form == b"GREY":
        return picture
    across, down = layout.DIVIDED[form]
    y = picture.y.astype(float)
    cb, cr = (
        np.repeat(np.repeat(it, down, 0), across, 1)[: y.shape[0], : y.shape[1]].astype(float)
        for it in picture[1:]
    )
    unit, top = 2.0 ** (bits - 8), 2**bits - 1
    y, cb, cr = (y / unit - 16) / 219, (cb / unit - 128) / 224, (cr / unit - 128) / 224
    red, blue = y + 1.402 * cr, y + 1.772 * cb
    green = (y - 0.299 * red - 0.114 * blue) / 0.587
    return np.clip(np.rint(np.stack([red, green, blue], 2) * top), 0, top)


@pytest.mark.parametrize("form, bits", SOURCES)
def test_tiff_and_png_of_each_source_have_its_grey_or_its_colours(tmp_path, form, bits):
    """Grey bit for bit; of colour the same RGB, which BT.601 gives up to a rounding."""
    store = store_of(tmp_path, form, bits, (10, 6), 3)
    wanted = [store[at] if form == b"GREY" else store.rgb(at) for at in range(3)]
    for at in range(3):
        apart = np.abs(rgb_by_hand(store[at], form, bits) - wanted[at].astype(float)).max()
        assert apart <= (0 if form == b"GREY" else 1)
    kind = np.dtype("u1" if bits == 8 else "<u2")
    for name, more in (("tiff", {}), ("tiff", {"big": True}), ("ome-tiff", {})):
        out = tmp_path / f"a{len(more)}{name}.tif"
        lapyrei.export(store, name, str(out), lapyrei.Options(verify=True, **more))
        data, _, pages = pages_of(out)
        order, tags, _ = pages[0]
        start = tags[273][0]
        if len(pages) == 3:
            found = [pixels for _, _, pixels in pages]
        else:
            found = [data[start + it.nbytes * at :][: it.nbytes] for at, it in enumerate(wanted)]
        assert found == [it.astype(kind.newbyteorder(order)).tobytes() for it in wanted], name
    lapyrei.export(store, "png", str(tmp_path / "p"), CHECKED)
    names = sorted(it for it in os.listdir(tmp_path / "p") if it.endswith(".png"))
    for name, picture in zip(names, wanted):
        assert by_hand(tmp_path / "p" / name) == picture.astype(kind.newbyteorder(">")).tobytes()


# ------------------------------------------------------------------------------- OME


@pytest.mark.parametrize("form, bits", [(b"GREY", 12), (b"YM12", 8), (b"GREY", 8)])
def test_ome_tiff_says_times_channel_and_bits(tmp_path, form, bits):
    """As tifffile reads it back, and by the XML itself."""
    import tifffile

    store, out = store_of(tmp_path, form, bits, (16, 8), 7), tmp_path / "a.ome.tif"
    lapyrei.export(store, "ome-tiff", str(out), CHECKED)
    samples = 1 if form == b"GREY" else 3
    with tifffile.TiffFile(out) as file:
        assert file.is_ome and len(file.series) == 1
        series = file.series[0]
        assert series.axes == ("TYX" if samples == 1 else "TYXS")
        assert series.shape == (7, 8, 16) + (3,) * (samples == 3)
        wanted = np.stack([store[at] if samples == 1 else store.rgb(at) for at in range(7)])
        assert (series.asarray() == wanted).all()
        text = file.ome_metadata
    ome = {"o": "http://www.openmicroscopy.org/Schemas/OME/2016-06"}
    top = ElementTree.fromstring(text)
    (image,), (pixels,) = top.findall("o:Image", ome), top.findall("o:Image/o:Pixels", ome)
    assert image.get("Name") == "left"
    assert image.find("o:AcquisitionDate", ome).text == "2025-11-26T18:40:00.000000"
    said = {name: pixels.get(name) for name in ("SizeX", "SizeY", "SizeC", "SizeT", "Type")}
    kind = "uint8" if bits == 8 else "uint16"
    assert said == {"SizeX": "16", "SizeY": "8", "SizeC": str(samples), "SizeT": "7", "Type": kind}
    assert pixels.get("SignificantBits") == str(bits) and pixels.get("TimeIncrement") == "0.04"
    (channel,) = pixels.findall("o:Channel", ome)
    assert channel.get("Name") == ("Y" if samples == 1 else "RGB")
    assert channel.get("SamplesPerPixel") == str(samples)
    planes = pixels.findall("o:Plane", ome)
    assert [float(it.get("DeltaT")) for it in planes] == [at * 0.04 for at in range(7)]
    assert {it.get("DeltaTUnit") for it in planes} == {"s"}
    notes = top.findall("o:StructuredAnnotations/o:MapAnnotation/o:Value/o:M", ome)
    notes = {it.get("K"): it.text for it in notes}
    assert json.loads(notes["time_us"]) == store.times.tolist() and notes["camera"] == "left"
    # Of the schema: children in its order, and identifiers of its forms.
    order = [it.tag.split("}")[1] for it in pixels]
    assert order == ["Channel", *["TiffData"] * 7, *["Plane"] * 7]
    assert [it.tag.split("}")[1] for it in top] == ["Image", "StructuredAnnotations"]


@pytest.mark.parametrize("form, bits", [(b"GREY", 12), (b"YM16", 8)])
def test_ome_zarr_says_axes_scale_channels_and_bits(tmp_path, form, bits):
    """By the rules of NGFF 0.4, and its chunks as files."""
    store, out = store_of(tmp_path, form, bits, (16, 8), 7), tmp_path / "a.ome.zarr"
    lapyrei.export(store, "ome-zarr", str(out), CHECKED)
    said = json.loads((out / ".zattrs").read_text())
    (image,) = said["multiscales"]
    assert image["version"] == "0.4" and [it["name"] for it in image["axes"]] == list("tcyx")
    assert [it["type"] for it in image["axes"]] == ["time", "channel", "space", "space"]
    (data,) = image["datasets"]
    assert data["coordinateTransformations"] == [{"type": "scale", "scale": [0.04, 1.0, 1.0, 1.0]}]
    samples = 1 if form == b"GREY" else 3
    channels = said["omero"]["channels"]
    assert [it["label"] for it in channels] == (["Y"] if samples == 1 else ["red", "green", "blue"])
    assert channels[0]["window"]["max"] == 2**bits - 1 and said["lapyrei"]["bits"] == bits
    about = json.loads((out / data["path"] / ".zarray").read_text())
    assert about["shape"] == [7, samples, 8, 16] and about["dimension_separator"] == "/"
    for at in range(7):
        wanted = store[at][:, :, None] if samples == 1 else store.rgb(at)
        for channel in range(samples):
            chunk = (out / "0" / str(at) / str(channel) / "0" / "0").read_bytes()
            assert chunk == np.ascontiguousarray(wanted[:, :, channel]).tobytes()
    assert np.fromfile(out / "time_us" / "0", "<i8").tolist() == store.times.tolist()


# ------------------------------------------------------------------------------- small sides

SIDES = [(1, 1), (2, 2), (1, 400), (2048, 2)]


@pytest.mark.parametrize("form, bits", [*((form, 8) for form in FORMATS), (b"GREY", 10)])
def test_ffv1_of_sides_of_one_and_two_pixels_has_each_bit(tmp_path, form, bits):
    """ffmpeg 5.1 cuts them into slices without a pixel, and says nothing."""
    for number, (width, height) in enumerate(SIDES):
        (tmp_path / str(number)).mkdir()
        store = store_of(tmp_path / str(number), form, bits, (width, height), 3)
        out = tmp_path / f"{number}.mkv"
        lapyrei.export(store, "mkv", str(out), CHECKED)
        kind = {b"GREY": "gray", b"YM12": "yuv420p", b"YM16": "yuv422p", b"YM24": "yuv444p"}[form]
        kind += "10le" if bits > 8 else ""
        words = ["ffmpeg", "-v", "error", "-i", out, "-map", "0:v", "-f", "rawvideo", "-pix_fmt"]
        found = run(*words, kind, "-")
        assert found == b"".join(b"".join(flat(it).values()) for it in store), (width, height)


# ------------------------------------------------------------------------------- what is wrong


def spoil(path):
    """Changes a byte in the middle of the largest file."""
    files = [path] if path.is_file() else [it for it in path.rglob("*") if it.is_file()]
    largest = max(files, key=lambda it: (it.stat().st_size, it.name))
    data = bytearray(largest.read_bytes())
    data[len(data) // 2] ^= 0x55
    largest.write_bytes(data)


def wrong_writer(monkeypatch, kind, change):
    """An export that is changed before it is read back."""
    it = exports.KINDS[kind]

    def write(job, path):
        it.write(job, path)
        change(Path(path))

    monkeypatch.setitem(exports.KINDS, kind, it._replace(write=write))


@pytest.mark.parametrize("kind", sorted(set(exports.KINDS) - {"mp4", "csv"}))
def test_a_byte_that_is_another_is_found_and_nothing_is_left(tmp_path, monkeypatch, kind):
    store = store_of(tmp_path, b"GREY", 8, (64, 48), 5)
    wrong_writer(monkeypatch, kind, spoil)
    with pytest.raises(lapyrei.ExportFault, match="written (isn't what was|can't be) read"):
        lapyrei.export(store, kind, str(tmp_path / "out"), CHECKED)
    assert os.listdir(tmp_path) == ["left.loop"]
    lapyrei.export(store, kind, str(tmp_path / "out"))


@pytest.mark.parametrize("kind", sorted(set(exports.KINDS) - {"mp4", "y4m", "png"}))
def test_times_and_tags_that_are_others_are_found(tmp_path, monkeypatch, kind):
    """The file was made of frames whose times are others."""
    store = store_of(tmp_path, b"GREY", 8, (64, 48), 5, clips=[(1, 3, 5)])
    event = store.events[0]
    it = exports.KINDS[kind]

    def late(job, path):
        moved = event[:]
        moved._heads = moved._heads.copy()
        moved._heads["time"] += 7000 * np.arange(len(moved), dtype="u8")
        other = exports.Job(moved, job.options, job.colour, job.done)
        other.module = job.module
        monkeypatch.setattr(lapyrei.Part, "pixels", careless)
        it.write(other, path)
        job.digests = other.digests

    real = lapyrei.Part.pixels

    def careless(self, number, pieces, head=None):
        real(self, number, pieces)

    monkeypatch.setitem(exports.KINDS, kind, it._replace(write=late))
    with pytest.raises(lapyrei.ExportFault, match="isn't what was read back"):
        lapyrei.export(event, kind, str(tmp_path / "out"), CHECKED)


def test_each_format_has_a_reader_and_a_lossy_film_has_none(tmp_path):
    assert set(verify.READERS) == set(exports.KINDS)
    store = store_of(tmp_path, b"YM12", 8, (32, 16), 3)
    with pytest.raises(lapyrei.ExportFault, match="for the eye"):
        lapyrei.export(store, "mp4", str(tmp_path / "a.mp4"), CHECKED)
    both = lapyrei.Options(verify=True, lossless=True)
    lapyrei.export(store, "mp4", str(tmp_path / "a.mp4"), both)
    for kind in sorted(set(exports.KINDS) - {"mp4"}):
        one = lapyrei.Options(verify=True, compress=True)
        lapyrei.export(store[:1], kind, str(tmp_path / f"one_{kind}"), one)
        for colour in exports.KINDS[kind].colours[1:]:
            more = lapyrei.Options(verify=True, colour=colour)
            lapyrei.export(store, kind, str(tmp_path / f"{colour}_{kind}"), more)


def test_the_command_reads_back_and_says_so(tmp_path):
    store = store_of(tmp_path, b"GREY", 8, (64, 48), 5)
    words = [sys.executable, "-B", conftest.SOURCES / "lapyrei-export", store.parts[0].path]
    done = run(*words, "zarr3", "--verify", "-o", tmp_path / "a.zarr").decode()
    assert done == f"exported 5 {tmp_path / 'a.zarr'}, and read back the same\n"


# ------------------------------------------------------------------------------- a full disk

FULL = """
import sys
sys.path[1:1] = {path!r}
import lapyrei
from lapyrei import exports
if {unseen}:
    exports.check_room = lambda out, size: None
store = lapyrei.open({store!r})
try:
    lapyrei.export(store, {kind!r}, {out!r})
except lapyrei.ExportFault as fault:
    print("told:", fault)
"""


@pytest.mark.skipif(os.geteuid() != 0, reason="a disk that is full is mounted by root")
@pytest.mark.parametrize("unseen", [False, True])
@pytest.mark.parametrize("kind", sorted(exports.KINDS))
def test_a_disk_without_room_is_told_and_the_process_ends_well(tmp_path, kind, unseen):
    """A disk of 128 KB, on which the export of 12 frames of 64 x 480 has no room; also where it is
    filled once the room was looked at."""
    store = store_of(tmp_path, b"GREY", 8, (64, 480), 12)
    full = tmp_path / "full"
    full.mkdir()
    subprocess.run(["mount", "-t", "tmpfs", "-o", "size=128k", "none", full], check=True)
    try:
        if kind in ("csv", "mp4"):
            subprocess.run(["dd", "if=/dev/zero", f"of={full}/all"], capture_output=True)
        there = os.listdir(full)
        program = FULL.format(
            path=sys.path, store=store.parts[0].path, kind=kind, out=f"{full}/out", unseen=unseen
        )
        words = [sys.executable, "-B", "-c", program]
        done = subprocess.run(words, capture_output=True, text=True)
        assert done.stdout.startswith("told: ") and done.returncode == 0, done
        assert done.stderr == "" and os.listdir(full) == there
        if exports.KINDS[kind].is_plain and not unseen:
            assert "it needs" in done.stdout
    finally:
        subprocess.run(["umount", full], check=True)
