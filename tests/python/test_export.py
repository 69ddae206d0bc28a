"""Each export is read back by another program or library than made it, bit for bit."""
import csv
import json
import os
import re
import struct
import subprocess
import sys
import zlib

import conftest
import lapyrei
import layout
import numpy as np
import pytest
from conftest import DAY, FORMATS, bytes_of, put, ring, with_flags
from lapyrei import exports, films

DEPTHS = [8, 9, 10, 12, 14, 16]


def store_of(folder, form=b"YM12", bits=8, size=(16, 8), count=7, clips=(), **more):
    """A store whose frames are unlike one another, with samples of so many bits."""
    width, height = size
    it = layout.Ring(width * (2 if bits > 8 else 1), height, form, 4, 3)
    it.time += more.get("start", DAY)
    choose = np.random.default_rng(int.from_bytes(form, "big") + bits)
    pixels = []
    for _ in range(count):
        it.store(wait=more.get("wait", 40000))
        if bits == 8:
            pixels.append(choose.integers(0, 256, it.geometry.size, np.uint8).tobytes())
        else:
            samples = choose.integers(0, 1 << bits, it.geometry.size // 2, np.uint16)
            pixels.append(samples.astype("<u2").tobytes())
        place = it.blocks.index((it.next - 1) // 3)
        at = it.geometry.slot_at(place, (it.next - 1) % 3) + layout.HEAD
        it.put(at, pixels[-1])
    for clip in clips:
        it.lock(*clip)
    image = bytes(it.image) if bits == 8 else with_flags(it.image, it.geometry, 0x2000 | bits << 24)
    return lapyrei.open(put(folder / "left.loop", image))


def run(*words, **more):
    """What a program prints."""
    done = subprocess.run([str(it) for it in words], capture_output=True, check=True, **more)
    return done.stdout


def planes_of(store, place):
    """The planes of a picture by their names in a file."""
    picture = store[place]
    return picture._asdict() if isinstance(picture, lapyrei.Planes) else {"frames": picture}


def packets(path):
    """The times of a film's frames, in microseconds."""
    words = ["ffprobe", "-v", "error", "-select_streams", "v", "-show_entries", "frame=pts_time"]
    text = run(*words, "-of", "csv=p=0", path).decode()
    return [round(float(line.split(",")[0]) * 1e6) for line in text.split()]


def tags(path):
    """What a film says of itself, by names in lower case."""
    text = run("ffprobe", "-v", "error", "-show_entries", "format_tags", "-of", "json", path)
    return {name.lower(): it for name, it in json.loads(text)["format"]["tags"].items()}


# ------------------------------------------------------------------------------- arrays


@pytest.mark.parametrize("bits", [8, 12])
@pytest.mark.parametrize("form", FORMATS)
@pytest.mark.parametrize("compress", [False, True])
def test_hdf5_has_the_bits_the_times_and_a_chunk_a_frame(tmp_path, form, bits, compress):
    """Read by h5dump, which knows nothing of h5py."""
    store, out = store_of(tmp_path, form, bits), tmp_path / "a.h5"
    assert lapyrei.export(store, "h5", str(out), lapyrei.Options(compress=compress)) == len(store)
    for name, plane in planes_of(store, 0).items():
        run("h5dump", "-d", name, "-b", "LE", "-o", tmp_path / "raw", out)
        wanted = b"".join(planes_of(store, it)[name].tobytes() for it in range(len(store)))
        assert (tmp_path / "raw").read_bytes() == wanted
        head = run("h5dump", "-H", "-p", "-d", name, out).decode()
        assert f"CHUNKED ( 1, {plane.shape[0]}, {plane.shape[1]} )" in head
        assert ("DEFLATE" in head) == compress and (
            "H5T_STD_U16LE" if bits > 8 else "H5T_STD_U8LE"
        ) in head
    run("h5dump", "-d", "time_us", "-b", "LE", "-o", tmp_path / "raw", out)
    assert np.fromfile(tmp_path / "raw", "<i8").tolist() == store.times.tolist()
    run("h5dump", "-d", "number", "-b", "LE", "-o", tmp_path / "raw", out)
    assert np.fromfile(tmp_path / "raw", "<i8").tolist() == store.numbers.tolist()
    told = run("h5dump", "-A", out).decode()
    for word in (
        '"left"',
        '"2025-11-26T18:40:00.000000Z"',
        "microseconds since 1970",
        f'"{form.decode()}"',
    ):
        assert word in told


@pytest.mark.parametrize("bits", [8, 12])
@pytest.mark.parametrize("form", FORMATS)
def test_zarr_has_the_bits_the_times_and_a_chunk_a_frame(tmp_path, form, bits):
    """Its chunks are read as the files that they are, by the description of the format."""
    store, out = store_of(tmp_path, form, bits), tmp_path / "a.zarr"
    lapyrei.export(store, "zarr", str(out))
    for name, plane in planes_of(store, 0).items():
        about = json.loads((out / name / ".zarray").read_text())
        assert about["chunks"] == [1, *plane.shape] and about["shape"] == [len(store), *plane.shape]
        assert about["dtype"] == ("<u2" if bits > 8 else "|u1") and about["compressor"] is None
        for place in range(len(store)):
            data = (out / name / f"{place}.0.0").read_bytes()
            assert data == planes_of(store, place)[name].tobytes()
    assert np.fromfile(out / "time_us" / "0", "<i8").tolist() == store.times.tolist()
    told = json.loads((out / ".zattrs").read_text())
    assert told["camera"] == "left" and told["bits"] == bits and told["rate"] == [25, 1]
    lapyrei.export(store, "zarr", str(tmp_path / "b.zarr"), lapyrei.Options(compress=True))
    import zarr

    found = zarr.open(str(tmp_path / "b.zarr"), "r")
    assert all(
        (found[name][place] == plane).all()
        for place in range(len(store))
        for name, plane in planes_of(store, place).items()
    )


@pytest.mark.parametrize("bits", [8, 12])
@pytest.mark.parametrize("form", FORMATS)
def test_npy_has_the_bits_and_the_times(tmp_path, form, bits):
    """Its header is read by hand, as numpy's document describes it."""
    store, out = store_of(tmp_path, form, bits), tmp_path / "a_npy"
    lapyrei.export(store, "npy", str(out))
    for name, plane in planes_of(store, 0).items():
        data = (out / f"{name}.npy").read_bytes()
        assert data[:8] == b"\x93NUMPY\2\0"
        (length,) = struct.unpack("<I", data[8:12])
        head = eval(data[12 : 12 + length])
        assert head["shape"] == (len(store), *plane.shape) and head["fortran_order"] is False
        assert head["descr"] == ("<u2" if bits > 8 else "|u1")
        wanted = b"".join(planes_of(store, it)[name].tobytes() for it in range(len(store)))
        assert data[12 + length :] == wanted
        assert np.load(out / f"{name}.npy", mmap_mode="r").shape == head["shape"]
    assert np.load(out / "time_us.npy").tolist() == store.times.tolist()
    assert json.loads((out / "about.json").read_text())["format"] == form.decode()


def test_rgb_and_luma_on_demand(tmp_path):
    import h5py

    store = store_of(tmp_path)
    lapyrei.export(
        store, "h5", str(tmp_path / "a.h5"), lapyrei.Options(colour="rgb", matrix="bt709")
    )
    with h5py.File(tmp_path / "a.h5") as file:
        assert file["frames"].shape == (7, 8, 16, 3) and file.attrs["rgb"] == "bt709, limited range"
        assert (file["frames"][3] == store.rgb(3, "bt709")).all()
    lapyrei.export(store, "npy", str(tmp_path / "b"), lapyrei.Options(colour="luma"))
    assert (np.load(tmp_path / "b/frames.npy")[2] == store.luma(2)).all()
    assert sorted(os.listdir(tmp_path / "b")) == [
        "about.json",
        "bits.npy",
        "frames.npy",
        "lost.npy",
        "number.npy",
        "sequence.npy",
        "time_us.npy",
    ]


# ------------------------------------------------------------------------------- pictures


def pages_of(path):
    """The pages of a TIFF, by its structure alone (TIFF 6.0, BigTIFF): tags, and the bytes."""
    data = path.read_bytes()
    order = {b"II": "<", b"MM": ">"}[data[:2]]
    is_big = struct.unpack_from(order + "H", data, 2)[0] == 43
    place, entry, entries = (8, "HHQ", "Q") if is_big else (4, "HHI", "H")
    size = {1: 1, 2: 1, 3: 2, 4: 4, 5: 8, 12: 8, 16: 8}
    letter = {1: "B", 2: "B", 3: "H", 4: "I", 12: "d", 16: "Q"}
    (at,), pages = struct.unpack_from(order + ("Q" if is_big else "I"), data, place), []
    while at:
        (count,), tags_ = struct.unpack_from(order + entries, data, at), {}
        at += struct.calcsize(order + entries)
        for _ in range(count):
            tag, kind, values = struct.unpack_from(order + entry, data, at)
            at += struct.calcsize(order + entry)
            long = values * size[kind] > (8 if is_big else 4)
            where = (
                struct.unpack_from(order + ("Q" if is_big else "I"), data, at)[0] if long else at
            )
            if kind in letter:
                tags_[tag] = struct.unpack_from(f"{order}{values}{letter[kind]}", data, where)
            at += 8 if is_big else 4
        (at,) = struct.unpack_from(order + ("Q" if is_big else "I"), data, at)
        pixels = b"".join(data[a : a + n] for a, n in zip(tags_[273], tags_[279]))
        pages.append((order, tags_, pixels))
    return data, is_big, pages


@pytest.mark.parametrize("bits", [8, 10, 16])
def test_a_stack_for_imagej_has_the_bits_and_a_label_a_slice(tmp_path, bits):
    store, out = store_of(tmp_path, b"GREY", bits), tmp_path / "a.tif"
    lapyrei.export(store, "tiff", str(out))
    data, is_big, pages = pages_of(out)
    order, tags_, _ = pages[0]
    description = bytes(tags_[270]).decode()
    assert not is_big and description.startswith("ImageJ=") and "images=7\n" in description
    # ImageJ reads the pixels of all slices one after the other from the first one's place on.
    whole = store.array()
    start, kind = tags_[273][0], np.dtype(f"{order}u{whole.dtype.itemsize}")
    found = np.frombuffer(data, kind, whole.size, start).reshape(whole.shape)
    assert (found == whole).all() and len(pages) in (1, 7)
    # Its own tag, 50839, has labels in UTF-16.
    labels = bytes(tags_[50839]).decode("utf-16-be" if order == ">" else "utf-16-le", "replace")
    for place in range(len(store)):
        day = f"2025-11-26T18:40:00.{store.times[place] % 10**6:06}Z"
        assert f"{store.numbers[place]} {day}" in labels
    assert "camera: left" in labels and f"bits: {bits}" in labels
    assert b"error" not in run("tiffinfo", out, stderr=None).lower()


@pytest.mark.parametrize("form", FORMATS[1:])
def test_a_stack_of_colour_is_rgb_read_by_libtiff(tmp_path, form):
    from PIL import Image

    store, out = store_of(tmp_path, form), tmp_path / "a.tif"
    lapyrei.export(store, "tiff", str(out))
    with Image.open(out) as file:
        assert file.mode == "RGB" and file.n_frames in (1, 7)
        assert (np.asarray(file) == store.rgb(0)).all()
    data, _, pages = pages_of(out)
    start = pages[0][1][273][0]
    wanted = np.stack([store.rgb(place) for place in range(7)])
    assert data[start : start + wanted.nbytes] == wanted.tobytes()


@pytest.mark.parametrize("form, bits", [(b"GREY", 12), (b"YM12", 8), (b"YM24", 12)])
def test_a_bigtiff_has_a_page_and_a_description_a_frame(tmp_path, form, bits):
    store, out = store_of(tmp_path, form, bits), tmp_path / "a.tif"
    lapyrei.export(store, "tiff", str(out), lapyrei.Options(big=True))
    _, is_big, pages = pages_of(out)
    assert is_big and len(pages) == 7
    for place, (order, tags_, pixels) in enumerate(pages):
        wanted = store[place] if form == b"GREY" else store.rgb(place)
        assert (
            np.frombuffer(pixels, wanted.dtype.newbyteorder(order)).reshape(wanted.shape) == wanted
        ).all()
        assert bytes(tags_[270]).decode().startswith(f"{store.numbers[place]} 2025-11-26T18:40:00.")
    assert b"BitsPerSample" in run("tiffinfo", out) or b"Bits/Sample" in run("tiffinfo", out)


def test_a_stack_beyond_4_gb_is_a_bigtiff(tmp_path, monkeypatch):
    monkeypatch.setattr(exports, "TIFF_BYTES", 3000)
    store, out = store_of(tmp_path, b"GREY", size=(32, 16)), tmp_path / "a.tif"
    lapyrei.export(store, "tiff", str(out))
    assert pages_of(out)[1]


@pytest.mark.parametrize("bits", [8, 12])
@pytest.mark.parametrize("form", FORMATS)
def test_png_has_the_values_read_by_ffmpeg_and_by_hand(tmp_path, form, bits):
    store, out = (
        store_of(tmp_path, form, bits, (15 if bits == 8 and form == b"GREY" else 16, 8)),
        tmp_path / "a_png",
    )
    lapyrei.export(store, "png", str(out))
    names = sorted(it for it in os.listdir(out) if it.endswith(".png"))
    assert names[2] == "0000000002_2025-11-26T18-40-00.080000Z.png" and len(names) == 7
    kind = (
        ("gray" if form == b"GREY" else "rgb24")
        if bits == 8
        else ("gray16le" if form == b"GREY" else "rgb48le")
    )
    words = [
        "ffmpeg",
        "-v",
        "error",
        "-pattern_type",
        "glob",
        "-i",
        out / "*.png",
        "-f",
        "rawvideo",
        "-pix_fmt",
        kind,
        "-",
    ]
    wanted = [store[place] if form == b"GREY" else store.rgb(place) for place in range(7)]
    assert run(*words) == b"".join(it.tobytes() for it in wanted)
    for name, picture in zip(names, wanted):
        assert by_hand(out / name) == picture.astype(">u2" if bits > 8 else "u1").tobytes()
    rows = list(csv.reader(open(out / "frames.csv", newline="")))
    assert rows[0][:4] == ["number", "time_us", "time", "sequence"] and len(rows) == 8


def by_hand(path):
    """The pixels of a PNG without a filter, by its chunks, whose sums are right."""
    data, at, pixels, width = path.read_bytes(), 8, b"", 0
    while at < len(data):
        length, name = struct.unpack_from(">I4s", data, at)
        content = data[at + 8 : at + 8 + length]
        (wanted,) = struct.unpack_from(">I", data, at + 8 + length)
        assert zlib.crc32(name + content) == wanted
        if name == b"IHDR":
            columns, _, depth, colour = struct.unpack_from(">IIBB", content)
            width = columns * depth // 8 * (3 if colour == 2 else 1) + 1
        pixels += content if name == b"IDAT" else b""
        at += 12 + length
    rows = zlib.decompress(pixels)
    lines = [rows[it : it + width] for it in range(0, len(rows), width)]
    assert all(line[0] == 0 for line in lines)
    return b"".join(line[1:] for line in lines)


def test_csv_has_a_line_a_frame(tmp_path):
    store, out = store_of(tmp_path), tmp_path / "a.csv"
    lapyrei.export(store, "csv", str(out))
    rows = list(csv.DictReader(open(out, newline="")))
    assert [int(row["number"]) for row in rows] == store.numbers.tolist()
    assert [int(row["time_us"]) for row in rows] == store.times.tolist()
    assert rows[1]["time"] == "2025-11-26T18:40:00.040000Z" and rows[1]["file"] == "left.loop"
    assert out.read_bytes().count(b"\r\n") == 8 and rows[1]["bits"] == "8"
    old = store_of(tmp_path, start=0)
    lapyrei.export(old, "csv", str(tmp_path / "b.csv"))
    assert list(csv.DictReader(open(tmp_path / "b.csv", newline="")))[1]["time"] == ""


@pytest.mark.parametrize("bits", [8, 12])
@pytest.mark.parametrize("form", FORMATS)
def test_y4m_is_the_text_of_a_save(tmp_path, form, bits):
    store, out = store_of(tmp_path, form, bits), tmp_path / "a.y4m"
    assert lapyrei.export(store, "y4m", str(out)) == 7
    frames = [b"".join(it.tobytes() for it in planes_of(store, n).values()) for n in range(7)]
    assert {len(it) for it in frames} == {store.parts[0].geometry.size}
    front = layout.text_front(store.parts[0].geometry, bits)
    assert b"W16 H8 F25:1" in front
    assert out.read_bytes() == front + b"".join(b"FRAME\n" + it for it in frames)
    with pytest.raises(lapyrei.ExportFault, match="y4m takes planes"):
        lapyrei.export(store, "y4m", str(tmp_path / "b"), exports.Options(colour="rgb"))


def test_y4m_of_an_event_over_two_stores_is_one_text(tmp_path):
    first, second = ring(7), ring(7, start=DAY + 7 * 40000)
    first.lock(4, 6, 2), second.lock(0, 3, 2)
    put(tmp_path / "a.000.loop", first), put(tmp_path / "a.001.loop", second)
    event, out = lapyrei.open(tmp_path).event("0.0"), tmp_path / "a.y4m"
    assert lapyrei.export(event, "y4m", str(out)) == 7
    front, *frames = out.read_bytes().split(b"FRAME\n")
    assert front.count(b"YUV4MPEG2") == 1 and [it[0] for it in frames] == [4, 5, 6, 0, 1, 2, 3]


# ------------------------------------------------------------------------------- films


@pytest.mark.parametrize(
    "form, bits",
    [(form, bits) for form in (b"GREY", b"YM12") for bits in DEPTHS]
    + [(b"YM16", 8), (b"YM16", 10), (b"YM24", 8), (b"YM24", 16)],
)
def test_ffv1_has_each_bit_read_by_ffmpeg(tmp_path, form, bits):
    size = (16, 8) if bits > 8 else (15, 7)
    store, out = store_of(tmp_path, form, bits, size), tmp_path / "a.mkv"
    lapyrei.export(store, "mkv", str(out))
    words = [
        "ffprobe",
        "-v",
        "error",
        "-select_streams",
        "v:0",
        "-show_entries",
        "stream=codec_name,pix_fmt",
    ]
    codec, kind = run(*words, "-of", "csv=p=0", out).decode().strip().split(",")
    assert codec == "ffv1"
    words = [
        "ffmpeg",
        "-v",
        "error",
        "-i",
        out,
        "-map",
        "0:v",
        "-f",
        "rawvideo",
        "-pix_fmt",
        kind,
        "-",
    ]
    assert run(*words) == b"".join(bytes_of(picture) for picture in store)
    assert packets(out) == [it * 40000 for it in range(7)]
    told = tags(out)
    assert (
        told["creation_time"].startswith("2025-11-26T18:40:00.000000")
        and '"left"' in told["comment"]
    )
    run(
        "ffmpeg",
        "-v",
        "error",
        "-dump_attachment:t:0",
        tmp_path / "t.csv",
        "-i",
        out,
        "-f",
        "null",
        "-",
    )
    rows = list(csv.DictReader(open(tmp_path / "t.csv", newline="")))
    assert [int(row["time_us"]) for row in rows] == store.times.tolist()
    assert json.loads(told["comment"])["bits"] == bits


def test_a_film_lasts_as_long_as_what_it_shows(tmp_path):
    it = ring(3, b"YM12", (16, 8))
    for wait in (40000, 2_500_000, 33_000):
        it.store(wait=wait)
    store = lapyrei.open(put(tmp_path / "a.loop", it))
    wanted = [0, 40000, 80000, 120000, 2620000, 2653000]
    for kind in ("mkv", "mp4"):
        lapyrei.export(store, kind, str(tmp_path / f"a.{kind}"))
        assert packets(tmp_path / f"a.{kind}") == wanted


@pytest.mark.parametrize(
    "times, wanted",
    [
        ([10, 40_010, 80_400], ([0, 40_000, 80_000], True)),
        # Closer than a millisecond, set back, and beyond what is a time.
        ([0, 400, 800], ([0, 40_000, 80_000], False)),
        ([80_000, 0], ([0, 40_000], False)),
        ([2**62, 2**62 + 40_000], ([0, 40_000], False)),
        ([], ([], True)),
    ],
)
def test_times_that_a_film_can_t_have_become_even_steps(times, wanted):
    found, is_exact = films.film_times(np.array(times, np.int64), 40_000)
    assert (found.tolist(), is_exact or not times) == wanted


@pytest.mark.parametrize("form, bits", [(b"GREY", 8), (b"GREY", 10), (b"YM12", 8), (b"YM24", 10)])
def test_mp4_without_loss_has_each_bit(tmp_path, form, bits):
    store, out = store_of(tmp_path, form, bits, (32, 16)), tmp_path / "a.mp4"
    lapyrei.export(store, "mp4", str(out), lapyrei.Options(lossless=True))
    kind = films.PIXELS[layout.DIVIDED[form]] + ("10le" if bits == 10 else "")
    words = ["ffmpeg", "-v", "error", "-i", out, "-f", "rawvideo", "-pix_fmt", kind, "-"]
    assert run(*words) == b"".join(bytes_of(picture) for picture in store)


@pytest.mark.parametrize("form, bits", [(b"GREY", 8), (b"GREY", 12), (b"YM12", 8), (b"YM16", 12)])
def test_mp4_for_the_eye_has_the_frames_the_time_and_even_sides(tmp_path, form, bits):
    size = (63, 47) if bits == 8 else (64, 48)
    it = layout.Ring(size[0] * (2 if bits > 8 else 1), size[1], form, 4, 3)
    it.time += DAY
    for _ in range(7):
        it.store()
    image = it.image if bits == 8 else with_flags(it.image, it.geometry, bits << 24)
    store, out = lapyrei.open(put(tmp_path / "left.loop", image)), tmp_path / "a.mp4"
    lapyrei.export(store, "mp4", str(out))
    words = [
        "ffprobe",
        "-v",
        "error",
        "-show_entries",
        "stream=codec_name,width,height,pix_fmt,nb_frames",
    ]
    assert run(*words, "-of", "csv=p=0", out).decode().strip() == "h264,64,48,yuv420p,7"
    assert packets(out) == [it * 40000 for it in range(7)]
    assert tags(out)["creation_time"] == "2025-11-26T18:40:00.000000Z"


def test_mp4_has_no_lossless_samples_of_12_bits(tmp_path):
    with pytest.raises(lapyrei.ExportFault, match="12 bits: take mkv"):
        lapyrei.export(
            store_of(tmp_path, bits=12),
            "mp4",
            str(tmp_path / "a.mp4"),
            lapyrei.Options(lossless=True),
        )
    assert os.listdir(tmp_path) == ["left.loop"]


# ------------------------------------------------------------------------------- what is refused


def nothing_is_left(folder):
    """Only the store is there."""
    assert sorted(os.listdir(folder)) == ["left.loop"]


def test_what_can_t_be_exported_is_refused_and_nothing_is_left(tmp_path, monkeypatch):
    store, out = store_of(tmp_path, clips=[(1, 3, 0)]), str(tmp_path / "out")
    cases = [
        (store, "gif", lapyrei.Options(), "no format gif"),
        (store[:0], "h5", lapyrei.Options(), "no frame to export"),
        (store, "mkv", lapyrei.Options(colour="rgb"), "mkv takes planes or luma"),
        (store, "tiff", lapyrei.Options(colour="planes"), "tiff takes rgb or luma"),
    ]
    for frames, kind, options, why in cases:
        with pytest.raises(lapyrei.ExportFault, match=why):
            lapyrei.export(frames, kind, out, options)
    with pytest.raises(lapyrei.ExportFault, match="No such file or directory"):
        lapyrei.export(store, "csv", str(tmp_path / "none/out"))
    nothing_is_left(tmp_path)


@pytest.mark.parametrize("kind", sorted(exports.KINDS))
def test_what_stands_there_stays_unless_it_is_forced(tmp_path, kind):
    store, out = store_of(tmp_path), tmp_path / "out"
    out.write_text("mine")
    with pytest.raises(lapyrei.ExportFault, match="out is there already"):
        lapyrei.export(store, kind, str(out))
    assert out.read_text() == "mine"
    out.unlink()
    lapyrei.export(store, kind, str(out))
    with pytest.raises(lapyrei.ExportFault, match="out is there already"):
        lapyrei.export(store, kind, str(out))
    assert lapyrei.export(store, kind, str(out), lapyrei.Options(force=True)) == 7
    assert sorted(os.listdir(tmp_path)) == ["left.loop", "out"]


def test_a_folder_that_no_export_made_is_never_replaced(tmp_path):
    store, out = store_of(tmp_path), tmp_path / "out"
    out.mkdir()
    (out / "thesis.tex").touch()
    for kind in ("png", "csv"):
        with pytest.raises(lapyrei.ExportFault, match="no export has made"):
            lapyrei.export(store, kind, str(out), lapyrei.Options(force=True))
    assert (out / "thesis.tex").exists()


@pytest.mark.parametrize("kind", sorted(exports.KINDS))
def test_a_frame_that_goes_meanwhile_ends_the_export(tmp_path, kind, monkeypatch):
    store = store_of(tmp_path)
    if kind == "csv":
        return
    real = lapyrei.Part.pixels

    def pixels(self, number, *words):
        if number == 4:
            raise lapyrei.Gone("frame 4 isn't held any more", 4, self.path)
        real(self, number, *words)

    monkeypatch.setattr(lapyrei.Part, "pixels", pixels)
    with pytest.raises(lapyrei.Gone, match="frame 4"):
        lapyrei.export(store, kind, str(tmp_path / "out"))
    nothing_is_left(tmp_path)


@pytest.mark.parametrize("kind", sorted(exports.KINDS))
def test_a_full_disk_is_told_and_nothing_is_left(tmp_path, kind):
    """Files may have 2,000 bytes, in a process of its own."""
    store = store_of(tmp_path, count=12, size=(64, 48))
    program = f"""
import sys, resource, signal
sys.path[1:1] = {conftest.sys.path!r}
import lapyrei
store = lapyrei.open({store.parts[0].path!r})
signal.signal(signal.SIGXFSZ, signal.SIG_IGN)
if {kind == 'csv'}:
    store = store[:]
resource.setrlimit(resource.RLIMIT_FSIZE, (200, 200) if {kind == 'csv'} else (2000, 2000))
try:
    lapyrei.export(store, {kind!r}, {str(tmp_path / 'out')!r})
except lapyrei.ExportFault as fault:
    print("told:", fault)
"""
    done = subprocess.run([sys.executable, "-B", "-c", program], capture_output=True, text=True)
    assert done.stdout.startswith("told: "), done
    assert "out" in done.stdout or "ffmpeg" in done.stdout
    nothing_is_left(tmp_path)


@pytest.mark.parametrize(
    "kind, package", [(kind, it.package) for kind, it in sorted(exports.KINDS.items()) if it.module]
)
def test_a_missing_package_is_named(tmp_path, kind, package, monkeypatch):
    store = store_of(tmp_path)
    monkeypatch.setitem(sys.modules, exports.KINDS[kind].module, None)
    with pytest.raises(
        lapyrei.MissingPackage, match=f"{kind} needs {package}, .* sudo apt install"
    ) as missing:
        lapyrei.export(store, kind, str(tmp_path / "out"))
    assert missing.value.package == package
    nothing_is_left(tmp_path)


def test_a_missing_ffmpeg_is_named(tmp_path, monkeypatch):
    store = store_of(tmp_path)
    monkeypatch.setenv("PATH", str(tmp_path))
    for kind in ("mkv", "mp4"):
        with pytest.raises(lapyrei.MissingPackage, match="needs ffmpeg"):
            lapyrei.export(store, kind, str(tmp_path / "out"))
    nothing_is_left(tmp_path)


def test_an_ffmpeg_that_fails_is_told_in_its_own_words(tmp_path, monkeypatch):
    store = store_of(tmp_path)
    (tmp_path / "bin").mkdir()
    (tmp_path / "bin/ffmpeg").write_text(
        "#!/bin/sh\nhead -c 100 >/dev/null\necho the encoder is broken >&2\nexit 3\n"
    )
    os.chmod(tmp_path / "bin/ffmpeg", 0o755)
    monkeypatch.setenv("PATH", f"{tmp_path / 'bin'}:{os.environ['PATH']}")
    with pytest.raises(lapyrei.ExportFault, match="the encoder is broken"):
        lapyrei.export(store, "mkv", str(tmp_path / "out"))
    assert sorted(os.listdir(tmp_path)) == ["bin", "left.loop"]


def test_frames_of_several_depths_are_refused(tmp_path):
    it = ring(6, size=(8, 4))
    image = bytearray(it.image)
    at = it.geometry.slot_at(1, 0) + 12
    image[at : at + 4] = (12 << 24).to_bytes(4, "little")
    store = lapyrei.open(put(tmp_path / "left.loop", image))
    for kind in sorted(exports.KINDS):
        with pytest.raises(lapyrei.MixedDepths, match="8, 12 bits"):
            lapyrei.export(store, kind, str(tmp_path / "out"))
    nothing_is_left(tmp_path)


def test_what_a_killed_export_has_left_is_removed_and_one_in_use_is_not(tmp_path):
    store, out = store_of(tmp_path), tmp_path / "out.csv"
    left = tmp_path / ".out.csv.part"
    left.mkdir()
    (left / "out.csv").write_text("half")
    lapyrei.export(store, "csv", str(out))
    assert not left.exists() and out.read_bytes().count(b"\n") == 8
    out.unlink()
    from lapyrei.place import place_for

    with pytest.raises(lapyrei.ExportFault, match="in use by another export"):
        with place_for(str(out)):
            lapyrei.export(store, "csv", str(out))
    nothing_is_left(tmp_path)


def test_a_name_that_comes_meanwhile_is_not_replaced(tmp_path):
    store, out = store_of(tmp_path), tmp_path / "out.csv"

    def done(_):
        out.write_text("mine")

    with pytest.raises(lapyrei.ExportFault, match="out.csv is there already"):
        lapyrei.export(store, "csv", str(out), done=done)
    assert out.read_text() == "mine" and sorted(os.listdir(tmp_path)) == ["left.loop", "out.csv"]


def test_the_version_is_that_of_the_repository():
    assert lapyrei.__version__ == (conftest.TOP / "VERSION").read_text().strip()
    assert re.fullmatch(r"\d+\.\d+\.\d+", lapyrei.__version__)
