"""Frames as an array: their shape, regions of which those rows alone are read, blocks, and arrays
of dask and of xarray."""
import datetime
import os
import pickle
import subprocess
import sys

import conftest
import lapyrei
import layout
import numpy as np
import pytest
from conftest import DAY, FORMATS, put, ring, with_flags


def deep(folder, form=b"GREY", size=(16, 8), count=7):
    """A store of 12 bits."""
    it = ring(count, form, (2 * size[0], size[1]))
    return lapyrei.open(put(folder / "left.loop", with_flags(it.image, it.geometry, 12 << 24)))


# ------------------------------------------------------------------------------- shapes


def test_an_empty_selection_has_the_shape_and_the_type_of_its_store(tmp_path):
    store = deep(tmp_path)
    empty = [store[:0], store[[]], store[store.bits == 8], store.between(0, 1), store[:0][:0]]
    empty += [store[np.zeros(7, bool)], pickle.loads(pickle.dumps(store[[]]))]
    for none in empty:
        assert none.shape == (0, 8, 16) and none.dtype == np.uint16 and none.ndim == 3
        assert none.array().shape == (0, 8, 16) and none.array().dtype == np.uint16
        assert none[:, 2:4].shape == (0, 2, 16) and none[:, 2:4].dtype == np.uint16


def test_an_empty_store_that_is_made_for_deep_samples_has_their_type(tmp_path, library):
    with lapyrei.create(tmp_path / "a.loop", (8, 16), 25, segments=2, slots=2, bits=12) as store:
        for none in (store, store[:0], store[[]], store.between(0, 9)):
            assert none.shape == (0, 8, 16) and none.dtype == np.uint16


@pytest.mark.parametrize("form", FORMATS)
def test_a_shape_is_that_of_all_pictures(tmp_path, form):
    store = lapyrei.open(put(tmp_path / "a.loop", ring(7, form, (7, 5))))
    assert store.shape == (7, 5, 7) and store.ndim == 3 and store[2:4].shape == (2, 5, 7)
    whole = store.array()
    assert (whole if form == b"GREY" else whole.y).shape == store.shape


def test_numpy_takes_grey_frames_as_they_are(tmp_path):
    store = deep(tmp_path)
    assert (np.asarray(store) == store.array()).all() and np.asarray(store).dtype == np.uint16
    assert np.asarray(store[:2], dtype=float).dtype == float
    colour = lapyrei.open(put(tmp_path / "b.loop", ring(3, b"YM12")))
    with pytest.raises(TypeError, match="colour: take luma"):
        np.asarray(colour)


def test_lost_is_what_the_camera_s_count_skips(tmp_path):
    it = ring(0, slots=4)
    for step in (1, 1, 3, 1, 2, 1):
        it.store(step)
    it.sequence = 0
    it.store(1), it.store(5)
    store = lapyrei.open(put(tmp_path / "a.loop", it))
    counts = store.sequences.tolist()
    assert store.lost.tolist() == [0, 0, 2, 0, 1, 0, 0, 4], counts
    assert store.lost.dtype == np.int64
    # Of a selection it is what the store's frames say.
    assert store[::2].lost.tolist() == [0, 2, 1, 0] and store[store.lost > 0].numbers.tolist() == [
        2,
        4,
        7,
    ]
    store.lost[:] = 9
    assert store.lost.sum() == 7


def test_nothing_is_lost_where_a_block_went_or_a_count_goes_round(tmp_path):
    it = ring(9)
    it.lock(1, 1, 0)
    for _ in range(9):
        it.store()
    image = bytearray(it.image)
    store = lapyrei.open(put(tmp_path / "a.loop", image))
    assert len(store.runs[0]) == 2 and not store.lost.any()
    # The count's last number, and 0 after it; then one that was skipped.
    place = it.blocks.index(5)
    for slot, count in enumerate((2**32 - 1, 0, 2)):
        at = it.geometry.slot_at(place, slot) + 8
        image[at : at + 4] = count.to_bytes(4, "little")
    store = lapyrei.open(put(tmp_path / "a.loop", image))
    assert store[-2:].lost.tolist() == [0, 1]


def test_what_is_lost_within_frames_is_told_with_each_place(tmp_path):
    it = ring(3, slots=4)
    it.store(4), it.store(), it.store(2)
    it.lock(1, 4, 7)
    store = lapyrei.open(put(tmp_path / "a.loop", it))
    assert store.lost_within == 4 and [hole.lost for hole in store.holes] == [3, 1]
    hole = store.holes[0]
    assert (hole.after, hole.before) == (2, 3)
    assert (hole.since, hole.until) == tuple(store.times[2:4].tolist())
    (clip,) = store.clips
    assert clip.lost_within == 3 and [it.lost for it in clip.holes] == [3]
    # What was lost before the first one isn't within.
    assert store[3:].lost_within == 1 and store[:3].lost_within == store[:0].lost_within == 0


def two_rings(turns):
    """Two stores of a camera, of blocks of 3: into which each block comes, after how many lost
    frames before its first one."""
    rings = [ring(0), ring(0)]
    sequence, time = 100, rings[0].time
    for which, lost in turns:
        it, sequence = rings[which], sequence + lost
        it.sequence, it.time = sequence % 2**32, time
        for _ in range(3):
            it.store()
        sequence, time = it.sequence, it.time
    return rings


def opened(folder, rings):
    """Both stores as one."""
    return lapyrei.open([put(folder / f"left.00{n}.loop", it) for n, it in enumerate(rings)])


def test_what_another_store_has_between_is_not_lost(tmp_path):
    rings = two_rings([(0, 0), (0, 0), (1, 2), (1, 0), (0, 0), (0, 1)])
    store = opened(tmp_path, rings)
    places = {place: int(it) for place, it in enumerate(store.lost) if it}
    assert len(store) == 18 and places == {6: 2, 15: 1} and store.lost_within == 3
    # The count goes round between two stores.
    rings = two_rings([(0, 2**32 - 104), (1, 5)])
    (tmp_path / "around").mkdir()
    store = opened(tmp_path / "around", rings)
    assert store.sequences.tolist()[:4] == [2**32 - 3, 2**32 - 2, 2**32 - 1, 5]
    assert store.lost_within == 5


def test_what_the_ring_has_removed_behind_a_clip_is_not_lost(tmp_path):
    """The block of the clip stays, and those after it, in both stores, are gone."""
    rings = two_rings([(0, 0)])
    rings[0].lock(0, 1, 7)
    sequence, time = rings[0].sequence, rings[0].time
    for which in [0, 0, 0, 1, 1, 1, 1, 0, 0, 0]:
        it = rings[which]
        it.sequence, it.time = sequence, time
        assert it.store() and it.store() and it.store()
        sequence, time = it.sequence, it.time
    store = opened(tmp_path, rings)
    assert store.runs[0][0] == (0, 2) and store.lost_within == 0


# ------------------------------------------------------------------------------- regions

KEYS = [
    (slice(None), slice(2, 5), slice(3, 6)),
    (slice(None), slice(2, 5)),
    (slice(1, 3), slice(None), slice(0, 1)),
    (slice(None, None, 2), slice(-3, None), slice(-2, None)),
    (3, slice(2, 5), slice(3, 6)),
    (-1, slice(0, 0)),
    (slice(None), 2),
    (slice(None), 2, 3),
    (4, 1, 6),
    (4, -1),
    (..., 3),
    (2, ...),
    ([5, 1], slice(1, 2), slice(None)),
    (slice(0, 0), slice(1, 3), slice(1, 3)),
    (slice(None), slice(4, 2), slice(3, 9)),
]
STEPS = [
    (slice(None), slice(None, None, 2), slice(1, None, 3)),
    (slice(None), slice(None, None, -1)),
    (2, slice(4, None, -2), slice(None, None, -1)),
    (slice(None, None, -1), slice(None), slice(5, 1, -2)),
]


@pytest.mark.parametrize("bits", [8, 12])
def test_a_region_of_grey_is_that_of_the_array(tmp_path, bits):
    store = deep(tmp_path) if bits > 8 else lapyrei.open(put(tmp_path / "a.loop", ring(7)))
    whole = store.array()
    for key in KEYS + STEPS:
        found = store[key]
        assert np.array_equal(found, whole[key]) and found.dtype == whole.dtype, key
        if found.ndim:
            assert found.shape == whole[key].shape


@pytest.mark.parametrize("form", FORMATS[1:])
def test_a_region_in_colour_has_each_sample_that_stands_for_a_pixel(tmp_path, form):
    store = lapyrei.open(put(tmp_path / "a.loop", ring(5, form, (9, 7))))
    whole, (across, down) = store.array(), layout.DIVIDED[form]
    for rows, columns in [(slice(2, 6), slice(4, 8)), (slice(1, 4), slice(3, 9)), (6, 8)]:
        found, one = store[:, rows, columns], store[3, rows, columns]
        assert np.array_equal(found.y, whole.y[:, rows, columns])
        low = [it.start if isinstance(it, slice) else it for it in (rows, columns)]
        end = [it.stop if isinstance(it, slice) else it + 1 for it in (rows, columns)]
        inside = np.s_[
            :, low[0] // down : -(-end[0] // down), low[1] // across : -(-end[1] // across)
        ]
        for plane in ("cb", "cr"):
            wanted = getattr(whole, plane)[inside]
            assert np.array_equal(getattr(found, plane).reshape(wanted.shape), wanted)
            assert np.array_equal(getattr(one, plane).reshape(wanted.shape[1:]), wanted[3])
    with pytest.raises(IndexError, match="no steps"):
        store[:, ::2]


def test_a_region_that_isn_t_there_is_refused_by_name(tmp_path):
    store = lapyrei.open(put(tmp_path / "a.loop", ring(5)))
    cases = [
        ((0, 6), IndexError, "6 rows, and no 6"),
        ((0, 0, -9), IndexError, "8 columns, and no -9"),
        ((5, 0), IndexError, "5 frames, and no 5"),
        ((0, 0, 0, 0), IndexError, "3 sides"),
        ((..., 0, ...), IndexError, "3 sides"),
        ((0, [1, 2]), TypeError, "rows are chosen by a number or a slice, not by list"),
        ((0, None), TypeError, "rows are chosen"),
        ((0, 0, 1.5), TypeError, "columns are chosen"),
    ]
    for key, kind, why in cases:
        with pytest.raises(kind, match=why):
            store[key]


def read_bytes():
    """How many bytes this process has read."""
    with open("/proc/self/io", encoding="ascii") as file:
        return int(file.readline().split()[1])


@pytest.mark.parametrize("form", [b"GREY", b"YM12"])
def test_a_region_reads_its_rows_alone(tmp_path, form):
    """640 x 480 pixels, of which 20 rows are asked for: beside them only what says which frame it
    is, twice."""
    store = lapyrei.open(put(tmp_path / "a.loop", ring(6, form, (640, 480), slots=2)))
    rows = 20 * 640 * (1 if form == b"GREY" else 1.5)
    store[:, 100:120, 50:90]
    before = read_bytes()
    store[:, 100:120, 50:90]
    cost = read_bytes() - before
    assert 6 * rows <= cost <= 6 * (rows + 2 * 600 + 64) + 500, cost
    before = read_bytes()
    store[2, 7]
    assert read_bytes() - before <= 2 * 640 + 2 * 600 + 564


def test_a_region_is_of_its_frame_or_gone(tmp_path):
    it = ring(9, slots=3)
    store = lapyrei.open(put(tmp_path / "a.loop", it))
    for _ in range(6):
        it.store()
    with open(tmp_path / "a.loop", "r+b") as file:
        file.write(it.image)
    assert store[-1, 2:4, 1:3].shape == (2, 2)
    with pytest.raises(lapyrei.Gone, match="frame 0"):
        store[:, 2:4]


# ------------------------------------------------------------------------------- blocks


def test_blocks_are_all_frames_one_after_the_other(tmp_path, monkeypatch):
    store = lapyrei.open(put(tmp_path / "a.loop", ring(11)))
    assert [len(it) for it in store.blocks(4)] == [4, 4, 3]
    whole = np.concatenate([it.array() for it in store.blocks(4)])
    assert (whole == store.array()).all()
    assert [len(it) for it in store.blocks()] == [11] and list(store[:0].blocks()) == []
    monkeypatch.setattr(lapyrei.store, "BLOCK_BYTES", 100)
    assert [len(it) for it in store.blocks()] == [2, 2, 2, 2, 2, 1]
    for wrong in (0, -1):
        with pytest.raises(ValueError, match="one frame or more"):
            store.blocks(wrong)


def test_blocks_and_lazy_arrays_are_of_the_frames_that_were_there(tmp_path):
    """Also once the store was refreshed, in which each place is another frame then."""
    pytest.importorskip("dask.array")
    it, path = ring(9, slots=3), tmp_path / "a.loop"
    store = lapyrei.open(put(path, it))
    lazy, blocks, last = store.to_dask(), store.blocks(3), store[-3:].array()
    for _ in range(6):
        it.store()
    with open(path, "r+b") as file:
        file.write(it.image)
    assert store.refresh() and int(store.numbers[-1]) == 14
    assert (lazy[-3:].compute() == last).all()
    assert [block.numbers.tolist() for block in blocks] == [[0, 1, 2], [3, 4, 5], [6, 7, 8]]
    with pytest.raises(lapyrei.Gone):
        lazy[:1].compute()


# ------------------------------------------------------------------------------- times

BEYOND = [
    np.datetime64("NaT"),
    np.datetime64("NaT", "us"),
    np.datetime64(2**62, "s"),
    np.datetime64(-(2**61), "ms"),
    np.datetime64(2**60, "D"),
    2**64,
    -(2**63) - 1,
    10**400,
    "1e400",
    "1e999999999",
    "nan",
    "inf",
    "18446744073709.6",
]


@pytest.mark.parametrize("wrong", BEYOND, ids=str)
def test_what_is_no_time_is_refused_by_name(tmp_path, wrong):
    store = lapyrei.open(put(tmp_path / "a.loop", ring(5)))
    for pair in ((wrong, DAY), (DAY, wrong)):
        with pytest.raises(lapyrei.BadTime, match="is no time|no number of seconds"):
            store.between(*pair)
    if not isinstance(wrong, str):
        with pytest.raises(lapyrei.BadTime):
            store.nearest([wrong])


@pytest.mark.parametrize("wrong", [*BEYOND, -1, np.datetime64("1969-12-31")], ids=str)
def test_what_is_no_time_is_not_stored(tmp_path, library, wrong):
    with lapyrei.create(tmp_path / "a.loop", (4, 6), 25, segments=2, slots=4) as store:
        picture = np.zeros((4, 6), np.uint8)
        with pytest.raises(lapyrei.BadTime, match="is no time|no number of seconds|a time is 0"):
            store.append(picture, wrong)
        for several in ([DAY, wrong], (DAY, wrong)):
            with pytest.raises(lapyrei.BadTime, match="is no time|number of seconds|a time is 0"):
                store.append(np.stack([picture] * 2), several)
        if isinstance(wrong, np.datetime64):
            kind = wrong.dtype if np.datetime_data(wrong.dtype)[0] != "generic" else "M8[us]"
            with pytest.raises(lapyrei.BadTime, match="is no time|a time is 0"):
                store.append(picture, np.array([wrong], kind))
        assert len(store) == 0 and store.append(picture, DAY).tolist() == [0]


def test_a_datetime_that_goes_beyond_is_refused_by_name(tmp_path):
    store = lapyrei.open(put(tmp_path / "a.loop", ring(5)))

    class NotATime(datetime.datetime):
        """What pandas' NaT is: a datetime that can't be reckoned with."""

        def astimezone(self, tz=None):
            raise ValueError("NaT has no zone")

    for wrong in (datetime.datetime.min, NotATime(2026, 1, 1)):
        with pytest.raises(lapyrei.BadTime, match="is no time"):
            store.between(wrong, DAY)


def test_the_ends_of_64_bits_are_times(tmp_path):
    it = ring(3)
    image = bytearray(it.image)
    at = it.geometry.slot_at(0, 2) + 16
    image[at : at + 8] = (2**63 + 5).to_bytes(8, "little")
    store = lapyrei.open(put(tmp_path / "a.loop", image))
    assert len(store.between(-(2**63), 2**64 - 1)) == 3 and len(store.between(-5, -1)) == 0
    assert store.between(2**63 + 5, 2**63 + 5).numbers.tolist() == [2]
    assert len(store.between(2**63 + 6, 2**64 - 1)) == 0
    assert store.nearest([-(2**63), 2**63 - 1]).tolist() == [0, 2]
    assert len(store.between(np.datetime64("1970"), np.datetime64(2**62, "ns"))) == 2


# ------------------------------------------------------------------------------- dask, xarray


def test_a_dask_array_reads_what_is_computed_and_no_more(tmp_path):
    dask = pytest.importorskip("dask.array")
    store = deep(tmp_path, size=(64, 48))
    lazy = store.to_dask(block=3)
    assert isinstance(lazy, dask.Array) and lazy.shape == (7, 48, 64) and lazy.dtype == np.uint16
    assert lazy.chunks[0] == (3, 3, 1)
    assert (lazy.compute() == store.array()).all()
    assert (lazy[2:5, 10:20, ::4].compute() == store.array()[2:5, 10:20, ::4]).all()
    assert (lazy[6, 10].compute() == store[6, 10]).all()
    before = read_bytes()
    lazy[5:6, 10:12].compute(scheduler="sync")
    assert read_bytes() - before < 64 * 2 * 2 + 3000
    assert float(lazy.mean(axis=0).sum().compute()) == pytest.approx(
        float(store.array().mean(axis=0).sum())
    )
    assert (lazy.compute(scheduler="processes", num_workers=2) == store.array()).all()


def test_dask_arrays_of_colour(tmp_path):
    pytest.importorskip("dask.array")
    store = lapyrei.open(put(tmp_path / "a.loop", ring(7, b"YM12", (9, 7))))
    planes, whole = store.to_dask(), store.array()
    assert isinstance(planes, lapyrei.Planes)
    for one, other in zip(planes, whole):
        assert one.shape == other.shape and (one.compute() == other).all()
    assert (store.to_dask("luma").compute() == whole.y).all()
    rgb = store.to_dask("rgb", matrix="bt709")
    assert rgb.shape == (7, 7, 9, 3)
    assert (rgb[3, 2:4].compute() == store.rgb(3, "bt709")[2:4]).all()
    with pytest.raises(ValueError, match="planes, luma or rgb"):
        store.to_dask("yuv")


def test_an_xarray_has_the_times_as_a_coordinate(tmp_path):
    xarray = pytest.importorskip("xarray")
    store = deep(tmp_path)
    found = store.to_xarray()
    assert isinstance(found, xarray.DataArray) and found.dims == ("time", "y", "x")
    assert (found.values == store.array()).all() and found.name == "frames"
    assert (found["time"].values == store.when.astype("M8[ns]")).all()
    assert found["time_us"].values.tolist() == store.times.tolist()
    assert found["number"].values.tolist() == store.numbers.tolist()
    assert found["sequence"].values.tolist() == store.sequences.tolist()
    assert found.attrs["camera"] == "left" and found.attrs["bits"] == 12
    one = found.sel(time="2025-11-26T18:40:00.080", method="nearest")
    assert int(one["number"]) == 2 and (one.values == store[2]).all()
    lazy = store.to_xarray(lazy=True)
    assert lazy.chunks is not None and (lazy[2:3].values == store.array()[2:3]).all()


def test_an_xarray_of_colour_and_of_another_clock(tmp_path):
    xarray = pytest.importorskip("xarray")
    store = lapyrei.open(put(tmp_path / "a.loop", ring(5, b"YM12", (9, 7), start=0)))
    found = store.to_xarray()
    assert isinstance(found, xarray.Dataset) and set(found.data_vars) == {"luma", "cb", "cr"}
    assert found["cb"].dims == ("time", "y_colour", "x_colour") and found["luma"].shape == (5, 7, 9)
    # Of another clock they are seconds.
    assert found["time"].values.tolist() == [it / 1e6 for it in store.times.tolist()]
    assert found["time"].attrs["units"] == "s"
    rgb = store.to_xarray("rgb")
    assert rgb.dims == ("time", "y", "x", "colour") and rgb["colour"].values.tolist() == list("rgb")
    assert (rgb.values[2] == store.rgb(2)).all()


@pytest.mark.parametrize("package, call", [("dask", "to_dask"), ("xarray", "to_xarray")])
def test_a_package_that_is_missing_is_named(tmp_path, monkeypatch, package, call):
    store = deep(tmp_path)
    for name in ("dask", "dask.array", "xarray"):
        monkeypatch.setitem(sys.modules, name, None)
    with pytest.raises(lapyrei.MissingPackage, match=f"needs python3-{package}"):
        getattr(store, call)()


# ------------------------------------------------------------------------------- napari


def layers(path):
    """What napari would show of a path."""
    from lapyrei.napari_reader import get_reader

    reader = get_reader(path)
    return None if reader is None else reader(path)


def test_napari_reads_a_store_as_an_image_with_its_times(tmp_path):
    store = deep(tmp_path)
    ((data, words, kind),) = layers(store.parts[0].path)
    assert kind == "image" and data.shape == (7, 8, 16)
    assert (np.asarray(data) == store.array()).all()
    assert words["name"] == "left" and words["contrast_limits"] == [0, 4095]
    assert words["metadata"]["camera"] == "left" and not words.get("rgb")
    assert words["metadata"]["time_us"].tolist() == store.times.tolist()


def test_napari_reads_colour_as_rgb_and_clips_as_layers(tmp_path):
    it = ring(20, b"YM12")
    it.lock(12, 16, 7)
    store = lapyrei.open(put(tmp_path / "left.loop", it))
    (data, words, kind), (clip, more, _) = layers(store.parts[0].path)
    assert words["rgb"] and data.shape == (11, 6, 8, 3) and kind == "image"
    assert (np.asarray(data[3]) == store.rgb(3)).all()
    assert more["name"] == "left event 0" and clip.shape[0] == 5 and not more["visible"]
    assert (np.asarray(clip[0]) == store.events[0].rgb(0)).all()


def test_napari_is_told_of_no_other_file(tmp_path):
    (tmp_path / "a.txt").write_text("mine")
    put(tmp_path / "b.loop", b"no store")
    assert layers(str(tmp_path / "a.txt")) is None and layers(str(tmp_path / "b.loop")) is None
    assert layers(str(tmp_path / "none.loop")) is None and layers([]) is None
    put(tmp_path / "c.000.loop", ring(3)), put(tmp_path / "c.001.loop", ring(2, start=DAY + 10**6))
    paths = [str(tmp_path / name) for name in ("c.000.loop", "c.001.loop")]
    assert layers(paths)[0][0].shape == (5, 6, 8)


def test_napari_s_manifest_names_what_is_there():
    """By its text, since npe2 isn't in Debian: the command's name is one that can be called."""
    text = (conftest.SOURCES / "lapyrei/napari.yaml").read_text()
    assert "name: lapyrei\n" in text
    (command,) = [line.split(": ")[1] for line in text.splitlines() if "python_name: " in line]
    module, name = command.split(":")
    program = f"import {module} as it; assert callable(it.{name})"
    path = os.pathsep.join([str(conftest.SOURCES), *sys.path])
    subprocess.run([sys.executable, "-B", "-c", program], check=True, env={"PYTHONPATH": path})
    commands = [line.split(": ")[1] for line in text.splitlines() if "command: " in line]
    assert [it for it in commands if f"id: {it}\n" in text] == commands != []
