"""What a camera said of each frame, in the zip of an event."""
import csv
import io
import types
import zipfile

import pytest
from station_page import chunks


def fetch_of(times, camera="left"):
    """A clip with frames of these times, numbered from 7 on."""
    frames = [types.SimpleNamespace(number=7 + at, time=it) for at, it in enumerate(times)]
    clip = types.SimpleNamespace(since=times[0], until=times[-1])
    return types.SimpleNamespace(camera=camera, frames=frames, clip=clip)


def put(folder, name, *lines):
    """Writes a file of lines."""
    path = folder / "left" / name
    path.parent.mkdir(exist_ok=True)
    path.write_text("\r\n".join(lines) + "\r\n")


def told(raw):
    """The lines of a table, each as its words."""
    return list(csv.DictReader(io.StringIO(raw.decode())))


HEAD = "number,time_us,ExposureTime,LineStatusAll"


def test_the_lines_of_a_clip_are_those_of_its_time_by_its_frames(tmp_path):
    put(tmp_path, "00000000000000000100.csv", HEAD, "1,100,5.5,0", "2,200,6.5,1", "3,300,7.5,2")
    put(tmp_path, "00000000000000000400.csv", HEAD, "4,400,8.5,3", "5,500,9.5,4")
    found = told(chunks.table_of(str(tmp_path), fetch_of([200, 300, 400])))
    words = "frame", "number", "ExposureTime", "LineStatusAll"
    assert [tuple(it[word] for word in words) for it in found] == [
        ("7", "2", "6.5", "1"), ("8", "3", "7.5", "2"), ("9", "4", "8.5", "3")]
    # Times of the arrival are no frame's: then the camera's own number tells.
    found = told(chunks.table_of(str(tmp_path), fetch_of([150, 450])))
    assert [(it["frame"], it["number"]) for it in found] == [("", "2"), ("", "3"), ("", "4")]


def test_a_camera_that_says_something_else_later_has_both(tmp_path):
    put(tmp_path, "00000000000000000100.csv", "number,time_us,Gain", "1,100,3")
    put(tmp_path, "00000000000000000200.csv", HEAD, "2,200,6.5,1")
    found = told(chunks.table_of(str(tmp_path), fetch_of([100, 200])))
    assert [(it["Gain"], it["ExposureTime"]) for it in found] == [("3", ""), ("", "6.5")]


@pytest.mark.parametrize(
    "lines", [[], [HEAD], ["x"], [HEAD, "1,x,5,6"], [HEAD, "1,100,5"], [HEAD, "1,-100,5,6"],
              ["number,Gain", "1,100"], ["\0", "1,100"]])
def test_what_is_no_such_table_says_nothing(tmp_path, lines):
    put(tmp_path, "00000000000000000000.csv", *lines)
    put(tmp_path, "other.csv", HEAD, "1,100,5,6")
    assert chunks.table_of(str(tmp_path), fetch_of([100, 200])) is None


def test_without_a_folder_or_files_nothing_is_said(tmp_path):
    assert chunks.table_of(None, fetch_of([1, 2])) is None
    assert chunks.table_of(str(tmp_path / "none"), fetch_of([1, 2])) is None


def test_a_line_that_is_being_written_is_left_out(tmp_path):
    put(tmp_path, "00000000000000000100.csv", HEAD, "1,100,5.5,0")
    with open(tmp_path / "left/00000000000000000100.csv", "a") as file:
        file.write("2,200,6.5,1")
    assert len(told(chunks.table_of(str(tmp_path), fetch_of([100, 200])))) == 1


def test_they_are_in_the_zip_beside_the_frames(make):
    lab = make(page=False)
    (lab.folder / "page.toml").write_text('chunks = "said"\n')
    lab.start_page("--settings", "page.toml").filmed(20)
    answers = lab.post("/api/keep", {"camera": "left", "seconds": 1}).json()["answers"]
    clip = answers[0]["clips"][0]
    key = f"left.{clip['id']}.{clip['first']}"
    rows = lab.ask(f"/api/clips/left/{clip['id']}.csv").body.decode().splitlines()[1:]
    (lab.folder / "said").mkdir()
    lines = [f"{40 + at},{row.split(',')[1]},{at}.5,0" for at, row in enumerate(rows)]
    put(lab.folder / "said", "00000000000000000000.csv", HEAD, *lines)
    found = lab.ask(f"/api/event.zip?clips={key}&what=csv").body
    with zipfile.ZipFile(io.BytesIO(found)) as archive:
        names = {it.split("/")[1]: it for it in archive.namelist()}
        assert set(names) == {"event.txt", "left.csv", "left_chunks.csv"}
        table = told(archive.read(names["left_chunks.csv"]))
        assert b"_chunks.csv" in archive.read(names["event.txt"])
    assert [it["frame"] for it in table] == [row.split(",")[0] for row in rows]
    assert [it["number"] for it in table] == [str(40 + at) for at in range(len(rows))]
