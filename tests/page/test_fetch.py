"""Clips as files."""
import hashlib
import io
import json
import socket
import subprocess
import threading
import zipfile

import layout
import numpy
import pytest
from conftest import LIMIT
from PIL import Image


@pytest.fixture(scope="module")
def kept(tmp_path_factory):
    """A laboratory with a clip of each camera."""
    from conftest import Laboratory

    lab = Laboratory(tmp_path_factory.mktemp("kept"))
    lab.start_station().start_page().filmed(60)
    answers = lab.post("/api/keep", {"seconds": 2}).json()["answers"]
    lab.clips = {it["camera"]: it["clips"][0] for it in answers}
    yield lab
    lab.close()


@pytest.mark.parametrize("camera", ["left", "right"])
def test_yuv4mpeg2_is_byte_for_byte_the_export(kept, camera):
    found = kept.ask(f"/api/clips/{camera}/0.y4m")
    assert found.status == 200 and found.body == kept.text_of(camera, kept.clips[camera])
    assert (
        int(found.headers["Content-Length"]) == len(found.body)
        and f'filename="{camera}_' in found.headers["Content-Disposition"]
    )


def test_each_range_is_that_part_of_the_whole(kept):
    whole = kept.text_of("left", kept.clips["left"])
    size = len(whole)
    for word, start, end in [
        ("0-0", 0, 1),
        ("0-", 0, size),
        ("10-99", 10, 100),
        ("50-70000", 50, 70001),
        (f"{size - 1}-", size - 1, size),
        ("-7", size - 7, size),
        (f"5-{size * 9}", 5, size),
        ("-999999999", 0, size),
    ]:
        found = kept.ask("/api/clips/left/0.y4m", headers={"Range": f"bytes={word}"})
        assert (found.status, found.body) == (206, whole[start:end]), word
        assert found.headers["Content-Range"] == f"bytes {start}-{end - 1}/{size}"
    for word in (f"{size}-", "-0", "9" * 19 + "-"):
        found = kept.ask("/api/clips/left/0.y4m", headers={"Range": f"bytes={word}"})
        assert found.status == 416 and found.headers["Content-Range"] == f"bytes */{size}", word
    for word in (
        "bytes=5-4",
        "bytes=a-b",
        "bytes=-",
        "lines=1-2",
        "bytes=0-1,4-5",
        "bytes=" + "9" * 99 + "-",
    ):
        assert kept.ask("/api/clips/left/0.y4m", headers={"Range": word}).body == whole, word


def test_a_range_of_another_file_is_the_whole(kept):
    tag = kept.ask("/api/clips/left/0.y4m", "HEAD").headers["ETag"]
    assert (
        kept.ask("/api/clips/left/0.y4m", headers={"Range": "bytes=0-3", "If-Range": tag}).body
        == b"YUV4"
    )
    assert (
        kept.ask(
            "/api/clips/left/0.y4m", headers={"Range": "bytes=0-3", "If-Range": '"other"'}
        ).status
        == 200
    )


def test_a_head_has_no_body(kept):
    for kind in ("y4m", "csv", "zip", "mp4", "jpg", "sums"):
        found = kept.ask(f"/api/clips/left/0.{kind}", "HEAD")
        assert (found.status, found.body) == (200, b""), kind


@pytest.mark.parametrize("camera", ["left", "right"])
def test_the_film_has_each_frame_and_then_its_ranges(kept, camera, tmp_path):
    found = kept.ask(f"/api/clips/{camera}/0.mp4")
    assert found.status == 200
    (tmp_path / "a.mp4").write_bytes(found.body)
    told = subprocess.run(
        [
            "ffprobe",
            "-v",
            "error",
            "-count_frames",
            "-show_entries",
            "stream=codec_name,pix_fmt,nb_read_frames",
            "-of",
            "csv=p=0",
            tmp_path / "a.mp4",
        ],
        capture_output=True,
        text=True,
        check=True,
    ).stdout.strip()
    clip = kept.clips[camera]
    assert told == f"h264,yuv420p,{clip['last'] - clip['first'] + 1}"
    part = kept.ask(f"/api/clips/{camera}/0.mp4", headers={"Range": "bytes=100-199"})
    assert (part.status, part.body) == (206, found.body[100:200])


def test_a_film_is_as_bright_as_its_frames(kept, tmp_path):
    """ffmpeg's frames of the film are near the store's: the first one, in grey."""
    (tmp_path / "a.mp4").write_bytes(kept.ask("/api/clips/left/0.mp4").body)
    luma = subprocess.run(
        [
            "ffmpeg",
            "-v",
            "error",
            "-i",
            tmp_path / "a.mp4",
            "-frames:v",
            "1",
            "-f",
            "rawvideo",
            "-pix_fmt",
            "yuv420p",
            "-",
        ],
        capture_output=True,
        check=True,
    ).stdout[: 64 * 48]
    text = kept.text_of("left", kept.clips["left"])
    wanted = text[text.index(b"FRAME\n") + 6 :][: 64 * 48]
    assert (
        numpy.abs(
            numpy.frombuffer(luma, numpy.uint8).astype(int)[200:]
            - numpy.frombuffer(wanted, numpy.uint8)[200:]
        ).mean()
        < 4
    )


def test_the_zip_has_a_picture_of_each_frame(kept):
    clip = kept.clips["right"]
    with zipfile.ZipFile(io.BytesIO(kept.ask("/api/clips/right/0.zip").body)) as archive:
        assert archive.testzip() is None
        names = archive.namelist()
        assert len(names) == clip["last"] - clip["first"] + 2 and names[0] == "frames.csv"
        text, step = kept.text_of("right", clip), 33 * 21
        for place, name in enumerate(names[1:]):
            picture = Image.open(io.BytesIO(archive.read(name)))
            at = text.index(b"\n") + 1 + place * (step + 6) + 6
            assert (picture.size, picture.mode, picture.tobytes()) == (
                (33, 21),
                "L",
                text[at : at + step],
            )


def test_the_table_has_each_number_and_time(kept):
    clip = kept.clips["left"]
    lines = kept.ask("/api/clips/left/0.csv").body.decode().splitlines()
    assert (
        lines[0] == "number,time_us,time,sequence"
        and len(lines) == clip["last"] - clip["first"] + 2
    )
    assert lines[1].split(",")[:3] == [str(clip["first"]), str(clip["from_us"]), clip["from"]]
    assert kept.ask("/api/clips/left/0.csv", headers={"Range": "bytes=0-5"}).body == b"number"


def digest_of(plane, shape):
    """The checksum of a plane of 8 bits."""
    return hashlib.blake2b(repr((shape, "|u1")).encode() + plane, digest_size=16).hexdigest()


@pytest.mark.parametrize(
    "camera, shapes",
    [("left", [(48, 64), (24, 32), (24, 32)]), ("right", [(21, 33)])],
)
def test_what_is_said_of_frames_is_their_checksums(kept, camera, shapes):
    whole = kept.ask(f"/api/clips/{camera}/0.sums")
    front, *lines = whole.body.decode().splitlines()
    said, text = json.loads(front), kept.text_of(camera, kept.clips[camera])
    table = kept.ask(f"/api/clips/{camera}/0.csv").body.decode().splitlines()[1:]
    assert (said["height"], said["width"], said["bits"]) == (*shapes[0], 8)
    size = sum(high * wide for high, wide in shapes)
    for place, (line, row) in enumerate(zip(lines, table)):
        at = len(text) - (len(lines) - place) * (size + 6) + 6
        number, moment, _, sequence = row.split(",")
        wanted = [number, moment, sequence]
        for high, wide in shapes:
            wanted.append(digest_of(text[at : at + high * wide], (high, wide)))
            at += high * wide
        assert line.split(",") == wanted
    assert len(lines) == len(table) and int(whole.headers["Content-Length"]) == len(whole.body)
    for start, end in ((0, 9), (50, 300), (len(whole.body) - 3, len(whole.body))):
        words = {"Range": f"bytes={start}-{end - 1}"}
        part = kept.ask(f"/api/clips/{camera}/0.sums", headers=words)
        assert (part.status, part.body) == (206, whole.body[start:end])


def test_a_thumbnail_is_a_picture_and_a_frame_is_whole(kept):
    assert Image.open(io.BytesIO(kept.ask("/api/clips/left/0.jpg").body)).size == (64, 48)
    clip = kept.clips["left"]
    assert Image.open(
        io.BytesIO(kept.ask(f"/api/cameras/left/frames/{clip['first']}.jpg").body)
    ).size == (64, 48)
    assert kept.ask("/api/cameras/left/frames/9999999.jpg").status == 404


def test_an_id_that_is_used_again_is_no_longer_the_clip_that_was_meant(kept):
    first = kept.clips["left"]["first"]
    assert kept.ask(f"/api/clips/left/0.y4m?first={first}", "HEAD").status == 200
    assert kept.ask(f"/api/clips/left/0.y4m?first={first + 1}").status == 404
    assert kept.post("/api/release", {"camera": "left", "id": 0, "first": first + 1}).status == 404


@pytest.mark.parametrize(
    "path",
    [
        "left/63.y4m",
        "left/99.y4m",
        "left/100.y4m",
        "left/-1.y4m",
        "left/0.avi",
        "none/0.y4m",
        "../left/0.y4m",
        "left/0.y4m/../0.y4m",
        "left/%2e%2e/0.y4m",
        "left%2f0.y4m",
        "left/0.y4m%00",
        "left.loop",
    ],
)
def test_no_other_address_leads_to_a_file(kept, path):
    assert kept.ask(f"/api/clips/{path}").status == 404


def test_a_clip_that_is_fetched_cannot_be_released_until_that_has_ended(make):
    lab = make(cameras=[{"name": "left", "pattern": "640x480 YM12 10:1"}])
    clip = lab.filmed(25).keep(2)
    with slow_client(lab, "/api/clips/left/0.y4m") as client:
        client.recv(100)
        found = lab.post("/api/release", {"camera": "left", "id": 0, "first": clip["first"]})
        assert found.status == 409 and "being fetched" in found.json()["error"]
        assert lab.ask("/api/clips").json()["clips"][0]["fetched"]
    lab.until(
        lambda: lab.post("/api/release", {"camera": "left", "id": 0, "first": clip["first"]}).status
        == 200,
        "release",
    )
    assert not lab.camera()["clips"]


def test_a_fetch_whose_frames_are_taken_away_breaks_off(make):
    """Somebody else releases the clip, and its frames are overwritten: the client sees that the
    file isn't whole."""
    lab = make(
        cameras=[{"name": "left", "pattern": "640x480 YM12 10:1", "segments": 3, "slots": 10}]
    )
    lab.filmed(25).keep(1)
    with slow_client(lab, "/api/clips/left/0.y4m") as client:
        front = client.recv(4096)
        length = int(front.split(b"Content-Length: ")[1].split(b"\r\n")[0])
        is_overwritten(lab)
        assert len(front) + len(all_of(client)) < length


def test_a_zip_whose_frames_are_taken_away_never_looks_whole(make):
    """Its length isn't known before: only the end of the last piece says that it is whole."""
    lab = make(
        cameras=[{"name": "left", "pattern": "640x480 YM12 10:1", "segments": 3, "slots": 10}]
    )
    lab.filmed(25).keep(20)
    with slow_client(lab, "/api/clips/left/0.zip") as client:
        front = client.recv(4096)
        assert b"chunked" in front
        is_overwritten(lab)
        assert not (front + all_of(client)).endswith(b"0\r\n\r\n")


def is_overwritten(lab):
    """Releases a clip past the page, and waits until none of its frames is held any more."""
    last = lab.camera()["clips"][0][2]
    lab.order("release left 0")
    lab.until(lambda: (lab.camera().get("oldest") or [0])[0] > last, "other frames")


def slow_client(lab, path):
    """A client that has asked for something, and into which little goes."""
    client = socket.socket()
    client.setsockopt(socket.SOL_SOCKET, socket.SO_RCVBUF, 4096)
    client.settimeout(LIMIT)
    client.connect(("127.0.0.1", lab.port))
    client.sendall(f"GET {path} HTTP/1.1\r\nHost: localhost\r\n\r\n".encode())
    return client


def all_of(client):
    """What comes until the connection ends."""
    found = b""
    try:
        while piece := client.recv(65536):
            found += piece
    except ConnectionError:
        return found
    return found


def test_several_fetch_the_same_film_at_once(make):
    lab = make(cameras=[{"name": "left", "pattern": "320x240 YM12 10:1"}])
    lab.filmed(25).keep(2)
    found = []
    threads = [
        threading.Thread(target=lambda: found.append(lab.ask("/api/clips/left/0.mp4").body))
        for _ in range(4)
    ]
    for thread in threads:
        thread.start()
    for thread in threads:
        thread.join()
    assert len(set(found)) == 1 and len(found) == 4 and found[0][4:8] == b"ftyp"


def test_the_layout_has_a_name_for_each_format():
    assert {layout.COLOURS[form] for form in layout.DIVIDED} == {"mono", "420jpeg", "422", "444"}
