"""loop_camera over Aravis' camera without hardware, whose pixels are known by the frame's
number."""
import json
import os
import signal
import subprocess
import zlib

import numpy as np
import pytest
from conftest import PATIENCE, PROGRAM, parsed, until

from station_camera import genicam, program, text, words

SIZE = 40, 30
HEAD = "GENICAM=Fake_1\nREGION=40x30\nRATE=100\n"


def picture(number, format):
    """The bytes of the camera's frame of a number."""
    rows, columns = np.mgrid[0 : SIZE[1], 0 : SIZE[0]]
    ramp = rows + columns + number
    if format == "Mono8":
        return (ramp % 255).astype(np.uint8).tobytes()
    return (ramp * 256 % 65535).astype("<u2").tobytes()


@pytest.mark.parametrize("format,colour", [("Mono8", "mono"), ("Mono16", "mono16")])
def test_each_frame_is_what_the_camera_gave_at_its_time(camera, format, colour):
    it = camera(HEAD + f"FORMAT={format}\nCLOCK=ptp\n", "--frames", "150")
    assert it.wait() == 0, it.told()
    head, frames, rest = it.text()
    assert (
        head == {"W": "40", "H": "30", "F": "100:1", "I": "p", "A": "0:0", "C": colour}
        and rest == b""
    )
    log = it.log()
    assert len(frames) == len(log) == 150
    for (time, data), (number, stamp, micros, crc) in zip(frames, log):
        assert data == picture(number, format) and zlib.crc32(data) == crc
        assert time == micros == stamp // 1000
    assert all(before < after for (before, _), (after, _) in zip(frames, frames[1:]))
    assert "times are the camera's, by PTP: 0 s ahead" in it.told()
    assert "ended: 150 frames given on" in it.told()


def test_arrival_gives_no_times(camera):
    it = camera(
        HEAD
        + "FORMAT=Mono8\nCLOCK=arrival\nFEATURE_GainAuto=Off\nEXPOSURE=5000\nGAIN=2\nTRIGGER=off\n",
        "--frames",
        "3",
    )
    assert it.wait() == 0, it.told()
    assert [time for time, _ in it.text()[1]] == [None] * 3


def test_what_is_changed_while_it_films_is_taken_at_once_or_by_opening_it_anew(camera, tmp_path):
    words = ["--set", "set", "--state", "state.json"]
    it = camera(HEAD + "FORMAT=Mono8\nEXPOSURE=5000\n", *words)

    def state():
        path = it.folder / "state.json"
        return json.loads(path.read_text()) if path.exists() else {}

    def now(word):
        return {it["word"]: it["now"] for it in state().get("takes", [])}.get(word)

    until("what it takes", lambda: now("EXPOSURE") == 5000)
    bounds = next(it for it in state()["takes"] if it["word"] == "EXPOSURE")
    assert bounds["least"] < 5000 < bounds["most"]
    (it.folder / "set").write_text("EXPOSURE=2000\nGAIN=3\n")
    until("another exposure", lambda: now("EXPOSURE") == 2000 and now("GAIN") == 3)
    assert it.told().count("filming Fake_1") == 1
    (it.folder / "set").write_text("EXPOSURE=2000\nREGION=40x30+8+4\n")
    until("another place", lambda: now("REGION") == "40x30+8+4")
    until("frames of it", lambda: it.told().count("filming Fake_1") == 2)
    (it.folder / "set").write_text("REGION=20x30\n")
    until("a refusal", lambda: "another store" in state()["fault"])
    assert state()["words"] == {"EXPOSURE": "2000", "REGION": "40x30+8+4"}
    it.run.send_signal(signal.SIGTERM)
    assert it.wait() == 0, it.told()
    head, frames, rest = it.text()
    assert (head["W"], head["H"], rest) == ("40", "30", b"") and len(frames) > 10


def test_deep_samples_are_shifted_to_8_bits_where_that_is_asked(camera):
    it = camera(HEAD + "FORMAT=Mono16\nBITS=8\n", "--frames", "20")
    assert it.wait() == 0
    head, frames, _ = it.text()
    assert head["C"] == "mono"
    for (_, data), (number, *_) in zip(frames, it.log()):
        assert data == picture(number, "Mono16")[1::2]
    plus = int(it.says(r"tied to the system's clock: plus (-?\d+) us, by the first")[1])
    assert all(abs(micros - stamp // 1000 - plus) <= 1 for _, stamp, micros, _ in it.log())


def test_bayer_is_given_on_as_it_is(camera):
    it = camera(HEAD + "FORMAT=BayerRG8\n", "--frames", "20")
    assert it.wait() == 0
    head, frames, _ = it.text()
    assert head["C"] == "mono"
    assert [zlib.crc32(data) for _, data in frames] == [crc for *_, crc in it.log()]


@pytest.mark.parametrize(
    "format,asked,colour",
    [
        ("BayerRG8", "yuv420p", "420jpeg"),
        ("RGB8", None, "444"),
        ("RGB8", "yuv420p", "420jpeg"),
        ("RGB8", "yuv422p10le", "422p10"),
    ],
)
def test_colours_are_made_by_ffmpeg_and_keep_their_times(camera, format, asked, colour):
    it = camera(
        HEAD + f"FORMAT={format}\n" + (f"STORE_FORMAT={asked}\n" if asked else ""), "--frames", "30"
    )
    assert it.wait() == 0, it.told()
    head, frames, rest = it.text()
    assert head["C"] == colour and rest == b""
    # Whoever ends has given on what ffmpeg had.
    assert [time for time, _ in frames] == [micros for _, _, micros, _ in it.log()] and len(
        frames
    ) == 30
    assert len({data for _, data in frames}) > 20


@pytest.mark.parametrize(
    "more,says",
    [
        ("FORMAT=Mono12", "FORMAT=Mono12: "),
        ("REGION=5000x30", "REGION=5000x30: "),
        ("FEATURE_Nothing=3", "FEATURE_Nothing: the camera has no such feature"),
        ("PACKET=8000", "PACKET=8000 is for GigE Vision alone"),
        ("FORMAT=Mono8\nSTORE_FORMAT=yuv420p", "STORE_FORMAT=yuv420p: Mono8 gives gray$"),
        ("FORMAT=Mono16\nSTORE_FORMAT=gray", "Mono16 gives gray16le, or gray by BITS=8$"),
        ("FORMAT=Mono16\nREGION=2048x2048\nFEATURE_BinningHorizontal=1", None),
    ],
)
def test_what_the_camera_does_not_take_is_refused_by_its_word(more, says):
    def opened():
        return genicam.Camera(words.wanted(f"GENICAM=Fake_1\n{more}\n"), lambda _: None).form()

    if says is None:
        assert opened().bytes_of_frame() == 2 * 2048 * 2048
        return
    with pytest.raises((genicam.Refused, text.BadFrames), match=says):
        opened()


def test_a_refusal_ends_it_with_status_1(camera):
    it = camera(HEAD + "FORMAT=Mono12\n")
    assert it.wait() == 1
    assert "left: FORMAT=Mono12: " in it.told() and it.out.read_bytes() == b""


def test_a_signal_ends_it_with_status_0_after_a_whole_frame(camera):
    it = camera(HEAD + "FORMAT=Mono8\n")
    it.count(5)
    assert it.stop() == 0
    head, frames, rest = it.text()
    assert rest == b"" and len(frames) == len(it.log()) >= 5
    assert f"ended: {len(frames)} frames given on" in it.told()


def test_a_reader_that_goes_ends_it_with_status_1(tmp_path):
    (tmp_path / "left.camera").write_text(HEAD + "FORMAT=Mono8\n")
    run = subprocess.Popen(
        [PROGRAM, "left.camera"], cwd=tmp_path, stdout=subprocess.PIPE, stderr=subprocess.PIPE
    )
    assert run.stdout.read(14) == b"YUV4MPEG2 W40 "
    run.stdout.close()
    said = run.stderr.read().decode()
    run.stderr.close()
    assert run.wait(PATIENCE) == 1 and "nobody reads the frames any more" in said


def test_a_pipe_is_written_where_that_is_asked(camera, tmp_path):
    os.mkfifo(tmp_path / "pipe")
    it = camera(HEAD + "FORMAT=Mono8\n", "--frames", "3", "--to", "pipe")
    data = (tmp_path / "pipe").read_bytes()
    assert it.wait() == 0 and len(parsed(data)[1]) == 3 and it.out.read_bytes() == b""


def test_a_camera_that_is_not_there_is_waited_for(camera):
    it = camera("GENICAM=Fake_no\n")
    it.says("^left: waiting for Fake_no: Fake_no isn't found$")
    assert it.stop() == 0


@pytest.mark.parametrize(
    "given",
    [
        [],
        ["--frames", "0", "a"],
        ["a", "b"],
        ["--list", "a"],
        ["--what"],
        ["--fake", "a"],
        ["a", "--to"],
    ],
)
def test_other_words_are_status_2(given, capsys):
    assert program.main(given, "the text") == 2
    assert capsys.readouterr() == ("", "the text\n")


def test_a_file_that_can_not_be_read_is_told(tmp_path, capsys):
    assert program.main([str(tmp_path / "none.camera")], "") == 1
    assert capsys.readouterr().err == f"none: {tmp_path}/none.camera: No such file or directory\n"
    (tmp_path / "a.camera").write_text("RATE=3\n")
    done = subprocess.run([PROGRAM, "a.camera"], cwd=tmp_path, capture_output=True, text=True)
    assert done.returncode == 1 and done.stderr.startswith("a: a.camera: it wants either GENICAM")


def test_the_list_has_every_camera():
    done = subprocess.run([PROGRAM, "--list", "--fake"], capture_output=True, text=True)
    assert done.returncode == 0
    lines = done.stdout.splitlines()
    at = lines.index("GENICAM=Fake_1  Aravis Fake  Fake 0.0.0.0")
    assert "Mono8" in lines[at + 1].split() and "Mono16" in lines[at + 1].split()
    assert lines[at + 2].startswith("    largest 2048x2048; now 512x512 Mono8 25 a second of ")
