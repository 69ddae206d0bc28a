"""The files of chunk data: they have a bound, and the oldest go."""
import signal
import subprocess
import sys
from pathlib import Path

import pytest

from station_camera import chunks, words


def test_files_have_a_bound_by_lines_and_by_bytes(tmp_path, monkeypatch):
    monkeypatch.setattr(chunks, "LINES", 10)
    monkeypatch.setattr(chunks, "MOST", 1000)
    it = chunks.Files(tmp_path / "left", ["Gain"])
    for number in range(1000):
        it.write(1_000_000 + number, f"{number},{1_000_000 + number},{number % 7}\r\n")
    it.close()
    files = sorted((tmp_path / "left").iterdir())
    assert 3 < len(files) < 12 and sum(path.stat().st_size for path in files) < 1500
    rows = [line for path in files for line in path.read_text().splitlines()[1:]]
    first = 1000 - len(rows)
    assert rows == [f"{at},{1_000_000 + at},{at % 7}" for at in range(first, 1000)]
    assert [int(path.stem) for path in files] == [1_000_000 + at for at in range(first, 1000, 10)]


def test_a_clock_that_was_set_back_writes_over_no_file(tmp_path):
    for value in (1, 2):
        it = chunks.Chunks(tmp_path, ["Gain"], print)
        it.write(1, 5, [value])
        it.close()
    assert sorted(path.read_text()[-6:] for path in tmp_path.iterdir()) == ["1,5,1\n", "1,5,2\n"]


def test_without_the_word_nothing_is_written(tmp_path):
    it = chunks.Chunks(tmp_path / "left", [], print)
    it.write(1, 5, [])
    it.close()
    assert not list(tmp_path.iterdir())


def test_a_process_writes_that_may_where_its_own_program_may_not(tmp_path):
    """As the service has it: no file may have a byte, but for these."""
    code = (
        "import resource, sys; sys.path.insert(1, sys.argv[1])\n"
        "from pathlib import Path\nfrom station_camera import chunks\n"
        "resource.setrlimit(resource.RLIMIT_FSIZE, (0, 64_000_000))\n"
        "it = chunks.Chunks(Path('lines'), ['Gain', 'Text'], print)\n"
        "it.write(7, 5, [1.5, 'a,b'])\nit.close()\n"
        "try:\n    open('own', 'wb', buffering=0).write(b'x')\n"
        "except OSError:\n    print('may not')\n"
    )
    place = str(Path(chunks.__file__).resolve().parents[1])
    words_ = [sys.executable, "-B", "-c", code, place]
    done = subprocess.run(words_, cwd=tmp_path, capture_output=True, text=True)
    assert done.stdout == "may not\n", done.stderr
    (path,) = (tmp_path / "lines").iterdir()
    assert path.read_bytes() == b'number,time_us,Gain,Text\r\n7,5,1.5,"a,b"\r\n'


def test_a_disk_that_is_slow_holds_no_frame_up_and_is_told_once(tmp_path, monkeypatch):
    told = []
    it = chunks.Chunks(tmp_path / "left", ["Gain"], told.append)
    it.run.send_signal(signal.SIGSTOP)
    for number in range(20_000):
        it.write(number, number, [1.0])
    assert told == ["chunks aren't written for now: the disk is slow"]
    it.run.send_signal(signal.SIGCONT)
    it.close()
    (path,) = (tmp_path / "left").iterdir()
    rows = path.read_text().splitlines()[1:]
    assert rows == [f"{at},{at},1.0" for at in range(len(rows))] and len(rows) > 1000


def test_what_is_read_of_the_file(tmp_path):
    assert words.wanted("GENICAM=1\nCHUNKS=ExposureTime, Gain\n").chunks == ("ExposureTime", "Gain")
    assert words.wanted("GENICAM=1\n").chunks == ()
    for word in ("Gain,Gain", "a b", "Gain,", "../x"):
        with pytest.raises(words.BadFile, match="CHUNKS="):
            words.wanted(f'GENICAM=1\nCHUNKS="{word}"\n')
    with pytest.raises(words.BadFile, match="CHUNKS isn't a word beside DEVICE"):
        words.wanted("DEVICE=/dev/video0\nCHUNKS=Gain\n")
