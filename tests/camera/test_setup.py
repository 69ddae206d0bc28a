"""loop_setup, over Aravis' camera without hardware, with a systemd and a station that stand in."""
import functools
import grp
import os
import pwd
import re
import shutil
import subprocess
import sys
import tempfile
import tomllib
from fractions import Fraction
from pathlib import Path
from types import SimpleNamespace

import conftest
import pytest

from station_camera import disk, found, genicam, orders, pictures, presses, services, setup
from station_camera import v4l2, words, written
from station_camera.ask import Ask, Stopped
from station_camera.text import Form

FAKE = [
    "--fake",
    "--camera",
    "left",
    "--source",
    "Fake_1",
    "--format",
    "Mono8",
    "--size",
    "64x48",
    "--rate",
    "25",
]
SAMPLE = """# The cameras of the service.
orders = "/somewhere/orders"

# A test picture.
[[camera]]
name = "test"
source = "pattern"          # a picture
store = "test.loop"
minutes = 5                 # so much
release = true

# The camera of loop_camera@left.
#[[camera]]
#name = "left"
"""


# A network takes a second to be looked at, so once is enough.
cameras = functools.cache(genicam.cameras)


class Laboratory:
    """A root for a trial, the calls of systemctl, and a store that the station fills."""

    def __init__(self, root, monkeypatch):
        self.root, self.calls, self.next, self.runs, self.frames = root, [], 0, set(), []
        # Those of FAKE for two minutes.
        self.geometry = SimpleNamespace(
            width=64, height=48, size=3072, num=25, den=1, disk_size=lambda: 9_600_000
        )
        self.etc = root / "etc/lapyrei"
        monkeypatch.setattr(services, "run", self.systemctl)
        monkeypatch.setattr(services, "is_active", lambda unit: unit in self.runs)
        monkeypatch.setattr(services, "store_at", self.store)
        monkeypatch.setattr(setup, "FIRST_FRAME", 1.0)
        # A busy machine may take its time for a picture.
        monkeypatch.setattr(pictures, "SECONDS", 200.0)
        monkeypatch.setattr(disk, "SECONDS", 0.05)
        monkeypatch.setattr(disk, "SYNCS", 3)
        monkeypatch.setattr(genicam, "cameras", cameras)
        self.records = True

    def systemctl(self, *given):
        self.calls.append(" ".join(given))
        if given[0] == "restart":
            self.runs.add(given[1])
            if given[1] == "loop_camera@left.service" and self.records:
                self.next += 10
        if given[0] == "stop":
            self.runs.discard(given[1])

    def store(self, _path):
        if not self.next:
            return None
        return SimpleNamespace(next=self.next, geometry=self.geometry, frames=self.frames)

    def run(self, *given, answers=None):
        replies = iter(answers or [])

        def read(_prompt):
            try:
                return next(replies)
            except StopIteration:
                raise EOFError from None

        ask = Ask("--yes" in given, read)
        return setup.main(["--root", str(self.root), *given], "", ask)

    def config(self):
        return tomllib.loads((self.etc / "station.toml").read_text())

    def camera(self, name="left"):
        return words.wanted((self.etc / f"{name}.camera").read_text())


@pytest.fixture
def laboratory(tmp_path, tmp_path_factory, monkeypatch):
    # Pictures for which no folder is named stay where they are made.
    monkeypatch.setattr(tempfile, "tempdir", str(tmp_path_factory.mktemp("pictures")))
    return Laboratory(tmp_path, monkeypatch)


def test_options_alone_set_up_a_camera_and_wait_for_its_first_frame(laboratory, capsys):
    assert (
        laboratory.run(*FAKE, "--minutes", "2", "--page", "--yes", "--folder", str(laboratory.root))
        == 0
    )
    told = capsys.readouterr().out
    assert laboratory.camera() == words.wanted(
        "GENICAM=Fake_1\nREGION=64x48\nFORMAT=Mono8\nRATE=25\n"
    )
    (camera,) = laboratory.config()["camera"]
    assert camera == {
        "name": "left",
        "source": f"{laboratory.root}/run/loop_camera/left.y4m",
        "store": "left.loop",
        "minutes": 2,
        "keep": 30,
        "times_from": "source",
        "save_to": f"{laboratory.root}/var/lib/loop_station/clips",
        "release": True,
        "when_full": "release oldest",
    }
    assert laboratory.config()["answers_form"] == "json"
    units = ["loop_station.service", "loop_camera@left.service", "loop_page.service"]
    assert laboratory.calls == [
        "daemon-reload",
        "enable " + " ".join(units),
        *(f"restart {it}" for it in units),
    ]
    assert (laboratory.root / "left.png").read_bytes().startswith(b"\x89PNG")
    for line in (
        f"a picture is in {laboratory.root}/left.png: 64x48 gray",
        "it writes ",
        "the store takes 9.",
        "2 minutes, 9.9 MB: 3 presses of 30 s (2.3 MB each) at once; the disk has room for ",
        "left records: frame 9 is in",
        "the page: http://127.0.0.1:8080/  its token: sudo cat ",
        f"keep what has just happened: echo keep left >{laboratory.root}/run/loop_station/orders\n",
    ):
        assert line in told, told
    token = laboratory.etc / "page.token"
    assert len(token.read_text().strip()) >= 32 and token.stat().st_mode & 0o077 == 0


def test_a_stranger_answers_questions(laboratory, capsys):
    # The camera, its name, Mono8, size and rate, each keep is written, so many minutes, no page.
    offers = found.offers(True, print)
    many = [] if len(offers) == 1 else ["1"]
    formats = offers[0].formats
    answers = [
        *many,
        "left cam",
        "desk",
        str(formats.index("Mono16") + 1),
        "32x24",
        "nonsense",
        "20",
        "",
        "1",
        "n",
    ]
    assert laboratory.run("--fake", "--no-start", "--no-picture", answers=answers) == 0
    told = capsys.readouterr().out
    assert "left cam: 1 to 32 letters" in told and "nonsense: RATE=nonsense isn't a rate" in told
    assert laboratory.camera("desk") == words.wanted(
        "GENICAM=Fake_1\nREGION=32x24\nFORMAT=Mono16\nRATE=20\n"
    )
    assert laboratory.config()["camera"][0]["minutes"] == 1
    assert not (laboratory.etc / "page.token").exists() and laboratory.calls == []


def test_nothing_is_written_where_nobody_answers(laboratory, capsys):
    assert laboratory.run(*FAKE, "--no-picture", answers=[]) == 1
    assert "no answer, and nothing was changed" in capsys.readouterr().err
    assert not laboratory.etc.exists()


def test_run_again_it_changes_what_is_there_and_old_files_stay(laboratory, capsys):
    laboratory.etc.mkdir(parents=True)
    (laboratory.etc / "station.toml").write_text(SAMPLE)
    assert laboratory.run(*FAKE, "--minutes", "2", "--no-page", "--yes", "--no-picture") == 0
    file = laboratory.etc / "left.camera"
    file.write_text(file.read_text() + "# mine\nFEATURE_GainAuto=Off\nEXPOSURE=500\n")
    again = [*FAKE[:-1], "30", "--minutes", "3", "--no-page", "--yes", "--no-picture"]
    assert laboratory.run(*again) == 0
    assert file.read_text() == (
        "GENICAM=Fake_1\nREGION=64x48\nFORMAT=Mono8\nRATE=30\n# mine\nFEATURE_GainAuto=Off\n"
        "EXPOSURE=500\n"
    )
    text = (laboratory.etc / "station.toml").read_text()
    assert [it["name"] for it in laboratory.config()["camera"]] == ["test", "left"]
    assert (
        laboratory.config()["camera"][1]["minutes"] == 3
        and laboratory.config()["orders"] == "/somewhere/orders"
    )
    assert (
        "# A test picture.\n[[camera]]" in text
        and "minutes = 5                 # so much\n" in text
    )
    olds = sorted(it.name for it in laboratory.etc.iterdir())
    assert (
        sum(it.startswith("station.toml.") for it in olds) == 2
        and sum(it.startswith("left.camera.") for it in olds) == 1
    )
    assert SAMPLE in [it.read_text() for it in laboratory.etc.glob("station.toml.*")]
    capsys.readouterr()


def test_what_was_changed_at_the_page_is_forgotten_once_the_camera_is_set(laboratory, capsys):
    changed = laboratory.root / "var/lib/loop_page/cameras/left.camera"
    changed.parent.mkdir(parents=True)
    changed.write_text("EXPOSURE=2000\n")
    words = [*FAKE, "--minutes", "2", "--no-page", "--yes", "--no-picture"]
    assert laboratory.run(*words) == 0 and not changed.exists()
    assert "what was changed of left at the page is forgotten" in capsys.readouterr().out
    changed.write_text("EXPOSURE=2000\n")
    assert laboratory.run("--remove", "left") == 0 and not changed.exists()


def test_a_camera_is_removed_and_its_store_stays(laboratory, capsys):
    assert laboratory.run(*FAKE, "--minutes", "2", "--no-page", "--yes", "--no-picture") == 0
    store = laboratory.root / "var/lib/loop_station/left.loop"
    store.write_text("footage")
    laboratory.calls.clear()
    assert laboratory.run("--remove", "left") == 0
    assert "camera" not in laboratory.config() and store.read_text() == "footage"
    assert (
        not (laboratory.etc / "left.camera").exists()
        and (laboratory.etc / "left.camera.removed").exists()
    )
    assert laboratory.calls == [
        "disable --now loop_camera@left.service",
        "stop loop_station.service",
    ]
    capsys.readouterr()
    assert laboratory.run("--remove", "left") == 1
    assert "has no camera left" in capsys.readouterr().err


def test_a_store_of_other_frames_is_moved_away_where_that_is_wanted(laboratory, capsys):
    store = laboratory.root / "var/lib/loop_station/left.loop"
    store.parent.mkdir(parents=True)
    store.write_text("footage")
    laboratory.geometry = SimpleNamespace(
        width=32, height=24, size=768, num=25, den=1, disk_size=lambda: 9
    )
    laboratory.next = 5
    assert (
        laboratory.run(
            *FAKE, "--minutes", "2", "--no-page", "--yes", "--no-picture", "--move-store"
        )
        == 0
    )
    (moved,) = store.parent.glob("left.loop.*")
    assert moved.read_text() == "footage" and not store.exists()
    assert f"{store} is {moved} now" in capsys.readouterr().out


@pytest.mark.parametrize("bits, is_moved", [(16, False), (12, True)])
def test_a_store_of_other_bits_is_moved_away(laboratory, capsys, bits, is_moved):
    store = laboratory.root / "var/lib/loop_station/left.loop"
    store.parent.mkdir(parents=True)
    store.write_text("footage")
    size = disk.store_bytes(Form(64, 48, "gray16le", Fraction(25)), 2)
    laboratory.geometry = SimpleNamespace(
        width=128, height=48, size=6144, num=25, den=1, disk_size=lambda: size
    )
    laboratory.next, laboratory.frames = 5, [SimpleNamespace(flags=0x2000 | bits << 24)]
    given = [*FAKE, "--format", "Mono16", "--minutes", "2", "--no-page", "--yes", "--no-picture"]
    assert laboratory.run(*given, "--move-store") == 0
    assert store.exists() != is_moved
    assert (f"{store} is " in capsys.readouterr().out) == is_moved


def test_times_that_are_not_wanted_are_those_of_the_arrival(laboratory):
    laboratory.etc.mkdir(parents=True)
    (laboratory.etc / "left.camera").write_text("GENICAM=Fake_1\nCLOCK=arrival\n")
    assert laboratory.run(*FAKE, "--minutes", "2", "--no-page", "--yes", "--no-picture") == 0
    (camera,) = laboratory.config()["camera"]
    assert "times_from" not in camera


def test_where_no_frame_comes_that_is_said(laboratory, capsys):
    laboratory.records = False
    assert laboratory.run(*FAKE, "--minutes", "2", "--no-page", "--yes", "--no-picture") == 1
    assert (
        "no frame was stored in 1 s: journalctl -u loop_station -u loop_camera@left"
        in capsys.readouterr().err
    )


def test_a_picture_that_does_not_come_changes_nothing(laboratory, capsys, monkeypatch):
    # The camera takes no such format.
    monkeypatch.setattr(
        found,
        "of_genicam",
        lambda it, plain=found.of_genicam: plain(it)._replace(formats=["Mono12"]),
    )
    assert (
        laboratory.run(
            "--fake", "--source", "Fake_1", "--format", "Mono12", "--yes", "--minutes", "1"
        )
        == 1
    )
    assert "no picture came: left: FORMAT=Mono12: " in capsys.readouterr().err
    assert not laboratory.etc.exists()


@pytest.mark.parametrize(
    "more,says",
    [
        (["--source", "Fake_9"], "no camera Fake_9 is found; there are: Fake_1"),
        (["--format", "Mono12"], "--format Mono12: it gives "),
        (["--size", "64"], "size=64"),
        (["--rate", "0"], "RATE=0"),
        (["--camera", "12"], "12: 1 to 32 letters"),
        (["--minutes", "100000"], "a store holds "),
        (["--minutes", "x"], "x is no number of minutes"),
        (["--size", "9000x9000"], "81000000 bytes"),
    ],
)
def test_what_can_not_be_is_refused_and_nothing_is_written(laboratory, capsys, more, says):
    assert laboratory.run(*FAKE, "--no-picture", "--no-page", "--yes", "--minutes", "1", *more) == 1
    assert says in capsys.readouterr().err
    assert not laboratory.etc.exists()


def test_a_device_is_set_up_by_its_modes(laboratory, capsys, monkeypatch):
    modes = [v4l2.Mode("YUYV", 640, 480, ["30", "15"]), v4l2.Mode("Y12", 320, 240, [])]
    monkeypatch.setattr(v4l2, "devices", lambda: [v4l2.Found("/dev/video7", "A webcam", modes)])
    given = [
        "--source",
        "/dev/video7",
        "--no-picture",
        "--no-page",
        "--no-start",
        "--yes",
        "--minutes",
        "1",
    ]
    assert laboratory.run(*given, "--camera", "web") == 0
    assert (laboratory.etc / "web.camera").read_text() == (
        "DEVICE=/dev/video7\nDEVICE_FORMAT=YUYV\nSIZE=640x480\nRATE=30\n"
    )
    assert laboratory.run(*given, "--camera", "deep", "--format", "Y12") == 0
    assert (
        laboratory.etc / "deep.camera"
    ).read_text() == "DEVICE=/dev/video7\nDEVICE_FORMAT=Y12\nSIZE=320x240\nRATE=30\n"
    assert [it["name"] for it in laboratory.config()["camera"]] == ["web", "deep"]
    # Its frames have the kernel's times.
    assert {it["times_from"] for it in laboratory.config()["camera"]} == {"source"}
    capsys.readouterr()


# What a machine may lack: each is a module that isn't there.
LACKS = {
    "gi": "raise ImportError('No module named gi')",
    "gi without Aravis": "def require_version(*_):\n    raise ValueError('not available')",
    "numpy": "raise ImportError('No module named numpy')",
}


def lacking(folder, *names):
    """An environment in which modules are missing, and no program is on the path."""
    for name in names:
        (folder / f"{name.split()[0]}.py").write_text(LACKS[name])
    return {**os.environ, "PYTHONPATH": str(folder), "PATH": str(folder)}


@pytest.mark.parametrize("names", [["gi", "numpy"], ["gi without Aravis"], ["numpy"]])
@pytest.mark.parametrize("given", [["--list"], ["--root", "root", "--yes", "--source", "none"]])
def test_what_is_missing_is_told_in_one_sentence(tmp_path, names, given):
    done = subprocess.run(
        [sys.executable, conftest.SETUP, *given],
        cwd=tmp_path,
        env=lacking(tmp_path, *names),
        stdin=subprocess.DEVNULL,
        capture_output=True,
        text=True,
    )
    said = done.stdout + done.stderr
    assert "Traceback" not in said and done.returncode == (given != ["--list"]), said
    assert said.count("sudo apt install python3-gi gir1.2-aravis-0.8 python3-numpy") == 1


def test_a_fault_of_its_own_is_one_sentence(laboratory, capsys, monkeypatch):
    monkeypatch.setattr(found, "offers", lambda *_: 1 / 0)
    assert laboratory.run("--yes") == 1
    said = capsys.readouterr().err
    assert said.startswith("loop_setup: a fault of its own, which is to be told: ZeroDivisionError")
    assert said.count("\n") == 1 and re.search(r"\(test_setup.py:\d+\)$", said)


def test_incomplete_frames_are_told(laboratory, capsys, monkeypatch):
    taken = pictures.Taken(
        Form(64, 48, "gray", Fraction(25)), 24.0, laboratory.root / "a.png", "2 frames incomplete"
    )
    monkeypatch.setattr(pictures, "take", lambda *_: taken)
    assert laboratory.run(*FAKE, "--minutes", "1", "--no-page", "--yes") == 0
    assert "while it was taken: 2 frames incomplete\n" in capsys.readouterr().out


def test_what_loop_camera_counted_is_read():
    end = "left: ended: 9 frames given on, 1 frame incomplete and dropped, 3 packets missing"
    assert pictures.missed_in(["left: so", end]) == (
        "1 frame incomplete and dropped, 3 packets missing"
    )
    assert pictures.missed_in(["left: ended: 9 frames given on"]) == "" == pictures.missed_in([])


@pytest.fixture
def nobody(tmp_path):
    """Another user, who reads what is tried, and a folder of nobody's."""
    if os.geteuid():
        pytest.skip("only root takes another user")
    readable = subprocess.run(
        [sys.executable, "-c", f"open({pictures.__file__!r}); open({str(pictures.PROGRAM)!r})"],
        capture_output=True,
        **pictures.user_of("nobody"),
    )
    if readable.returncode:
        pytest.skip("nobody reads these sources")
    return "nobody"


def test_a_picture_is_taken_as_the_services_user(tmp_path, monkeypatch, nobody):
    monkeypatch.setattr(pictures, "USER", nobody)
    monkeypatch.setattr(pictures, "MEASURED", 0.2)
    program = tmp_path / "loop_camera"
    program.write_text(
        "import os, sys\nsys.stderr.write(open(sys.argv[1]).read())\n"
        "sys.stderr.write(f'{os.getuid()} {os.getgroups()} no more\\n')\n"
    )
    with tempfile.TemporaryDirectory() as place:
        os.chmod(place, 0o755)
        monkeypatch.setattr(pictures, "PROGRAM", shutil.copy(program, place))
        with pytest.raises(pictures.Failed) as fault:
            pictures.take("GENICAM=1\n", "left", tmp_path, True)
    video = grp.getgrnam("video").gr_gid
    said = re.fullmatch(r"no picture came: (\d+) \[(.*)\] no more", str(fault.value))
    assert int(said[1]) == pwd.getpwnam(nobody).pw_uid and str(video) in said[2].split(", ")


def test_the_disk_is_measured_as_the_stations_user(tmp_path, nobody):
    own = pictures.user_of(nobody)
    with tempfile.TemporaryDirectory() as place:
        with pytest.raises(PermissionError):
            disk.measured_by(Path(place), own)
        os.chmod(place, 0o777)
        found = disk.measured_by(Path(place), own)
    assert found.bandwidth > 0 and found.free > 0 and found == disk.Disk(*found)


def test_nobody_else_is_taken_where_there_is_no_such_user():
    assert pictures.user_of("no_such_user") == {}


def test_other_words_are_status_2(laboratory, capsys):
    assert laboratory.run("--what") == 2
    assert "--what" in capsys.readouterr().err


@pytest.mark.parametrize(
    "wide,high,minutes,rate,segments,slots",
    [
        (640, 480, 1, 25, 25, 64),
        (640, 480, 5, 30, 64, 143),
        (640, 480, 10, 25, 64, 239),
        # Small frames: 13,824 and 57,600 bytes.
        (128, 72, 2, 25, 25, 128),
        (128, 72, 3, 25, 19, 256),
        (240, 160, 3, 25, 37, 128),
        (240, 160, 1, 25, 25, 64),
    ],
)
def test_a_store_takes_what_the_stations_rule_says(wide, high, minutes, rate, segments, slots):
    form = Form(wide, high, "yuv420p", Fraction(rate))
    size = wide * high * 3 // 2
    assert disk.store_bytes(form, minutes) == 2560 + segments * (512 + slots * (32 + size))
    assert disk.store_bytes(form, 12) is None or rate < 25


def test_station_toml_is_changed_by_words_and_stays_toml():
    text = written.with_camera(
        SAMPLE, "left", {"source": 'a"b', "minutes": 2.5}, {"orders": "x", "saves": "y"}, "f"
    )
    table = tomllib.loads(text)
    assert table["orders"] == "/somewhere/orders" and table["saves"] == "y"
    assert table["camera"][1] == {"name": "left", "source": 'a"b', "minutes": 2.5}
    assert tomllib.loads(written.without_camera(text, "test", "f"))["camera"] == table["camera"][1:]
    assert written.without_camera(text, "none", "f") is None
    with pytest.raises(words.BadFile, match="f: "):
        written.with_camera("= 3", "left", {}, {}, "f")


def test_a_prompt_is_asked_again_until_it_is_answered():
    replies = iter(["9", "x", "2", "maybe", "y"])
    ask = Ask(False, lambda _: next(replies))
    assert ask.one_of("which", ["a", "b"]) == 1 and ask.yes("so", False) is True
    with pytest.raises(Stopped):
        Ask(True).text("size", "8", "nine", lambda word: "no number" if word == "nine" else None)


# ------------------------------------------------------------------------------ what a press does


GIVEN = [*FAKE, "--no-page", "--yes", "--no-picture", "--no-start"]


def test_the_words_of_a_keep_are_those_of_the_packages_own_camera(laboratory):
    """So no press ends the recording."""
    (packaged,) = tomllib.loads((conftest.TOP / "packaging/station.toml").read_text())["camera"]
    assert laboratory.run(*GIVEN) == 0
    (camera,) = laboratory.config()["camera"]
    assert {it: camera[it] for it in ("keep", "minutes", "release")} == {
        it: packaged[it] for it in ("keep", "minutes", "release")
    }
    # It saves where the station lets it.
    assert camera["save_to"] == laboratory.config()["saves"]
    assert Path(packaged["save_to"]).name == Path(camera["save_to"]).name


def test_what_the_file_says_of_a_release_stays_unless_it_is_asked_for(laboratory, capsys):
    """Where loop_archive releases, the station doesn't."""
    laboratory.etc.mkdir(parents=True)
    plain = 'saves = "/data"\n[[camera]]\nname = "left"\nminutes = 5\n'
    for text, more, wanted in (
        (plain, [], (None, None)),
        (plain, ["--release"], ("/data", True)),
        (plain + 'save_to = "/mine"\nrelease = false\n', [], ("/mine", False)),
        (plain + 'save_to = "/mine"\nrelease = true\n', [], ("/mine", True)),
        (plain + 'save_to = "/mine"\nrelease = true\n', ["--no-release"], ("/mine", False)),
    ):
        (laboratory.etc / "station.toml").write_text(text)
        assert laboratory.run(*GIVEN, "--minutes", "5", *more) == 0
        (camera,) = laboratory.config()["camera"]
        assert (camera.get("save_to"), camera.get("release")) == wanted, (text, more)
        said = capsys.readouterr().out
        assert ("and then frames wait until one is released" in said) == (wanted[1] is not True)


@pytest.mark.parametrize(
    "more, says",
    [
        (["--minutes", "0.05"], "0.05 minutes: a keep of 30 s locks all of the store, and the "
         "recording ends: choose 1 or more, or a shorter --keep"),
        (["--minutes", "2", "--keep", "200"], "choose 5 or more, or a shorter --keep"),
        (["--minutes", "5", "--keep", "600"], "recording ends: choose a shorter --keep"),
        (["--minutes", "5", "--keep", "x"], "--keep x is no number"),
        (["--minutes", "5", "--keep", "0"], "isn't from 1"),
        (["--keep", "80000"], "a keep of 80000 s leaves any"),
    ],
)
def test_minutes_that_a_keep_would_lock_are_refused(laboratory, capsys, more, says):
    assert laboratory.run(*GIVEN, *more) == 1
    assert says in capsys.readouterr().err
    assert not laboratory.etc.exists()


def test_an_event_that_goes_on_locks_more(laboratory, capsys):
    laboratory.etc.mkdir(parents=True)
    (laboratory.etc / "station.toml").write_text('[[camera]]\nname = "left"\nafter = 600\n')
    assert laboratory.run(*GIVEN, "--minutes", "5") == 1
    assert "a keep of 630 s locks all" in capsys.readouterr().err


@pytest.mark.parametrize("has, is_taken", [(False, False), (True, True)])
def test_minutes_that_the_disk_has_no_room_for_are_refused(
    laboratory, capsys, monkeypatch, has, is_taken
):
    """Unless the store is there already."""
    monkeypatch.setattr(disk, "measured", lambda _: disk.Disk(1e9, 1.0, 1.0, 5_000_000))
    if has:
        laboratory.next = 5
    assert (laboratory.run(*GIVEN, "--minutes", "2") == 0) == is_taken
    said = capsys.readouterr().err
    assert is_taken or "2 minutes take 9.9 MB, and 5.0 MB are free" in said


def test_the_choices_say_how_long_how_large_and_how_many_presses(laboratory, capsys):
    answers = ["", "3", "n"]
    given = [*FAKE, "--no-picture", "--no-start"]
    assert laboratory.run(*given, "--camera", "left", answers=answers) == 0
    said = capsys.readouterr().out
    rows = re.findall(
        r"^  (\d+)  ([\d.]+) minutes, [\d.]+ .B: (\d+) press(?:es)? of 30 s \(2.3 MB each\) "
        r"at once; the disk has room for \d+ saved ones$", said, re.M)
    assert [(row[1], row[2]) for row in rows][:4] == [
        ("1", "1"), ("2", "3"), ("5", "7"), ("10", "14")]
    assert laboratory.config()["camera"][0]["minutes"] == 5


@pytest.mark.parametrize("minutes", [0.5, 1, 2, 5, 10])
@pytest.mark.parametrize("keep", [1, 30, 90])
def test_so_many_presses_leave_room_and_one_more_does_not(minutes, keep):
    """By a plain count of blocks: each keep begins at the last frame of one, far from others."""
    form = Form(640, 480, "yuv420p", Fraction(25))
    segments, slots = disk.shape(form, minutes)
    found = presses.choice(form, minutes, keep, 10**12)
    frames, locked, count = keep * 25, set(), 0
    while True:
        start = count * 1_000_000 * slots + slots - 1
        locked |= {number // slots for number in range(start, start + frames)}
        if len(locked) > segments - 2:
            break
        count += 1
    assert found.presses == count
    assert found.kept == frames * 460_800 and found.size == disk.store_bytes(form, minutes)


# ------------------------------------------------------------------------------------ the group


@pytest.fixture
def ordering(laboratory, monkeypatch):
    """What loop_setup prints as the command that keeps, for a user, and what it did for that."""

    def one(user, members=(), given=None, why=None, is_known=True):
        added, said = [], []
        monkeypatch.setenv("SUDO_USER", user)
        monkeypatch.setattr(orders, "is_member", lambda name: name in members)
        monkeypatch.setattr(orders, "is_known_here", lambda _: is_known)
        monkeypatch.setattr(orders, "add", lambda name: added.append(name) or why)
        monkeypatch.setattr(setup.Setup, "is_real", lambda _: True)
        words_ = setup.parser().parse_args(["--root", str(laboratory.root), *(given or [])])
        it = setup.Setup(words_, Ask(True), said.append)
        return it.order("left"), added, said

    return one


def test_the_last_line_works_as_printed(ordering, laboratory):
    pipe = laboratory.root / "run/loop_station/orders"
    plain = f"echo keep left >{pipe}"
    assert ordering("root") == ordering("") == (plain, [], [])
    assert ordering("anna", ["anna"]) == (plain, [], [])
    # Who was added in this window has its group by sg alone, for each further camera too.
    by_group = f"sg loop_station -c '{plain}'"
    assert ordering("anna", ["anna"], is_known=False) == (by_group, [], [])
    command, added, said = ordering("anna")
    assert (command, added) == (by_group, ["anna"])
    assert "anna is in" in said[0]
    refused = f"echo keep left | sudo tee {pipe}", "sudo usermod -aG loop_station anna"
    command, added, said = ordering("anna", given=["--no-group"])
    assert (command, added) == (refused[0], []) and said[0].endswith(refused[1])
    command, added, said = ordering("anna", why="no such user")
    assert (command, added) == (refused[0], ["anna"]) and "no such user" in said[0]
    assert said[1].endswith(refused[1])


@pytest.mark.skipif(os.geteuid() != 0, reason="only root has a window of another user")
@pytest.mark.parametrize("groups, is_known", [([], False), (["video"], True)])
def test_a_window_knows_the_groups_with_which_its_user_signed_in(monkeypatch, groups, is_known):
    monkeypatch.setattr(orders, "GROUP", "video")
    assert orders.is_known_here("no such user")
    window = os.fork()
    if not window:
        # As sudo is called: the user is nobody's, and what it runs is root's.
        os.setgroups([grp.getgrnam(it).gr_gid for it in groups])
        os.setresuid(pwd.getpwnam("nobody").pw_uid, 0, 0)
        program = os.fork()
        if not program:
            os.setresuid(0, 0, 0)
            os._exit(orders.is_known_here("nobody"))
        os._exit(os.waitstatus_to_exitcode(os.waitpid(program, 0)[1]))
    assert os.waitstatus_to_exitcode(os.waitpid(window, 0)[1]) == is_known


def test_the_last_line_gives_an_order_to_the_pipe_of_the_file(ordering, laboratory):
    laboratory.etc.mkdir(parents=True)
    pipe = laboratory.root / "pipe"
    os.mkfifo(pipe)
    (laboratory.etc / "station.toml").write_text(f'orders = "{pipe}"\n')
    with open(os.open(pipe, os.O_RDONLY | os.O_NONBLOCK)) as read:
        subprocess.run(["sh", "-c", ordering("root")[0]], check=True)
        assert read.readline() == "keep left\n"


def test_a_station_that_runs_follows_its_file(laboratory, capsys):
    """Where its file has no pipe of orders, or other words than cameras change, it begins anew."""
    laboratory.runs.add("loop_station.service")
    given = [*FAKE, "--page", "--yes", "--no-picture", "--minutes"]
    assert laboratory.run(*given, "2") == 0
    assert "the station begins anew: every camera pauses for a moment\n" in capsys.readouterr().out
    laboratory.calls.clear()
    assert laboratory.run(*given, "3") == 0
    assert "reads its file anew: all other cameras go on\n" in capsys.readouterr().out
    assert laboratory.calls[2:] == [
        "reload loop_station.service",
        "restart loop_camera@left.service",
    ]
    text = (laboratory.etc / "station.toml").read_text()
    (laboratory.etc / "station.toml").write_text(text + '[[camera]]\nname = "right"\n')
    laboratory.calls.clear()
    assert laboratory.run("--remove", "left") == 0
    assert laboratory.calls == [
        "disable --now loop_camera@left.service",
        "reload loop_station.service",
    ]


@pytest.mark.parametrize("is_released", [True, False])
def test_no_press_ends_the_recording_unless_clips_stay_locked(laboratory, is_released):
    word = "--release" if is_released else "--no-release"
    assert laboratory.run(*FAKE, "--minutes", "2", word, "--no-page", "--yes", "--no-picture") == 0
    (camera,) = laboratory.config()["camera"]
    assert camera["when_full"] == ("release oldest" if is_released else "stop")


def test_a_camera_that_was_there_before_keeps_what_it_does_where_all_is_locked(laboratory):
    laboratory.etc.mkdir(parents=True)
    (laboratory.etc / "station.toml").write_text('[[camera]]\nname = "left"\nminutes = 2\n')
    assert laboratory.run(*FAKE, "--minutes", "2", "--no-page", "--yes", "--no-picture") == 0
    assert "when_full" not in laboratory.config()["camera"][0]
