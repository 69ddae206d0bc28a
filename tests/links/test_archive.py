"""loop_archive: clips of a station go to a WebDAV server by rclone, are compared there, and are
released only then."""
import hashlib
import http.client
import http.server
import json
import os
import queue
import re
import shutil
import signal
import stat
import sys
import threading
import time
import types
from pathlib import Path

import conftest
import pytest
from conftest import SEVERAL, neighbour

sys.path.insert(1, str(SEVERAL))
from station_links import archive as program
from station_links import threads
from station_links.settings import BadSettings

# A ring of minutes, so that nothing that a test keeps is overwritten on a slow machine.
CAMERAS = [
    {"name": "left", "pattern": "32x24 GREY 20:1", "segments": 32, "slots": 128},
    {"name": "right", "pattern": "33x21 YM12 20:1", "segments": 32, "slots": 128},
]
# rclone is run some times for each clip, which takes long where other programs have the processors.
PATIENCE = 600
LISTENS = re.compile(r"http://127\.0\.0\.1:(\d+)/")


def until(reached, what):
    """Waits for a state, and answers it."""
    return conftest.until(reached, what, PATIENCE)


class Dav:
    """A WebDAV server over a folder."""

    def __init__(self, folder, begin):
        self.folder, self.begin, self.port, self.run = Path(folder), begin, 0, None
        self.folder.mkdir()

    def start(self):
        """Starts it, at the port that it had."""
        # What a test changes past it is seen at once.
        words = ["--addr", f"127.0.0.1:{self.port}", "--dir-cache-time", "0s"]
        self.run = self.begin("rclone", "serve", "webdav", str(self.folder), *words)
        found = until(lambda: LISTENS.search(self.run.printed()), "WebDAV server")
        self.port = int(found[1])
        return self

    def place(self):
        """The place, as rclone names it."""
        return f":webdav,url='http://127.0.0.1:{self.port}',vendor='other':kept"

    def files(self, kind="y4m"):
        """The files of a kind that have their names, each with what is in it."""
        return {
            path.name: path.read_bytes()
            for path in sorted((self.folder / "kept").glob(f"*/*.{kind}"))
        }

    def notes(self):
        """The notes of what is in the archive, by name."""
        return {name[:-5]: json.loads(text)["note"] for name, text in self.files("json").items()}

    def times(self):
        """When each file was written."""
        found = (self.folder / "kept").glob("*/*")
        return {path: path.stat().st_mtime_ns for path in found if path.is_file()}

    def incoming(self):
        """What lies below `.incoming`."""
        return [path for path in (self.folder / "kept" / ".incoming").rglob("*") if path.is_file()]


class Archive:
    """A loop_archive beside a station, with its file."""

    def __init__(self, station, begin, **words):
        self.station, self.begin, self.words, self.run = station, begin, words, None
        self.path = station.folder / "archive.toml"
        self.state = station.folder / "archive.json"

    def start(self, path="", **words):
        """Starts it. `path` comes before that of the programs."""
        whole = {"url": f"http://127.0.0.1:{self.station.port}/", "state": str(self.state)}
        whole |= self.words | words
        self.path.write_text("\n".join(f"{key} = {json.dumps(it)}" for key, it in whole.items()))
        where = os.environ["PATH"]
        self.run = self.begin(
            str(SEVERAL / "loop_archive"),
            str(self.path),
            folder=self.station.folder,
            env=dict(os.environ, PATH=f"{path}:{where}" if path else where),
        )
        return self

    def told(self):
        """How it says that it stands."""
        try:
            return json.loads(self.state.read_text())
        except (OSError, ValueError):
            return {"archived": [], "cameras": [], "fault": "", "waiting": []}

    def camera(self, name="left"):
        """How a camera stands."""
        return next((it for it in self.told()["cameras"] if it["name"] == name), {"fault": ""})

    def has(self, count):
        """Waits until so many clips are archived."""
        until(lambda: len(self.told()["archived"]) >= count, f"{count} archived clips")
        return self


@pytest.fixture
def dav(tmp_path, begin):
    """A WebDAV server."""
    return Dav(tmp_path / "dav", begin).start()


@pytest.fixture
def station(make_station):
    """A station with its page."""
    return make_station(cameras=CAMERAS).filmed().filmed(name="right")


@pytest.fixture
def make(station, dav, begin):
    """Makes loop_archives beside the station."""
    return lambda **words: Archive(station, begin, **{"archive": dav.place()} | words)


def clips_of(station):
    """What is held."""
    return station.ask("/api/clips").json()["clips"]


def note(station, clip, text):
    """Writes a note beside a clip, once the page has seen it."""
    body = {"camera": "left", "id": clip["id"], "first": clip["first"], "note": text}
    until(lambda: station.post("/api/note", body).status == 200, "note")


# --------------------------------------------------------------------------- what is in the archive


def test_each_clip_is_in_the_archive_byte_for_byte(station, dav, make):
    station.keep(2, note="run 7")
    assert station.post("/api/keep", {"camera": "right", "seconds": 1}).status == 200
    make().start().has(2)
    wanted = {}
    for clip in clips_of(station):
        stamp = re.sub(r"\.\d+Z", "Z", clip["from"]).replace(":", "-")
        name = f"{clip['camera']}_{stamp}_{clip['first']}-{clip['last']}"
        name += f"_{clip['id']}_{clip['event']}"
        wanted[name] = clip
        assert dav.files()[f"{name}.y4m"] == station.text_of(clip["camera"], clip)
        lines = dav.files("csv")[f"{name}.csv"].decode().splitlines()[1:]
        numbers = [int(line.split(",")[0]) for line in lines]
        assert numbers == list(range(clip["first"], clip["last"] + 1))
        words = json.loads(dav.files("json")[f"{name}.json"])
        assert all(words[it] == clip[it] for it in ("camera", "from", "to", "note"))
    assert len(wanted) == len(dav.files()) == 2 and "run 7" in dav.notes().values()
    assert not dav.incoming()


def test_without_the_word_nothing_is_released(station, make):
    station.keep(1)
    archive = make().start().has(1)
    station.keep(1)
    archive.has(2)
    assert len(clips_of(station)) == 2 and not station.told("released")


def test_what_is_archived_is_released_where_that_is_wished(station, dav, make):
    clip = station.keep(1)
    text = station.text_of("left", clip)
    make(release="archived").start()
    until(lambda: not clips_of(station), "release")
    assert list(dav.files().values()) == [text]


def test_two_keeps_of_the_same_frames_have_two_names_and_their_own_notes(station, dav, make):
    clip = station.keep(1, note="the first")
    span = {"camera": "left", "from": clip["from_us"], "to": clip["to_us"], "note": "the second"}
    assert station.post("/api/keep", span).status == 200
    make().start().has(2)
    files = dav.files()
    assert len(files) == 2 and len(set(files.values())) == 1
    assert sorted(dav.notes().values()) == ["the first", "the second"]
    assert len({name.rsplit("_", 1)[1] for name in files}) == 2


def test_a_keep_of_the_same_frames_after_a_release_gets_a_name_of_its_own(station, dav, make):
    # With a tag of yours, and the same id: only the note tells them apart.
    station.order("keep left 1 7")
    clip = until(lambda: clips_of(station), "clip")[0]
    station.page.kill(), station.page.wait(), station.start_page()
    note(station, clip, "the first")
    archive = make(release="archived").start().has(1)
    until(lambda: not clips_of(station), "release")
    archive.run.end()
    archive.state.unlink()
    station.order(f"keep left from {clip['from']} to {clip['to']} 7")
    note(station, clip, "the second")
    archive.start().has(1)
    assert sorted(dav.notes().values()) == ["the first", "the second"]
    assert len(dav.files()) == 2


def test_a_note_that_is_written_later_comes_after(station, dav, make):
    clip = station.keep(1)
    make().start().has(1)
    note(station, clip, "later")
    until(lambda: list(dav.notes().values()) == ["later"], "note")
    assert len(dav.files()) == 1


def test_an_event_that_goes_on_is_archived_once_it_is_over(make_station, dav, begin):
    station = make_station(cameras=[CAMERAS[0] | {"after": 12}]).filmed()
    archive = Archive(station, begin, archive=dav.place(), release="archived").start()
    station.order("keep left 1")
    until(lambda: station.told("event_begun"), "event")
    archive.has(1)
    until(lambda: not clips_of(station), "release")
    (whole,) = station.told("event_whole")
    kept = [line for line in station.told("kept") if line["event"] == whole["event"]][-1]
    (name,) = dav.files()
    assert f"_{kept['first']}-{kept['last']}_" in name


# ---------------------------------------------------------------------------------- what goes wrong


def test_what_was_under_way_when_it_was_killed_is_archived_once(station, dav, make):
    clip = station.keep(3)
    archive = make(bandwidth="2k", release="archived").start()
    until(dav.incoming, "copy under way")
    archive.run.end(signal.SIGKILL)
    assert not dav.files() and clips_of(station)
    text = station.text_of("left", clip)
    make(release="archived").start()
    until(lambda: not clips_of(station), "release")
    assert list(dav.files().values()) == [text]
    until(lambda: not dav.incoming(), "empty .incoming")


def test_a_server_that_is_killed_is_waited_for(station, dav, make):
    dav.run.end(signal.SIGKILL)
    clip = station.keep(1)
    archive = make(release="archived").start()
    until(lambda: archive.camera()["fault"], "fault")
    assert archive.camera()["waiting"] == 1 and clips_of(station)
    dav.start()
    until(lambda: not clips_of(station), "release")
    assert list(dav.files()) and archive.camera()["archived"] == 1 and clip


RCLONE = """#!/bin/sh
for word in "$@"; do
    case $word in {verb}) {body} ;; esac
done
exec {rclone} "$@"
"""


def spoilt(folder, verb, body):
    """A folder with an rclone that does something else at a verb."""
    folder.mkdir()
    real = shutil.which("rclone")
    path = folder / "rclone"
    path.write_text(RCLONE.format(verb=verb, body=body, rclone=real))
    path.chmod(path.stat().st_mode | stat.S_IXUSR)
    return str(folder)


@pytest.mark.parametrize("kind", ["y4m", "csv"])
def test_a_copy_that_is_wrong_is_never_released(station, dav, make, tmp_path, kind):
    """A server that changes one byte of what it was sent: of the same length, so that only what is
    compared tells."""
    clip = station.keep(1)
    change = "printf x | dd of=$it bs=1 seek=90 conv=notrunc 2>/dev/null"
    body = f"for it in {dav.folder}/kept/.incoming/*/*/*.{kind}; do {change}; done"
    wrong = spoilt(tmp_path / "wrong", "check", body)
    archive = make(release="archived").start(path=wrong)
    until(lambda: "isn't what was sent" in archive.camera()["fault"], "fault")
    assert clips_of(station) and not dav.files() and not archive.told()["archived"]
    archive.run.end()
    make(release="archived").start()
    until(lambda: not clips_of(station), "release")
    assert list(dav.files().values()) and clip


def test_a_copy_that_changes_with_its_name_is_never_released(station, dav, make, tmp_path):
    station.keep(1)
    body = f"for it in {dav.folder}/kept/*/*.y4m; do test ! -e $it || truncate -s 90 $it; done"
    wrong = spoilt(tmp_path / "wrong", "check", body)
    archive = make(release="archived").start(path=wrong)
    until(lambda: "changed when it got its name" in archive.camera()["fault"], "fault")
    assert clips_of(station) and not archive.told()["archived"]


# ------------------------------------------------------------ what a place has before each release


def told_of(archive, words):
    """Waits until a loop_archive has said something."""
    return until(lambda: words in archive.run.printed(), words)


def archived_first(station, make, **words):
    """A clip that is archived, and held: by a loop_archive that has ended."""
    station.keep(1, note="the only one")
    archive = make(**words).start().has(1)
    archive.run.end(signal.SIGTERM)
    return archive


def test_what_the_place_has_lost_is_archived_again_and_only_then_released(station, dav, make, tmp_path):
    archive = archived_first(station, make)
    (text,) = dav.files().values()
    shutil.rmtree(dav.folder / "kept")
    # As long as it can't be copied it isn't released.
    full = spoilt(tmp_path / "full", "copyto", "echo 'no space left on device' >&2; exit 1")
    archive.start(path=full, release="archived")
    told_of(archive, "hasn't left_")
    until(lambda: "no space left" in archive.camera()["fault"], "fault")
    assert clips_of(station) and not archive.told()["archived"]
    archive.run.end()
    archive.start(release="archived")
    until(lambda: not clips_of(station), "release")
    assert list(dav.files().values()) == [text] and len(archive.told()["archived"]) == 1


def test_another_place_is_archived_to_before_a_release(station, dav, make):
    archive = archived_first(station, make)
    archive.start(archive=dav.place()[:-4] + "other", release="archived")
    until(lambda: not clips_of(station), "release")
    (name,) = [path.parent.name for path in (dav.folder / "other").glob("*/*.y4m")]
    assert f"{name}.y4m" in dav.files() and "lost" not in archive.run.printed()


@pytest.mark.parametrize("kind", ["y4m", "csv", "json"])
def test_what_was_changed_in_the_place_is_archived_beside_it(station, dav, make, kind):
    archive = archived_first(station, make)
    (path,) = (dav.folder / "kept").glob(f"*/*.{kind}")
    before = dav.files()
    # Of the same length: checksums alone tell.
    path.write_bytes(path.read_bytes()[:-2] + b"xx")
    archive.start(release="archived")
    until(lambda: not clips_of(station), "release")
    told_of(archive, "lost left")
    again = {name: text for name, text in dav.files().items() if name.endswith("-2.y4m")}
    assert list(again.values()) == list(before.values())


@pytest.mark.parametrize("kind", ["y4m", "csv", "json"])
def test_what_a_place_with_checksums_lacks_is_archived_again(station, dav, make, tmp_path, kind):
    """A folder of this machine, which has checksums, is asked for these."""
    place = tmp_path / "disk"
    archive = archived_first(station, make, archive=str(place))
    (path,) = place.glob(f"*/*.{kind}")
    text = path.read_bytes()
    path.unlink()
    archive.start(release="archived")
    until(lambda: not clips_of(station), "release")
    told_of(archive, "lost left")
    (name,) = place.glob("*/*.y4m")
    told_of(archive, f"{name.stem} is in the archive by sha256\n")
    assert archive.told()["archived"][-1]["asked"] == "sha256"
    if kind != "json":
        assert path.read_bytes() == text


def test_how_a_place_without_checksums_was_asked_is_said(station, dav, make):
    station.keep(1)
    archive = make(release="archived").start()
    told_of(archive, "is in the archive by sha256, read back\n")
    until(lambda: [it["asked"] for it in archive.told()["archived"]] == [program.READ_BACK], "word")


def test_a_place_that_does_not_answer_releases_nothing(station, dav, make):
    archive = archived_first(station, make)
    dav.run.end(signal.SIGKILL)
    archive.start(release="archived")
    until(lambda: archive.camera()["fault"], "fault")
    assert clips_of(station) and len(archive.told()["archived"]) == 1
    dav.start()
    until(lambda: not clips_of(station), "release")
    assert len(dav.files()) == 1


def asked_of(monkeypatch, tmp_path, listed, hashes=("sha256",), read="", kinds=program.KINDS):
    """How a place is found that lists its files so."""
    files = {kind: {"bytes": 3, "sha256": kind * 16, "sha1": "1", "md5": "2"} for kind in kinds}

    def run(self, verb, *words, is_told=True):
        asked.append(verb)
        found = {"backend": {"Features": {}, "Hashes": list(hashes)}, "lsjson": listed}
        return 0, read if verb == "hashsum" else json.dumps(found[verb]), ""

    asked = []
    monkeypatch.setattr(program.Rclone, "run", run)
    rclone = program.Rclone.__new__(program.Rclone)
    rclone.features = {}
    return rclone.as_sent("lab:x", "clip", files), asked


def listed_as(**more):
    """Three files as rclone lists them, by checksum."""
    return [
        {"Name": f"clip.{kind}", "Size": 3, "Hashes": {"sha256": kind * 16}} | more.get(kind, {})
        for kind in program.KINDS
    ]


def read_as(**more):
    """Three files as rclone reads them back; a checksum has 64 letters."""
    lines = {kind: (kind * 22)[:64] for kind in program.KINDS} | more
    return "".join(f"{digest}  clip.{kind}\n" for kind, digest in lines.items())


def test_a_place_is_asked_by_lengths_and_checksums(monkeypatch, tmp_path):
    assert asked_of(monkeypatch, tmp_path, listed_as())[0] == "sha256"
    wrong = (
        listed_as()[:2], [], listed_as(csv={"Size": 4}),
        listed_as(json={"Hashes": {"sha256": "y4m" * 16}}), listed_as(y4m={"Name": "clip.y4"}),
    )
    for listed in wrong:
        assert asked_of(monkeypatch, tmp_path, listed)[0] is None
    # Without an entry's checksums nothing is known of it.
    assert asked_of(monkeypatch, tmp_path, listed_as(), kinds=("y4m",))[0] is None
    # The best checksum that a place has is asked for.
    sha1 = [it | {"Hashes": {"sha1": "1"}} for it in listed_as()]
    assert asked_of(monkeypatch, tmp_path, sha1, ("md5", "sha1"))[0] == "sha1"


def test_a_place_without_a_checksum_of_each_file_is_read_back(monkeypatch, tmp_path):
    lacks = listed_as(y4m={"Hashes": {}}), [it | {"Hashes": None} for it in listed_as()]
    for listed in lacks:
        found, asked = asked_of(monkeypatch, tmp_path, listed, read="")
        assert found is None and asked[-1] == "hashsum"
    for hashes in ((), ("crc32",)):
        assert asked_of(monkeypatch, tmp_path, listed_as(), hashes, read="")[1][-1] == "hashsum"
    monkeypatch.setattr(program, "KINDS", ("y4m", "csv", "json"))
    files = {kind: {"bytes": 3, "sha256": (kind * 22)[:64]} for kind in program.KINDS}
    rclone = program.Rclone.__new__(program.Rclone)
    for text, wanted in ((read_as(), program.READ_BACK), (read_as(csv="0" * 64), None),
                         (read_as().replace("clip.json", "clip.jso"), None)):
        monkeypatch.setattr(program.Rclone, "run", lambda *_, text=text, **__: (0, text, ""))
        assert rclone.read_back("lab:x", "clip", files) == wanted


# -------------------------------------------------------------------------------- a page that lies

# Two frames of 3x2, grey, as a film, as a table, and as the page says of each what it is.
FRONT = b"YUV4MPEG2 W3 H2 F25:1 Ip A0:0 Cmono\n"
PICTURES = b"123456", b"abcdef"
FILM = FRONT + b"".join(b"FRAME\n" + it for it in PICTURES)
TABLE = b"""number,time_us,time,sequence\r
0,1,1970-01-01T00:00:00.000001Z,7\r
1,2,1970-01-01T00:00:00.000002Z,8\r
"""
SAID = {"format": "GREY", "width": 3, "height": 2, "rate": [25, 1], "bits": 8}


def sums_of(pictures=PICTURES, numbers=(0, 1), front=None):
    """What a page says of pictures, each 3x2 in grey."""
    lines = [json.dumps(SAID | (front or {})).encode() + b"\n"]
    for number, pixels in zip(numbers, pictures):
        digest = hashlib.blake2b(b"((2, 3), '|u1')" + pixels, digest_size=16)
        lines.append(f"{number},{number + 1},{number + 7},{digest.hexdigest()}\n".encode())
    return b"".join(lines)


OWN = neighbour.CLIP | {"first": 0, "last": 1}


def page_of(make_neighbour, own, answers):
    """A page that has one clip, of the two frames, and says what a test gives."""
    page = make_neighbour()
    page.answers |= {
        "/api/status": neighbour.STATE, "/api/clips": {"clips": [own]},
        "/api/events": {"events": []},
        "/api/clips/left/0.y4m": (FILM, 200, "video/x-yuv4mpeg2"),
        "/api/clips/left/0.csv": (TABLE, 200, "text/csv"),
        "/api/clips/left/0.sums": (sums_of(), 200, "text/plain"),
    } | answers
    return page


@pytest.fixture
def lying(make_neighbour, begin, tmp_path):
    """A loop_archive beside a page that says what a test gives; its place is a folder."""

    def one(clip=None, **answers):
        page = page_of(make_neighbour, OWN | (clip or {}), answers)
        folder = tmp_path / "spooler"
        folder.mkdir()
        station = types.SimpleNamespace(folder=folder, port=page.port)
        spool = str(folder / "spool")
        return page, Archive(station, begin, archive=str(tmp_path / "disk"), spool=spool).start()

    return one


@pytest.fixture
def fetch(make_neighbour, tmp_path):
    """Has a camera fetch a clip from a page that says what a test gives, without the pauses of a
    program that tries again. Nothing is left in the spool."""

    def one(clip=None, **answers):
        told = {f"/api/clips/left/0.{kind}": (it, 200, "a/b") for kind, it in answers.items()}
        page = page_of(make_neighbour, OWN, told)
        path = tmp_path / "archive.toml"
        path.write_text(
            f'url = "http://127.0.0.1:{page.port}/"\nstate = "{tmp_path}/state.json"\n'
            f'archive = "{tmp_path}/disk"\nspool = "{tmp_path}/spool"\n'
        )
        it = program.Archive(program.read_settings(str(path)))
        camera = program.Camera("left", it.settings.place, it)
        try:
            with camera.spool() as folder:
                camera.fetch(program.clip_of(OWN | (clip or {})), folder)
                return {path.suffix: path.read_bytes() for path in folder.iterdir()}
        finally:
            it.state.holder.close()
            assert not list((tmp_path / "spool").iterdir())

    return one


@pytest.mark.parametrize(
    "clip, said",
    [
        ({"camera": "../../OUT/x"}, "clips[0].camera isn't a camera's name"),
        ({"camera": "/tmp/x"}, "clips[0].camera isn't a camera's name"),
        ({"id": "0"}, "clips[0].id isn't a whole number"),
        ({"first": "0"}, "clips[0].first isn't a whole number"),
        ({"from_us": 10**30}, "has a number of more than 20 digits"),
        ({"from_us": 10**18, "to_us": 10**18}, "clips[0].from_us isn't a whole number"),
        ({"last": -1}, "clips[0].last isn't a whole number"),
        ({"note": 5}, "clips[0].note isn't a text"),
        ({"tag": float("nan")}, "isn't finite: NaN"),
    ],
    ids=range(9),
)
def test_a_page_that_lies_is_told_and_nothing_is_written(lying, tmp_path, clip, said):
    page, archive = lying(clip)
    until(lambda: said in archive.told()["fault"], "fault")
    assert "is unusable: /api/clips" in archive.told()["fault"]
    written = [it for it in tmp_path.rglob("*") if "OUT" in it.name or it.name == "x"]
    assert not written and not (tmp_path / "disk").exists()
    # Once it says what can be used, all goes on.
    page.answers["/api/clips"] = {"clips": [neighbour.CLIP | {"first": 0, "last": 1}]}
    archive.has(1)
    assert [it.read_bytes() for it in (tmp_path / "disk").glob("*/*.y4m")] == [FILM]


def test_a_page_whose_answer_is_deep_or_has_no_end_is_told(lying):
    page, archive = lying()
    for body, said in ((b"[" * 200_000, "deeper than 32"), (b" " * 9_000_000, "more than 8388608")):
        page.answers["/api/clips"] = body
        until(lambda said=said: said in archive.told()["fault"], said)
    page.answers["/api/events"] = 5
    until(lambda: "/api/events: it isn't an object" in archive.told()["fault"], "fault")


@pytest.fixture
def held_until_released(lying, begin, tmp_path):
    """A clip that is archived to a folder, and held until somebody releases it."""
    page, archive = lying()
    own = page.answers["/api/clips"]
    page.answers["/api/clips"] = lambda: {"clips": []} if released_by(page) else own
    archive.has(1).run.end(signal.SIGTERM)
    return page, archive, tmp_path / "disk"


def released_by(page):
    """Whether a page was asked for a release."""
    return [path for path, _ in page.asked if path == "/api/release"]


@pytest.mark.parametrize("kind", program.KINDS)
def test_nothing_is_released_that_its_place_has_not(held_until_released, kind):
    page, archive, disk = held_until_released
    (path,) = disk.glob(f"*/*.{kind}")
    path.write_bytes(path.read_bytes()[:-1] + b"x")
    archive.start(release="archived")
    until(lambda: released_by(page), "release")
    archive.run.end(signal.SIGTERM)
    folders = [{it.suffix for it in folder.iterdir()} for folder in disk.glob("left_*")]
    assert folders == [{".y4m", ".csv", ".json"}] * 2 and "lost left" in archive.run.printed()
    assert [it.read_bytes() for it in disk.glob("*-2/*.y4m")] == [FILM]


def test_a_clip_is_archived_to_a_place_of_another_name_before_its_release(held_until_released):
    page, archive, disk = held_until_released
    archive.start(release="archived", archive=str(disk.parent / "other"))
    until(lambda: released_by(page), "release")
    assert [it.read_bytes() for it in disk.parent.glob("other/*/*.y4m")] == [FILM]
    told_of(archive, "released left 0 0..1")
    assert len(released_by(page)) == 1


BACK = "isn't what was read back"


def test_files_are_fetched_and_read_back(fetch):
    found = fetch()
    assert set(found) == {".y4m", ".csv", ".json"}
    assert (found[".y4m"], found[".csv"]) == (FILM, TABLE)


@pytest.mark.parametrize(
    "said",
    [sums_of(PICTURES[:1]), sums_of((*PICTURES, b"123456"), (0, 1, 2)), sums_of(numbers=(0, 2)),
     sums_of(numbers=(1, 2)), sums_of(numbers=(1, 0)), sums_of(numbers=(0, 0))],
    ids=range(6),
)
def test_frames_that_are_none_of_the_clip_are_refused(fetch, said):
    with pytest.raises(program.Fault, match="gives other frames"):
        fetch(sums=said)


def test_a_clip_that_no_store_has_room_for_is_refused(fetch):
    with pytest.raises(program.Fault, match="gives other frames"):
        fetch({"last": 2**60})


@pytest.mark.parametrize(
    "table",
    [b"", TABLE[:-1], TABLE[:-36], TABLE + b"2,3,1970-01-01T00:00:00.000003Z,9\r\n",
     TABLE.replace(b"1,2,", b"1,3,"), TABLE.replace(b",8\r", b",9\r"),
     TABLE.replace(b"000002Z", b"000003Z"), TABLE.replace(b"\n1,", b"\n2,"),
     TABLE.replace(b"sequence", b"count"), TABLE.replace(b"\r", b"")],
    ids=range(10),
)
def test_a_table_of_other_times_is_refused(fetch, table):
    with pytest.raises(program.Fault, match=BACK + ": its t|[0-9] pictures"):
        fetch(csv=table)


def test_a_table_has_a_bound(fetch):
    with pytest.raises(program.PageFault, match="of 600 at most"):
        fetch(csv=TABLE + b"x" * 10_000)


@pytest.mark.parametrize(
    "film",
    [b"", b"frames", FRONT, FILM[:-1], FILM + b"x", FILM + b"FRAME\n123456", FILM[:-12],
     FILM.replace(b"FRAME\na", b"FRAMEX\n", 1), FILM.replace(b"W3", b"W4"), b"x" + FILM,
     # Whole, and of the right size: pixels, their order and the rate.
     FILM[:-1] + b"g", FILM.replace(b"123", b"124"), FRONT + FILM[-12:] + FILM[len(FRONT):-12],
     FILM.replace(b"F25", b"F24"), FILM.replace(b"W3 H2", b"W2 H3")],
    ids=range(15),
)
def test_a_film_of_other_frames_is_refused(fetch, film):
    with pytest.raises(program.Fault, match=BACK):
        fetch(y4m=film)


def test_a_film_with_another_pixel_is_not_archived(lying, tmp_path):
    page, archive = lying(**{"/api/clips/left/0.y4m": (FILM[:-1] + b"g", 200, "video/x-yuv4mpeg2")})
    until(lambda: BACK + ": the pixels of picture 1" in archive.camera()["fault"], "fault")
    assert not list((tmp_path / "disk").glob("*/*"))
    page.answers["/api/clips/left/0.y4m"] = FILM, 200, "video/x-yuv4mpeg2"
    archive.has(1)


@pytest.mark.parametrize(
    "said, why",
    [(b"", "isn't JSON"), (b"[]\n", "isn't an object"), (sums_of(front={"bits": 7}), "bits isn't"),
     (sums_of(front={"format": "RGB3"}), "format isn't one of"),
     (sums_of() + b"x\n", "a line that"),
     (sums_of(front={"format": "YM12"}), "a line that"), (sums_of()[:-1], "a line that"),
     (sums_of(front={"width": 16384, "height": 16384}), "has a picture that no store has"),
     (sums_of(front={"bits": 12}), "has no such samples")],
    ids=range(9),
)
def test_what_a_page_says_of_frames_has_to_be_usable(fetch, said, why):
    with pytest.raises(program.Fault, match="says of the frames can't be used: .*" + why):
        fetch(sums=said)


def test_what_a_page_says_of_frames_has_a_bound(fetch):
    with pytest.raises(program.PageFault, match="of 768 at most"):
        fetch(sums=sums_of() + b"x" * 1000)


def test_an_older_page_which_says_nothing_of_frames_is_told(lying, tmp_path):
    refuses = json.dumps({"error": "There is nothing here."}).encode()
    _, archive = lying(**{"/api/clips/left/0.sums": (refuses, 404, "application/json")})
    until(lambda: "refuses /api/clips/left/0.sums" in archive.camera()["fault"], "fault")
    assert not list((tmp_path / "disk").glob("*/*"))


@pytest.mark.parametrize("kind", program.KINDS)
def test_a_disk_that_gives_back_something_else_is_told(fetch, monkeypatch, kind):
    from lapyrei import place

    def spoil(folder):
        (path,) = Path(folder).glob(f"*.{kind}")
        text = path.read_bytes()
        path.write_bytes(text.replace(b"run", b"ran") if kind == "json" else text[:-3] + b"9\r\n")

    monkeypatch.setattr(place, "forget_cached", spoil)
    with pytest.raises(program.Fault, match=BACK):
        fetch()


# ------------------------------------------------------------------------------- threads that end


def test_a_thread_that_ends_is_told_and_started_again():
    told, over, tries = [], threading.Event(), []

    def work():
        tries.append(1)
        if len(tries) < 3:
            raise KeyError("a secret")

    thread = threads.kept_running("left", work, over, told.append)
    thread.join(60)
    assert len(tries) == 3 and len(told) == 2
    assert re.fullmatch(r"the thread left has ended: KeyError in test_archive.py:\d+. It is started "
                        "again", told[0])
    # One that is to end isn't started again.
    over.set()
    threads.kept_running("right", work, over, told.append).join(60)
    assert len(tries) == 3


def test_a_cameras_thread_that_ends_archives_nevertheless(lying, monkeypatch, tmp_path):
    """What it does next can't be found, at first."""
    page, archive = lying()
    archive.has(1).run.end()
    settings = program.read_settings(str(archive.path))
    plain, faults = program.Camera.next_work, [KeyError("x"), TypeError("y")]

    def next_work(self):
        if faults:
            raise faults.pop()
        return plain(self)

    told = []
    monkeypatch.setattr(program.Camera, "next_work", next_work)
    monkeypatch.setattr(program, "tell", told.append)
    monkeypatch.setattr(threads, "PAUSE_SECONDS", 0.01)
    (tmp_path / "spooler" / "archive.json").unlink()
    it = program.Archive(settings)
    thread = threading.Thread(target=it.run, daemon=True)
    thread.start()
    until(lambda: any(line.startswith("archived left") for line in told), "archived clip")
    it.stop.set()
    thread.join(60)
    assert len([line for line in told if "the thread left has ended" in line]) == 2


def test_a_name_that_is_none_is_no_camera():
    with pytest.raises(program.Fault, match="isn't a camera's name"):
        program.Camera("../x", program.Place("lab:x", False), None)


class Locking(http.server.BaseHTTPRequestHandler):
    """Stands before a server that takes its time: a folder that is being made is locked, and
    whoever would make it too is refused, as WebDAV has it."""

    port, making, lock = 0, set(), threading.Lock()

    def handle_one(self):
        """Hands a request on."""
        body = self.rfile.read(int(self.headers.get("Content-Length") or 0))
        makes = self.command == "MKCOL"
        with self.lock:
            is_locked = makes and self.path in self.making
            if makes:
                self.making.add(self.path)
        if is_locked:
            self.answer(423, [], b"Locked")
            return
        if makes:
            time.sleep(1)
        server = http.client.HTTPConnection("127.0.0.1", self.port)
        server.request(self.command, self.path, body, dict(self.headers))
        got = server.getresponse()
        self.answer(got.status, got.getheaders(), got.read())
        self.making.discard(self.path)

    def answer(self, status, headers, body):
        """Answers."""
        self.send_response(status)
        for name, value in headers:
            if name.lower() not in ("content-length", "transfer-encoding", "date"):
                self.send_header(name, value)
        self.send_header("Content-Length", str(len(body)))
        self.end_headers()
        if self.command != "HEAD":
            self.wfile.write(body)

    def log_message(self, *_):
        """Says nothing."""

    do_MKCOL = do_PUT = do_PROPFIND = do_GET = do_HEAD = do_MOVE = do_DELETE = handle_one


def test_a_folder_is_made_by_one_transfer_alone(dav, tmp_path, monkeypatch):
    """The three files of a clip need one folder, which is locked while it is made."""
    monkeypatch.setattr(Locking, "port", dav.port)
    sent = tmp_path / "sent"
    sent.mkdir()
    for kind in program.KINDS:
        (sent / f"clip.{kind}").write_bytes(os.urandom(5000))
    with http.server.ThreadingHTTPServer(("127.0.0.1", 0), Locking) as server:
        threading.Thread(target=server.serve_forever, daemon=True).start()
        place = dav.place().replace(str(dav.port), str(server.server_address[1]))
        (tmp_path / "archive.toml").write_text(f'archive = "{place}"\n')
        settings = program.read_settings(str(tmp_path / "archive.toml"))
        rclone = program.Rclone(settings, threading.Event())
        for number in range(3):
            rclone.run("copyto", str(sent), f"{place}/.incoming/{number}/clip")
        server.shutdown()
    for number in range(3):
        made = dav.folder / "kept/.incoming" / str(number) / "clip"
        assert {it.name: it.read_bytes() for it in made.iterdir()} == {
            it.name: it.read_bytes() for it in sent.iterdir()
        }


def test_a_full_server_is_said_and_waited_for(station, dav, make, tmp_path):
    station.keep(1)
    body = "test -e full && echo 'no space left on device' >&2 && exit 1"
    full = spoilt(tmp_path / "full", "copyto", body)
    (station.folder / "full").touch()
    archive = make(release="archived").start(path=full)
    until(lambda: "no space left" in archive.camera()["fault"], "fault")
    assert clips_of(station)
    (station.folder / "full").unlink()
    until(lambda: not clips_of(station), "release")
    assert dav.files()
    until(lambda: not archive.camera()["fault"], "end of the fault")


def test_a_camera_whose_place_fails_holds_up_no_other(station, dav, begin):
    station.keep(1)
    assert station.post("/api/keep", {"camera": "right", "seconds": 1}).status == 200
    archive = Archive(station, begin)
    away = ":webdav,url='http://127.0.0.1:1',vendor='other':kept"
    text = f'url = "http://127.0.0.1:{station.port}"\nstate = "{archive.state}"\n'
    text += f'[[camera]]\nname = "left"\narchive = {json.dumps(away)}\n'
    text += f'[[camera]]\nname = "right"\narchive = {json.dumps(dav.place())}\n'
    archive.path.write_text(text + 'release = "archived"\n')
    archive.run = begin(SEVERAL / "loop_archive", archive.path)
    until(lambda: [it["camera"] for it in clips_of(station)] == ["left"], "release of right")
    until(lambda: archive.camera("left")["fault"], "fault of left")
    assert not archive.camera("right")["fault"]


def test_what_somebody_else_releases_before_it_is_archived_is_told(station, dav, make):
    dav.run.end(signal.SIGKILL)
    clip = station.keep(1)
    archive = make().start()
    until(lambda: archive.camera().get("waiting") == 1, "waiting clip")
    station.post("/api/release", {"camera": "left", "id": clip["id"]})
    line = f"gone left {clip['id']} {clip['first']}..{clip['last']}"
    until(lambda: line in archive.run.printed(), "word of it")


def test_a_clip_that_has_become_another_is_not_released_by_its_id(station):
    clip = station.keep(1)
    wrong = {"camera": "left", "id": clip["id"], "first": clip["first"], "tag": 1}
    wrong["last"] = clip["last"] + 1
    assert station.post("/api/release", wrong).status == 409
    event = clips_of(station)[0]["event"]
    assert station.post("/api/release", wrong | {"last": clip["last"]}).status == 409
    assert station.post("/api/release", wrong | {"last": clip["last"], "tag": event}).status == 200


def test_what_all_may_read_does_not_name_the_place(station, make):
    """rclone's words for a place may have a password in them."""
    station.keep(1)
    archive = make().start().has(1)
    assert "webdav" not in archive.state.read_text() and "kept" not in archive.state.read_text()
    assert stat.S_IMODE((archive.state.parent / "archive.json.places").stat().st_mode) == 0o600


def test_what_is_told_of_a_fault_does_not_name_it_either(station, dav, make):
    dav.run.end(signal.SIGKILL)
    station.keep(1)
    archive = make().start()
    until(lambda: archive.camera().get("fault"), "fault")
    assert ":webdav:kept" in archive.camera()["fault"]
    assert "vendor" not in archive.state.read_text() + archive.run.printed()


@pytest.mark.parametrize(
    "place, told",
    [
        ("lab:cameras", "lab:cameras"),
        ("/mnt/a:b", "/mnt/a:b"),
        (":sftp,host=h,user=u,pass=abc:/x/y", ":sftp:/x/y"),
        ("lab,pass='a,b:''c':x", "lab:x"),
        ('lab,pass="a,b:c":x', "lab:x"),
    ],
)
def test_the_parameters_of_a_place_are_not_told(place, told):
    quoted = place.replace('"', r"\"")
    said = f'Failed for "{quoted}/.incoming": refused'
    assert program.hidden(said, place) == f'Failed for "{told}/.incoming": refused'


def test_a_release_that_a_look_has_seen_first_stays_one(tmp_path):
    """The look's thread may ask the page between a release and its entry in the state."""
    clip = program.Clip("left", 3, 0, 9, 7, 7, 1_000_000, 2_000_000)
    state = program.State(tmp_path / "archive.json")
    state.change(None, program.Archived(clip, clip.front(), "lab:x", 10, "00", 1.0, {}))
    entry = state.entry(clip)
    state.archived[0] = program.replace(entry, is_released=True)
    noted = program.replace(clip, note="late")
    state.change(entry, program.replace(entry, clip=noted))
    state.change(entry, program.replace(entry, is_released=True))
    assert [it.is_released for it in state.archived] == [True]
    assert state.entry(clip) is None and state.counts == {"left": 1}


def test_a_state_that_cannot_be_read_is_compared_anew(station, dav, make):
    station.keep(1)
    archive = make().start().has(1)
    archive.run.end()
    before = dav.times()
    archive.state.write_text("{")
    archive.start().has(1)
    assert "can't be read" in archive.run.printed()
    assert before == dav.times() and before


def test_a_page_that_does_not_run_is_said(station, dav, make):
    station.page.kill(), station.page.wait()
    archive = make().start()
    until(lambda: "doesn't answer" in archive.told()["fault"], "fault")
    assert archive.run.end(signal.SIGTERM) == 0


# ---------------------------------------------------------------------------------------- its file


@pytest.mark.parametrize(
    "text, said",
    [
        ("", "archive is missing"),
        ('archive = "nowhere"', "archive isn't a place such as REMOTE:folder"),
        ('archive = "a:b"\nrelease = "saved"', "release isn't one of archived, never"),
        ('archive = "a:b"\nbandwidth = "fast"', "bandwidth isn't a rate such as 10M"),
        ('archive = "a:b"\nnotes = "x"', "unknown words: notes"),
        ('archive = "a:b"\nrclone_config = "missing"', "missing can't be read"),
        ('archive = "a:b"\n[[camera]]\nname = "a b"', "name isn't a name"),
    ],
)
def test_a_wrong_file_is_refused_by_name(tmp_path, text, said):
    path = tmp_path / "archive.toml"
    path.write_text(text)
    with pytest.raises(BadSettings, match=re.escape(said)):
        program.read_settings(str(path))


def test_two_programs_do_not_share_a_state(station, dav, make, begin):
    archive = make().start()
    until(lambda: archive.state.exists(), "state")
    second = begin(SEVERAL / "loop_archive", archive.path, folder=station.folder)
    assert second.ended() == 1 and "another loop_archive has it" in second.printed()


def test_each_place_is_removed_twice_and_none_keeps_another_waiting(monkeypatch):
    """What a killed copy had under way may come after its place was removed."""
    asked, stuck = [], []

    class State:
        lock, begun = threading.RLock(), ["left", "stuck"]

        def write(self):
            written.append(list(self.begun))

    def is_gone(place):
        if place == "stuck":
            stuck.append(place)
            if written or len(stuck) > 100:
                raise program.Stopped
            return False
        asked.append(place)
        return True

    written = []
    monkeypatch.setattr(program, "PAUSE_SECONDS", 0.01)
    monkeypatch.setattr(program, "ARRIVE_SECONDS", 0.05)
    cleaner = program.Archive.__new__(program.Archive)
    cleaner.left, cleaner.state, cleaner.is_gone = queue.SimpleQueue(), State(), is_gone
    cleaner.left.put("stuck")
    cleaner.left.put("left")
    cleaner.clean()
    assert asked == ["left", "left"] and written == [["stuck"]] and len(stuck) > 1
