"""Saved events in another place: each clip that a station keeps is copied by rclone, compared
there, and only then released, where that is wished. Before each release the place is asked again
whether it has the clip as it was sent; one that it hasn't is archived anew.

A clip comes from the station's page byte for byte, with the times of its frames and its note. Each
of these files is read back as `lapyrei-export --verify` does it, and compared with what the page
says of each frame (lapyrei.sums). They go into a folder of their own below `.incoming`, and are
compared there with what was sent; then the folder gets its name: so whatever has a name in the
archive is whole. What fails is tried again for ever. The file of the state says what is archived;
it is replaced whole, and the page and loop_mqtt read it."""
import contextlib
import datetime
import fcntl
import hashlib
import heapq
import importlib.util
import json
import os
import queue
import re
import secrets
import shutil
import signal
import subprocess
import sys
import tempfile
import threading
import time
from collections.abc import Callable
from dataclasses import asdict, dataclass, replace
from pathlib import Path
from urllib.parse import quote

from lapyrei import answers

from .archive_page import Page
from .pages import PageFault
from .settings import NAME, BadSettings, Words, secret_in, words_of
from .threads import kept_running, place_of

# How often the page is asked what is kept, and how often the state is written where nothing
# changes, so that whoever reads it sees that this program runs.
LOOK_SECONDS = 2.0
BEAT_SECONDS = 10.0
# The pause after a fault, at first and at most: it doubles each time.
PAUSE_SECONDS, MOST_PAUSE_SECONDS = 2.0, 300.0
# After so long nothing arrives any more of a copy that was killed.
ARRIVE_SECONDS = 60.0
# So many clips that were archived stay in the file of the state, the newest ones, beside those that
# are still held.
REMEMBERED = 500
# Below what a copy arrives, and the files of each clip.
INCOMING = ".incoming"
KINDS = ("y4m", "csv", "json")
# The checksums by which a place is asked, the best one first, by rclone's names and Python's.
HASHES = ("sha256", "sha1", "md5")
READ_BACK = "sha256, read back"
# A line of the table of times is shorter; and no store holds more frames.
LINE_BYTES, MOST_FRAMES = 200, 64 * 256
# The bytes of the state, and of what rclone lists of a clip's folder.
STATE_BYTES, LISTED_BYTES = 64 * 1024 * 1024, 1 << 20
# What rclone does itself about a network that fails: little, since this program tries again.
PATIENT = ["--retries", "1", "--low-level-retries", "2", "--contimeout", "15s", "--timeout", "60s"]
# A clip's three files need one folder, and WebDAV locks a folder while somebody makes it: of three
# transfers at once two are refused by a server that is slow.
PATIENT += ["--transfers", "1"]
UNHASHED = "could not be checked"
# A place up to its folder: the name of a remote, or of a kind of storage, and parameters.
VALUE = r"""(?:'(?:[^']|'')*'|"(?:[^"]|"")*"|[^,:]*)"""
REMOTE = rf"(:?[^:,'\"/]*)((?:,[^=,:]+(?:={VALUE})?)*):"


class Fault(Exception):
    """Why a clip couldn't be archived or released, in a sentence."""


class Stopped(Exception):
    """The program is to end."""


@dataclass(frozen=True)
class Place:
    """Where a camera's clips go, and whether they are released then."""

    archive: str
    is_released: bool


@dataclass(frozen=True)
class Settings:
    """What the file says."""

    url: str
    token: str | None
    state: Path
    spool: Path
    # rclone's own file, and how many bytes a second it may send, as rclone has it.
    config: str | None
    bandwidth: str | None
    # Of all cameras, where there is one, and of single ones.
    place: Place | None
    places: dict[str, Place | None]

    def place_of(self, camera: str) -> Place | None:
        """Where a camera's clips go; none where they go nowhere."""
        return self.places.get(camera, self.place)


@dataclass(frozen=True)
class Clip:
    """A clip that is held: the numbers of its frames, its tag, the event's number where the page
    knows it, and the times of its first and last frame in microseconds."""

    camera: str
    id: int
    first: int
    last: int
    tag: int
    event: int | None
    since: int
    until: int
    note: str = ""

    def words(self) -> str:
        """In a line."""
        return f"{self.camera} {self.id} {self.first}..{self.last}"

    def front(self) -> str:
        """How its files are called: two keeps of the same frames have two names."""
        moment = datetime.datetime.fromtimestamp(self.since // 1_000_000, datetime.timezone.utc)
        stamp = moment.strftime("%Y-%m-%dT%H-%M-%SZ")
        number = self.event or self.tag
        return f"{self.camera}_{stamp}_{self.first}-{self.last}_{self.id}_{number}"


@dataclass(frozen=True)
class Archived:
    """A clip that is in the archive: its name there, what was sent, and whether it was released
    since."""

    clip: Clip
    name: str
    archive: str
    bytes: int
    sha256: str
    time: float
    # Of each of its files, by kind, how long it is and its checksums.
    files: dict[str, dict]
    is_released: bool = False
    # How the place was asked before the release.
    asked: str = ""

    def as_object(self) -> dict:
        """For JSON. The place isn't told: rclone's words for one may have a password in them."""
        found = asdict(self)
        del found["archive"]
        return found.pop("clip") | found


def is_same(one: Clip, other: Clip) -> bool:
    """Whether two are one clip. Ids are used again, also for the same frames: so the tag counts,
    and the event's number, where both know it."""
    alike = all(
        getattr(one, word) == getattr(other, word)
        for word in ("camera", "id", "first", "last", "tag", "since")
    )
    return alike and (None in (one.event, other.event) or one.event == other.event)


def clip_of(found: dict) -> Clip:
    """A clip as the page tells it. Its tag on the disk is one of the user's, or else its event's
    number."""
    tag = found["tag"] or found["event"] or 0
    return Clip(
        found["camera"],
        found["id"],
        found["first"],
        found["last"],
        tag,
        found["event"],
        found["from_us"],
        found["to_us"],
        found["note"],
    )


def clip_in(found: dict) -> Clip:
    """A clip of the state."""
    CLIP(found)
    return Clip(**{word: found[word] for word in Clip.__dataclass_fields__})


def archived_of(found: dict, places: dict[str, str]) -> Archived:
    """An entry of the state, and the place where it is, by its name."""
    ENTRY(found)
    told = [it for it in Archived.__dataclass_fields__ if it not in ("clip", "archive")]
    archive = places.get(found["name"], "")
    more = {word: found[word] for word in told if word in found}
    return Archived(clip_in(found), archive=archive, **more)


# The state's words.
CLIP = answers.table(
    {
        "camera": answers.OWN_CAMERA,
        "id": answers.ID,
        "first": answers.COUNT,
        "last": answers.COUNT,
        "tag": answers.COUNT,
        "event": answers.maybe(answers.COUNT),
        "since": answers.MOMENT,
        "until": answers.MOMENT,
        "note": answers.TEXT,
    }
)
FILE = answers.table({"bytes": answers.COUNT} | dict.fromkeys(HASHES, answers.TEXT))
ENTRY = answers.table(
    {
        "name": answers.text(r"[A-Za-z0-9_:-]{1,200}", "a folder's name"),
        "bytes": answers.COUNT,
        "sha256": answers.TEXT,
        "time": answers.TIME,
        "files": answers.table(dict.fromkeys(KINDS, FILE)),
        "is_released": answers.flag,
    },
    {"asked": answers.TEXT},
)
# What rclone says that a place can, and a file as it lists it.
FEATURES = answers.table(
    {"Features": answers.table({})}, {"Hashes": answers.maybe(answers.each(answers.TEXT, 100))}
)
LISTED = answers.each(
    answers.table(
        {"Name": answers.TEXT, "Size": answers.whole(-1)},
        {"Hashes": answers.maybe(answers.named(answers.TEXT, answers.TEXT))},
    ),
    1000,
)


def digests_of(path: Path) -> dict:
    """How long a file is, and its checksums."""
    found = {kind: hashlib.new(kind) for kind in HASHES}
    with open(path, "rb") as file:
        while piece := file.read(1 << 20):
            for digest in found.values():
                digest.update(piece)
        count = file.tell()
    return {"bytes": count} | {kind: digest.hexdigest() for kind, digest in found.items()}


# --------------------------------------------------------------------------------------- settings


def place_in(words: Words, left_out: Place | None) -> Place | None:
    """Where clips go, by a table's words."""
    archive = words.text("archive", left_out.archive if left_out else None)
    release = words.choice(
        "release",
        ("archived", "never"),
        "archived" if left_out and left_out.is_released else "never",
    )
    if archive is None:
        return None
    if ":" not in archive and not archive.startswith("/"):
        raise words.bad("archive", "a place such as REMOTE:folder, by the names of rclone's file")
    return Place(archive.rstrip("/"), release == "archived")


def read_settings(path: str) -> Settings:
    """The settings of a file. What they name is looked at too, as far as it can be."""
    words = words_of(path)
    url = words.text("url", "http://127.0.0.1:8080/", r"https?://[^\s]+", "an address, http://..")
    token = words.text("token", None)
    folder = os.environ.get("STATE_DIRECTORY", ".")
    state = words.text("state", os.path.join(folder, "archive.json"))
    spool = words.text("spool", os.environ.get("CACHE_DIRECTORY", f"{state}.spool"))
    config, bandwidth = words.text("rclone_config", None), words.text(
        "bandwidth", None, r"[0-9.]+[BKMGkmg]?(:[0-9.]+[BKMGkmg]?)?", "a rate such as 10M"
    )
    place, places = place_in(words, None), {}
    for table in words.tables("camera"):
        places[table.name("name")] = place_in(table, place)
        table.end()
    words.end()
    if place is None and not any(places.values()):
        raise BadSettings(f"{path}: archive is missing: a place such as REMOTE:folder")
    if config and not os.access(config, os.R_OK):
        raise BadSettings(f"{path}: rclone_config: {config} can't be read")
    if importlib.util.find_spec("numpy") is None:
        raise BadSettings("python3-numpy isn't installed: sudo apt install python3-numpy")
    if not shutil.which("rclone"):
        raise BadSettings("rclone isn't installed: sudo apt install rclone")
    secret = secret_in(token, "token") if token else None
    return Settings(url, secret, Path(state), Path(spool), config, bandwidth, place, places)


# ------------------------------------------------------------------------------------------ rclone


class Rclone:
    """Runs rclone, and ends it with this program: what a killed one left under way would write on
    beside the next try."""

    def __init__(self, settings: Settings, stop: threading.Event) -> None:
        self.settings, self.stop = settings, stop
        self.features: dict[str, dict] = {}

    def run(self, *words: str, is_told: bool = True) -> tuple[int, str, str]:
        """Runs it, and answers its status and what it printed. Fault where it fails and that is to
        be told."""
        front = ["setpriv", "--pdeathsig", "KILL", "rclone", *PATIENT, "--stats", "0"]
        if self.settings.config:
            front += ["--config", self.settings.config]
        with tempfile.TemporaryFile("w+") as out, tempfile.TemporaryFile("w+") as told:
            done = subprocess.Popen(
                [*front, *words], stdin=subprocess.DEVNULL, stdout=out, stderr=told
            )
            while done.poll() is None:
                if self.stop.wait(0.02):
                    done.kill()
                    done.wait()
                    raise Stopped
            for file in (out, told):
                file.seek(0)
            answer, said = out.read(1 << 20), told.read(1 << 20)
        if done.returncode and is_told:
            raise Fault(f"rclone {words[0]}: {last_line(said) or f'status {done.returncode}'}")
        return done.returncode, answer, said

    def can(self, archive: str) -> dict:
        """What a place can: its hashes, and whether it renames by itself."""
        remote = archive.split(f"/{INCOMING}")[0]
        if remote not in self.features:
            _, answer, _ = self.run("backend", "features", remote)
            try:
                self.features[remote] = answers.answer_in(answer.encode(), FEATURES)
            except answers.Unusable as fault:
                raise Fault(f"rclone backend features: {fault}") from None
        return self.features[remote]

    def has(self, archive: str, name: str) -> bool:
        """Whether a place has a file."""
        status, _, said = self.run("lsjson", "--stat", f"{archive}/{name}", is_told=False)
        if status not in (0, 3, 4):
            raise Fault(f"rclone lsjson: {last_line(said) or f'status {status}'}")
        return status == 0

    def as_sent(self, archive: str, name: str, files: dict[str, dict]) -> str | None:
        """Asks a place for a clip's files, which have lengths and checksums by kind: by which
        checksum they are those that were sent; none where they aren't, or aren't there."""
        if set(files) != set(KINDS):
            return None
        known = self.can(archive).get("Hashes") or []
        kind = next((it for it in HASHES if it in known), None)
        words = ["--hash", "--hash-type", kind] if kind else []
        listed = self.listed(f"{archive}/{name}", *words)
        for ending, sent in files.items():
            found = listed.get(f"{name}.{ending}")
            if found is None or found["Size"] not in (-1, sent["bytes"]):
                return None
        told = {
            ending: (listed[f"{name}.{ending}"].get("Hashes") or {}).get(kind) for ending in files
        }
        if kind and all(told.values()):
            is_same_ = all(told[ending] == sent[kind] for ending, sent in files.items())
            return kind if is_same_ else None
        return self.read_back(archive, name, files)

    def listed(self, place: str, *words: str) -> dict[str, dict]:
        """The files of a folder by their names; none where it isn't there."""
        status, answer, said = self.run("lsjson", "--files-only", *words, place, is_told=False)
        if status == 3:
            return {}
        if status:
            raise Fault(f"rclone lsjson: {last_line(said) or f'status {status}'}")
        try:
            found = answers.answer_in(answer.encode(), LISTED, LISTED_BYTES)
        except answers.Unusable as fault:
            raise Fault(f"rclone lsjson: {fault}") from None
        return {it["Name"]: it for it in found}

    def read_back(self, archive: str, name: str, files: dict[str, dict]) -> str | None:
        """The same by all bytes of the files, which are read back: of a place without
        checksums."""
        words = ["hashsum", "sha256", "--download", f"{archive}/{name}"]
        _, answer, _ = self.run(*words)
        found = {line[66:]: line[:64] for line in answer.splitlines()}
        is_same_ = all(
            found.get(f"{name}.{ending}") == sent["sha256"] for ending, sent in files.items()
        )
        return READ_BACK if is_same_ else None

    def is_equal(self, sent: "Sent", place: str, names: list[str], is_quick: bool = False) -> bool:
        """Whether files of a place are those that were sent."""
        return self.compared(sent, place, names, is_quick) == {f"= {name}" for name in names}

    def compared(
        self, sent: "Sent", place: str, names: list[str], is_quick: bool = False
    ) -> set[str]:
        """What `rclone check` says of each file, whether a place has it as it was sent: `=` and its
        name, `*` where it is another one, `+` where it isn't there. It goes by hashes, or, where
        the place has none, by all bytes; with `is_quick` by lengths then. Each is looked up by
        itself, however many there are."""
        words = ["check", str(sent.folder), place, "--one-way", "--combined", "-", "--no-traverse"]
        words += ["--files-from-raw", str(sent.listed(names))]
        has_hashes = bool(self.can(place).get("Hashes"))
        more = ["--size-only"] if is_quick else ["--download"]
        _, answer, said = self.run(*words, *([] if has_hashes else more), is_told=False)
        if UNHASHED in said and has_hashes:
            _, answer, said = self.run(*words, "--download", is_told=False)
        lines = set(answer.splitlines())
        if any(line.startswith("!") for line in lines) or not lines:
            raise Fault(f"rclone check: {last_line(said)}")
        return lines


def hidden(said: str, archive: str) -> str:
    """What rclone said, without the parameters that its words for a place have."""
    found = re.match(REMOTE, archive)
    if found and found[2]:
        for remote in (found[0], found[0].replace('"', r"\""), found[0].replace('"', '""')):
            said = said.replace(remote, f"{found[1]}:")
    return said


def last_line(said: str) -> str:
    """The last line of what was told, without its time."""
    lines = [line for line in said.splitlines() if line.strip()]
    return " ".join(lines[-1].split()[2:] if lines and lines[-1][:2] == "20" else lines[-1:])[:400]


# ------------------------------------------------------------------------------------------- state


class State:
    """What is archived and what waits, in a file that is replaced whole. One program has it."""

    def __init__(
        self, path: Path, place_of: Callable[[str], Place | None] = lambda camera: None
    ) -> None:
        self.path, self.lock, self.place_of = path, threading.RLock(), place_of
        self.archived: list[Archived] = []
        # How many clips of a camera were archived, and since when each one waits.
        self.counts: dict[str, int] = {}
        self.since: list[tuple[Clip, float]] = []
        # What may have been left below `.incoming`: places.
        self.begun: list[str] = []
        # What is written of places, in a file beside the other, which nobody else may read.
        self.places: dict = {}
        self.fault = ""
        self.told: dict = {}
        self.holder = open(f"{path}.lock", "w", encoding="ascii")
        try:
            fcntl.flock(self.holder, fcntl.LOCK_EX | fcntl.LOCK_NB)
        except OSError:
            raise BadSettings(f"state: {path}: another loop_archive has it") from None
        self.load()

    def load(self) -> None:
        """Reads the file. One that can't be read is moved aside: what it said is compared anew."""
        try:
            found = answers.value_in(self.path.read_bytes(), STATE_BYTES)
            with contextlib.suppress(FileNotFoundError):
                places_ = Path(f"{self.path}.places").read_bytes()
                self.places = answers.value_in(places_, STATE_BYTES)
                self.begun = [str(it) for it in self.places["begun"]]
            places = self.places.get("archives", {})
            self.archived = [archived_of(it, places) for it in found["archived"]]
            self.counts = {it["name"]: int(it["archived"]) for it in found["cameras"]}
            self.since = [(clip_in(it), float(it["waits_since"])) for it in found["waiting"]]
        except FileNotFoundError:
            return
        except (ValueError, KeyError, TypeError, AttributeError, OSError) as fault:
            aside = f"{self.path}.unread"
            os.replace(self.path, aside)
            self.archived, self.counts, self.since, self.begun = [], {}, [], []
            tell(f"{self.path} can't be read ({fault!r}), and is now {aside}: all is compared anew")

    def entry(self, clip: Clip) -> Archived | None:
        """The entry of a clip that is held, in the place where it has to be."""
        place = self.place_of(clip.camera)
        return next(
            (
                it
                for it in self.archived
                if not it.is_released
                and is_same(it.clip, clip)
                and (place is None or it.archive == place.archive)
            ),
            None,
        )

    def lose(self, entry: Archived) -> None:
        """The place hasn't a clip any more: it is as if it had never been archived."""
        with self.lock:
            key = entry.name, entry.archive
            self.archived = [it for it in self.archived if (it.name, it.archive) != key]
            self.write()

    def change(self, old: Archived | None, new: Archived) -> None:
        """An entry comes, or takes another one's place."""
        with self.lock:
            if old is None:
                self.archived.append(new)
                self.counts[new.clip.camera] = self.counts.get(new.clip.camera, 0) + 1
            for place, it in enumerate(self.archived):
                if old and (it.name, it.archive) == (old.name, old.archive):
                    # A look may have seen meanwhile that the clip isn't held any more.
                    is_released = new.is_released or it.is_released
                    self.archived[place] = replace(new, is_released=is_released)
            self.write()

    def write(self, is_synced: bool = True) -> None:
        """Writes the file: a new one in the old one's place."""
        with self.lock:
            while len(self.archived) > REMEMBERED:
                old = next((it for it in self.archived if it.is_released), None)
                if old is None:
                    break
                self.archived.remove(old)
            body = {
                "time": time.time(),
                "fault": self.fault,
                "cameras": list(self.told.values()),
                "waiting": [
                    asdict(clip) | {"waits_since": at}
                    for clip, at in self.since
                    if self.entry(clip) is None
                ],
                "archived": [it.as_object() for it in self.archived],
            }
            archives = {it.name: it.archive for it in self.archived}
            places = {"begun": list(self.begun), "archives": archives}
            if places != self.places:
                put(f"{self.path}.places", places, 0o600, is_synced)
                self.places = places
            put(str(self.path), body, 0o640, is_synced)


def put(path: str, body: dict, mode: int, is_synced: bool) -> None:
    """Writes a file: a new one in the old one's place."""
    new = f"{path}.new"
    with open(new, "w", encoding="utf-8") as file:
        os.fchmod(file.fileno(), mode)
        json.dump(body, file, ensure_ascii=False, indent=1)
        file.flush()
        if is_synced:
            os.fsync(file.fileno())
    os.replace(new, path)
    if is_synced:
        folder = os.open(Path(path).parent, os.O_RDONLY)
        try:
            os.fsync(folder)
        finally:
            os.close(folder)


def tell(text: str) -> None:
    """Prints a line, in which no sign does something to a terminal."""
    line = "".join(sign if sign.isprintable() else ascii(sign)[1:-1] for sign in text)
    print(line, flush=True)


# ----------------------------------------------------------------------------------------- cameras


@dataclass
class Sent:
    """A clip's files, ready to be sent: their folder, their name, and what they are."""

    folder: Path
    name: str
    bytes: int
    sha256: str

    def names(self) -> list[str]:
        """The names of the files."""
        return [f"{self.name}.{kind}" for kind in KINDS]

    def listed(self, names: list[str]) -> Path:
        """A file beside the folder that lists some of them."""
        path = self.folder.with_suffix(".names")
        path.write_text("".join(f"{name}\n" for name in names), encoding="utf-8")
        return path

    def digests(self) -> dict[str, dict]:
        """Of each file, by kind, how long it is and its checksums."""
        return {kind: digests_of(self.folder / f"{self.name}.{kind}") for kind in KINDS}


class Camera:
    """A camera's clips, one after the other. A place that doesn't answer holds up no other
    camera."""

    def __init__(self, name: str, place: Place, all_: "Archive") -> None:
        if not NAME.fullmatch(name):
            # It becomes a part of paths.
            raise Fault(f"{name[:40]!r} isn't a camera's name")
        self.name, self.place, self.all = name, place, all_
        self.state, self.rclone, self.page = all_.state, all_.rclone, all_.page
        self.fault, self.told_fault, self.faults = "", "", 0
        self.failed: list[tuple[Clip, int]] = []
        self.thread: threading.Thread | None = None

    def start(self) -> None:
        """Begins to work."""
        self.thread = kept_running(self.name, self.run, self.all.stop, tell)

    def run(self) -> None:
        """Works until the program ends."""
        with contextlib.suppress(Stopped):
            while True:
                work = self.all.wait_for(self.next_work)
                try:
                    work()
                    self.failed = [it for it in self.failed if it[0] != self.at]
                    self.faults, self.fault = 0, ""
                except Stopped:
                    raise
                except Exception as fault:
                    self.refuse(self.all.why(fault))
                    self.all.pause(min(PAUSE_SECONDS * 2 ** (self.faults - 1), MOST_PAUSE_SECONDS))

    def refuse(self, why: str) -> None:
        """Something failed. The next clip is tried then, so that one that can't be archived holds
        up none."""
        self.fault, self.faults = f"{self.at.words()}: {why}", min(self.faults + 1, 20)
        count = next((it[1] for it in self.failed if it[0] == self.at), 0)
        self.failed = [it for it in self.failed if it[0] != self.at] + [(self.at, count + 1)]
        if self.fault != self.told_fault:
            tell(f"waits {self.fault}")
        self.told_fault = self.fault
        self.all.show()

    def next_work(self):
        """What is to be done next; none where nothing is."""
        held = self.all.held_of(self.name)
        works = []
        for clip in held:
            entry = self.state.entry(clip)
            if entry is None:
                works.append((clip, lambda clip=clip: self.archive(clip)))
            elif entry.clip.note != clip.note:
                works.append((clip, lambda clip=clip, it=entry: self.note(clip, it)))
            elif self.place.is_released:
                works.append((clip, lambda clip=clip, it=entry: self.release(clip, it)))
        if not works:
            return None
        failed = dict(self.failed)
        self.at, work = min(works, key=lambda it: (failed.get(it[0], 0), it[0].until, it[0].id))
        return work

    def archive(self, clip: Clip) -> None:
        """Copies a clip, and compares it."""
        with self.spool() as folder:
            sent = self.fetch(clip, folder)
            with self.all.lock_of(self.place.archive):
                sent, is_there = self.named(clip, sent)
                if not is_there:
                    self.send(sent)
            files = sent.digests()
        new = Archived(
            clip, sent.name, self.place.archive, sent.bytes, sent.sha256, time.time(), files
        )
        self.state.change(None, new)
        tell(f"archived {clip.words()} as {sent.name}")
        self.all.show()

    @contextlib.contextmanager
    def spool(self):
        """A folder for a clip's files, which is removed then."""
        folder = self.all.settings.spool / f"{self.name}-{secrets.token_hex(4)}"
        folder.mkdir(parents=True)
        try:
            yield folder
        finally:
            shutil.rmtree(folder, ignore_errors=True)
            folder.with_suffix(".names").unlink(missing_ok=True)

    def fetch(self, clip: Clip, folder: Path) -> Sent:
        """Fetches a clip's files from the page: its frames, their times, and what it is."""
        name, path = clip.front(), f"/api/clips/{quote(clip.camera)}/{clip.id}"
        digest, count = hashlib.sha256(), 0
        free = shutil.disk_usage(folder).free
        with open(folder / f"{name}.y4m", "wb") as file:
            for piece in self.page.pieces(f"{path}.y4m?first={clip.first}", free):
                if self.all.stop.is_set():
                    raise Stopped
                file.write(piece)
                digest.update(piece)
                count += len(piece)
        self.fetch_lines(clip, folder / f"{name}.csv", LINE_BYTES)
        sent = Sent(folder, name, count, digest.hexdigest())
        self.write_words(clip, sent)
        self.verify(clip, sent)
        return sent

    def fetch_lines(self, clip: Clip, path: Path, most: int) -> None:
        """Fetches a text that has a line for each frame of a clip, by its ending. A line has so
        many bytes at most."""
        where = f"/api/clips/{quote(clip.camera)}/{clip.id}{path.suffix}?first={clip.first}"
        lines = min(clip.last - clip.first + 1, MOST_FRAMES) + 1
        with open(path, "wb") as file:
            for piece in self.page.pieces(where, most * lines):
                file.write(piece)

    def verify(self, clip: Clip, sent: Sent) -> None:
        """Reads the files back from the disk, and compares them with what the page says of each
        frame: a release rests on them."""
        from lapyrei import place, sums, verify
        from lapyrei.errors import ExportFault

        place.sync_all(str(sent.folder))
        place.forget_cached(str(sent.folder))
        path = sent.folder.with_suffix(".sums")
        try:
            self.fetch_lines(clip, path, sums.LINE_BYTES)
            said = sums.said_in(str(path))
            if not said.has(clip.first, clip.last):
                # It was released meanwhile, and another one has its id.
                raise Fault("the page gives other frames by now")
            for kind in ("y4m", "csv"):
                verify.verify_text(kind, said, str(sent.folder / f"{sent.name}.{kind}"))
        except answers.Unusable as fault:
            raise Fault(f"what the page says of the frames can't be used: {fault}") from None
        except ExportFault as fault:
            raise Fault(f"{sent.name}: {fault}") from None
        finally:
            path.unlink(missing_ok=True)
        self.verify_words(clip, sent)

    def verify_words(self, clip: Clip, sent: Sent) -> None:
        """The same of what the clip is, such as its tag and its note."""
        with open(sent.folder / f"{sent.name}.json", encoding="utf-8") as file:
            if json.load(file) != self.words_for(clip, sent):
                raise Fault("what was written isn't what was read back: the clip's words")

    def write_words(self, clip: Clip, sent: Sent) -> None:
        """Writes what the clip is, and its note."""
        body = self.words_for(clip, sent)
        with open(sent.folder / f"{sent.name}.json", "w", encoding="utf-8") as file:
            json.dump(body, file, ensure_ascii=False, indent=1)

    def words_for(self, clip: Clip, sent: Sent) -> dict:
        """What the clip is: its tag, its note, its times, and what was sent."""
        body = asdict(clip) | {"bytes": sent.bytes, "sha256": sent.sha256}
        return body | {"from": iso(clip.since), "to": iso(clip.until)}

    def named(self, clip: Clip, sent: Sent) -> tuple[Sent, bool]:
        """The clip under a name that nothing else has in the archive: its own, or, where another
        keep has that, one with a number; and whether it stands there already."""
        place, front = self.place.archive, sent.name
        for number in range(1, 1000):
            name = front if number == 1 else f"{front}-{number}"
            if name != sent.name:
                for kind in KINDS:
                    os.rename(sent.folder / f"{sent.name}.{kind}", sent.folder / f"{name}.{kind}")
                sent = replace(sent, name=name)
            if not self.rclone.has(place, f"{name}/{sent.names()[0]}"):
                return sent, False
            lines = self.rclone.compared(sent, f"{place}/{name}", sent.names())
            if not any(line.startswith("*") for line in lines):
                # All of it, or what a program has left that was killed while it was renamed.
                return sent, all(line.startswith("=") for line in lines)
        raise Fault(f"the archive has 999 others called {front}")

    def send(self, sent: Sent) -> None:
        """Copies the files into `.incoming`, compares them, and gives them their names."""
        archive, limit = self.place.archive, self.all.settings.bandwidth
        with self.all.incoming(archive) as place:
            more = ["--bwlimit", limit] if limit else []
            there = f"{place}/{sent.name}"
            self.rclone.run("copyto", str(sent.folder), there, "--ignore-times", *more)
            if not self.rclone.is_equal(sent, there, sent.names()):
                raise Fault("the copy isn't what was sent")
            self.rclone.run("moveto", there, f"{archive}/{sent.name}", "--ignore-times")
            can = self.rclone.can(archive)["Features"]
            is_renamed = bool(can.get("Move") and can.get("DirMove"))
            if not self.rclone.is_equal(
                sent, f"{archive}/{sent.name}", sent.names(), is_quick=is_renamed
            ):
                self.rclone.run("purge", f"{archive}/{sent.name}", is_told=False)
                raise Fault("the copy was changed when it got its name")

    def note(self, clip: Clip, entry: Archived) -> None:
        """The note was changed: the archive's words are written anew."""
        archive = entry.archive or self.place.archive
        with self.spool() as folder, self.all.lock_of(archive):
            sent = Sent(folder, entry.name, entry.bytes, entry.sha256)
            self.write_words(clip, sent)
            self.verify_words(clip, sent)
            with self.all.incoming(archive) as place:
                name, there = sent.names()[-1], f"{archive}/{entry.name}"
                self.rclone.run("copyto", str(folder / name), f"{place}/{name}", "--ignore-times")
                self.rclone.run("moveto", f"{place}/{name}", f"{there}/{name}", "--ignore-times")
                if not self.rclone.is_equal(sent, there, [name]):
                    raise Fault("the note in the archive isn't what was sent")
            files = entry.files | {"json": digests_of(folder / name)}
        self.state.change(entry, replace(entry, clip=clip, files=files))

    def release(self, clip: Clip, entry: Archived) -> None:
        """Releases a clip that is archived: as it is held now, and as the place has it now."""
        with self.all.lock_of(entry.archive):
            asked = self.rclone.as_sent(entry.archive, entry.name, entry.files)
        if asked is None:
            self.state.lose(entry)
            why = f"the archive hasn't {entry.name} any more as it was sent"
            tell(f"lost {clip.words()}: {why}. It is archived again")
            self.all.look()
            return
        held, _ = self.page.held()
        if not any(is_same(it, clip) and it.note == entry.clip.note for it in held):
            self.all.look()
            return
        self.page.release(clip.camera, clip.id, clip.first, clip.last, clip.tag)
        self.state.change(entry, replace(entry, is_released=True, asked=asked))
        tell(f"released {clip.words()}: {entry.name} is in the archive by {asked}")
        self.all.look()


def iso(microseconds: int) -> str:
    """A time, UTC."""
    moment = datetime.datetime(1970, 1, 1) + datetime.timedelta(microseconds=microseconds)
    return moment.isoformat(timespec="microseconds") + "Z"


# ------------------------------------------------------------------------------------- the program


class Archive:
    """All of it: it asks the page what is kept, and gives each camera its work."""

    def __init__(self, settings: Settings) -> None:
        self.settings, self.stop = settings, threading.Event()
        self.changed = threading.Condition()
        settings.spool.mkdir(parents=True, exist_ok=True)
        self.state = State(settings.state, settings.place_of)
        # What a program left that was killed.
        for left in settings.spool.iterdir():
            if left.is_dir():
                shutil.rmtree(left, ignore_errors=True)
            else:
                left.unlink(missing_ok=True)
        self.page = Page(settings.url, settings.token, clip_of)
        self.rclone = Rclone(settings, self.stop)
        self.cameras: dict[str, Camera] = {}
        self.locks: dict[str, threading.Lock] = {}
        # What was held at the last look, and at the last two.
        self.seen: list[Clip] = []
        self.held: list[Clip] = []
        self.is_heard = False
        # Where copies of this run arrive, for each archive, and what others left.
        self.places: dict[str, str] = {}
        self.left: queue.SimpleQueue[str] = queue.SimpleQueue()
        for place in self.state.begun:
            self.left.put(place)
        self.written, self.state_fault = 0.0, ""

    def why(self, fault: Exception) -> str:
        """What is told of a fault: no word of a place that may have a password in it."""
        if not isinstance(fault, (Fault, PageFault, OSError)):
            return place_of(fault)
        said, known = str(fault), [self.settings.place, *self.settings.places.values()]
        for archive in [it.archive for it in known if it] + list(self.archives()):
            said = hidden(said, archive)
        return said

    def archives(self) -> set[str]:
        """Where clips are that were archived."""
        with self.state.lock:
            return {it.archive for it in self.state.archived}

    def lock_of(self, archive: str) -> threading.Lock:
        """One copy at a time to a place, so that its bandwidth is bounded."""
        with self.changed:
            return self.locks.setdefault(archive, threading.Lock())

    def held_of(self, camera: str) -> list[Clip]:
        """A camera's clips, where the page answers."""
        return [clip for clip in self.held if clip.camera == camera] if self.is_heard else []

    def wait_for(self, found):
        """Waits until there is something, and answers it."""
        while not self.stop.is_set():
            with self.changed:
                if work := found():
                    return work
                self.changed.wait(LOOK_SECONDS)
        raise Stopped

    def pause(self, seconds: float) -> None:
        """Waits."""
        if self.stop.wait(seconds):
            raise Stopped

    @contextlib.contextmanager
    def incoming(self, archive: str):
        """A place below `.incoming` of an archive, that no other try writes to: what was under way
        at a fault may still come."""
        if archive not in self.places:
            self.places[archive] = f"{archive}/{INCOMING}/{secrets.token_hex(8)}"
            with self.state.lock:
                self.state.begun.append(self.places[archive])
                self.state.write()
        try:
            yield self.places[archive]
        except BaseException:
            self.left.put(self.places.pop(archive))
            raise

    def clean(self) -> None:
        """Removes what was left below `.incoming`, each place until that succeeds, without end. What
        a killed copy had under way may come after that, so each is removed once more a while later.
        One that can't be removed yet keeps no other waiting."""
        # When each is due, how often it couldn't be removed, whether it was gone before.
        due: list[tuple[float, int, bool, str]] = []
        with contextlib.suppress(Stopped):
            while True:
                wait = max(due[0][0] - time.monotonic(), 0) if due else None
                with contextlib.suppress(queue.Empty):
                    heapq.heappush(due, (0.0, 0, False, self.left.get(timeout=wait)))
                    continue
                _, faults, was_gone, place = heapq.heappop(due)
                if not self.is_gone(place):
                    pause = min(PAUSE_SECONDS * 2**faults, MOST_PAUSE_SECONDS)
                    again = (time.monotonic() + pause, min(faults + 1, 8), False, place)
                    heapq.heappush(due, again)
                elif not was_gone:
                    heapq.heappush(due, (time.monotonic() + ARRIVE_SECONDS, 0, True, place))
                else:
                    with self.state.lock:
                        self.state.begun = [it for it in self.state.begun if it != place]
                        self.state.write()

    def is_gone(self, place: str) -> bool:
        """Removes a place; answers whether it is gone."""
        with self.lock_of(place.split(f"/{INCOMING}")[0]):
            status, _, said = self.rclone.run("purge", place, is_told=False)
        return status in (0, 3) or "not found" in said

    def look(self) -> None:
        """Asks the page what is held."""
        try:
            (held, read), fault = self.page.held(), ""
        except PageFault as found:
            held, read, fault = [], set(), str(found)
        with self.changed:
            if fault != self.state.fault and fault:
                tell(fault)
            self.state.fault, self.is_heard = fault, not fault
            if not fault:
                self.take(held, read)
            self.changed.notify_all()
        self.show()

    def take(self, held: list[Clip], read: set[str]) -> None:
        """What is held now of the cameras that were read: what is new waits, and what was released
        since is told. What is seen twice has come to stay: a clip of an event that has just ended
        may be the last but one."""
        wanted = [clip for clip in held if self.settings.place_of(clip.camera)]
        now, before = time.time(), self.state.since
        with self.state.lock:
            waiting = [clip for clip in wanted if self.state.entry(clip) is None]
            gone = [
                clip
                for clip, _ in before
                if clip.camera in read and not any(is_same(clip, it) for it in held)
            ]
            for clip in gone:
                if not any(is_same(clip, it.clip) for it in self.state.archived):
                    tell(f"gone {clip.words()}: it was released before it was archived")
            self.state.since = [
                (clip, next((at for it, at in before if is_same(it, clip)), now))
                for clip in waiting
            ] + [it for it in before if it[0].camera not in read]
            # A clip that isn't held any more was released by somebody else.
            for place, entry in enumerate(self.state.archived):
                if entry.clip.camera in read and not any(is_same(entry.clip, it) for it in held):
                    self.state.archived[place] = replace(entry, is_released=True)
        self.held = [it for it in wanted if any(is_same(it, old) for old in self.seen)]
        self.seen = wanted
        for name in {clip.camera for clip in wanted} - set(self.cameras):
            place = self.settings.place_of(name)
            assert place is not None
            self.cameras[name] = Camera(name, place, self)
            self.cameras[name].start()

    def show(self) -> None:
        """Writes how all stands, where that has changed or is old."""
        with self.state.lock:
            now, told = time.time(), {}
            names = {*self.cameras, *self.settings.places, *self.state.counts}
            for name in sorted(names):
                if self.settings.place_of(name) is None:
                    continue
                times = [
                    at
                    for clip, at in self.state.since
                    if clip.camera == name and self.state.entry(clip) is None
                ]
                camera = self.cameras.get(name)
                told[name] = {
                    "name": name,
                    "waiting": len(times),
                    "archived": self.state.counts.get(name, 0),
                    "fault": camera.fault if camera else "",
                    "behind_seconds": round(max(0.0, now - min(times)), 1) if times else 0.0,
                }
            is_old = now - self.written > BEAT_SECONDS
            if is_old or (told, self.state.fault) != (self.state.told, self.state_fault):
                self.state.told, self.state_fault, self.written = told, self.state.fault, now
                try:
                    self.state.write(is_synced=False)
                except OSError as fault:
                    tell(f"{self.state.path} can't be written: {fault.strerror}")

    def run(self) -> None:
        """Works until it is told to end."""
        kept_running("that removes what was left", self.clean, self.stop, tell)
        while not self.stop.is_set():
            self.look()
            self.stop.wait(LOOK_SECONDS)
        for camera in self.cameras.values():
            if camera.thread:
                camera.thread.join(5)


def main(path: str) -> int:
    """Runs the program; answers its status."""
    try:
        archive = Archive(read_settings(path))
    except (BadSettings, OSError) as fault:
        print(f"loop_archive: {fault}", file=sys.stderr)
        return 1
    for number in (signal.SIGTERM, signal.SIGINT):
        signal.signal(number, lambda *_: archive.stop.set())
    tell(f"loop_archive: {archive.settings.url}")
    archive.run()
    return 0
