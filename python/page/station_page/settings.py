"""The station's configuration file, and the page's own words: its options and its file of
settings."""
import argparse
import ipaddress
import os
import platform
import re
import secrets
import stat
import tomllib
from dataclasses import dataclass, field
from pathlib import Path
from urllib.parse import urlsplit

NAME = re.compile(r"[A-Za-z0-9_-]{1,32}")
WORDS = {"listen", "token", "on_alert", "webhook", "notes", "folder", "archive", "station"}
WORDS |= {"cameras", "camera_states"}
WORDS |= {"users", "mail", "mqtt", "remind", "name", "chunks"}
# What the console is called where nobody gives it a name, and the letters of one.
NAMELESS = "Laboratory"
NAME_LETTERS = 64
TOKEN_LEAST = 16
MOST_STATIONS = 16
# The random bytes of a token that the page makes.
TOKEN_BYTES = 32
# Where the version stands: beside the installed modules, or beside the sources.
VERSION_FILES = ("../VERSION", "../../../VERSION")


class BadSettings(Exception):
    """What is wrong with a file or an option, in words for the one who wrote it."""


@dataclass(frozen=True)
class Camera:
    """A camera of the station: its name, the path of its store, the seconds of its button, its
    source in words, and what the order `keep` takes where it doesn't say it: the seconds that are
    still to come, and the tag."""

    name: str
    store: str
    keep: int
    source: str
    after: int = 0
    tag: int = 0


@dataclass(frozen=True)
class OtherStation:
    """The page of another station that this page shows too: its name here, its address, and the
    token that it wants."""

    name: str
    url: str
    token: str | None


@dataclass(frozen=True)
class Settings:
    """All that the page was told."""

    cameras: list[Camera]
    orders: str | None
    answers: str | None
    host: str
    port: int
    token: str | None
    notes: str
    # There are answers, but as text, which the page doesn't read.
    is_text: bool = False
    on_alert: list[str] = field(default_factory=list)
    webhook: str | None = None
    # The file in which loop_archive says how it stands.
    archive: str | None = None
    # The folder below which cameras write what they say of each frame.
    chunks: str | None = None
    stations: list[OtherStation] = field(default_factory=list)
    # What stands in the title and above the page.
    name: str = NAMELESS
    # The station's file, and the folder of its paths.
    config: str | None = None
    folder: str = "."
    # The file of users, each with rights of their own.
    users: str | None = None
    # The folder into which words of cameras are written that are changed here, and the one in which
    # their programs say what they take.
    cameras_set: str | None = None
    camera_states: str | None = None
    # What the page's own file says beside.
    own: dict = field(default_factory=dict)

    def station_name(self) -> str:
        """By what reports name the station."""
        return getattr(self, "name", "") or platform.node() or "station"

    def is_loopback(self) -> bool:
        """Whether this machine alone can reach the page."""
        return is_loopback(self.host)


def is_loopback(host: str) -> bool:
    """Whether an address is one that only this machine reaches."""
    if host == "localhost":
        return True
    try:
        return ipaddress.ip_address(host).is_loopback
    except ValueError:
        return False


def toml_of(path: str) -> dict:
    """A file of TOML."""
    try:
        with open(path, "rb") as file:
            return tomllib.load(file)
    except OSError as fault:
        raise BadSettings(f"{path}: {fault.strerror}") from None
    except (tomllib.TOMLDecodeError, UnicodeDecodeError) as fault:
        raise BadSettings(f"{path}: {fault}") from None


def text_at(table: dict, word: str, path: str) -> str | None:
    """A word of a table that is a text, where it is there."""
    value = table.get(word)
    if value is not None and (not isinstance(value, str) or not value):
        raise BadSettings(f"{path}: {word} isn't a text")
    return value


def camera_of(table: object, folder: str, path: str) -> Camera:
    """A camera of the station's file. What else stands there is the station's own business."""
    if not isinstance(table, dict):
        raise BadSettings(f"{path}: a camera isn't a table")
    name, store = text_at(table, "name", path), text_at(table, "store", path)
    if not name or not NAME.fullmatch(name) or name.isdigit() or not store:
        raise BadSettings(f"{path}: a camera needs a name, of letters, digits, - or _, and a store")
    keep, after, tag = (
        number_at(table, word, left_out, path)
        for word, left_out in (("keep", 60), ("after", 0), ("tag", 0))
    )
    return Camera(name, os.path.join(folder, store), keep, str(table.get("source", "")), after, tag)


def number_at(table: dict, word: str, left_out: int, path: str) -> int:
    """A word of a camera's table that is a number from 0 on; what it is where it is left out."""
    value = table.get(word, left_out)
    if not isinstance(value, int) or isinstance(value, bool) or value < 0:
        raise BadSettings(f"{path}: {word} of {table.get('name')} isn't a number")
    return value


def cameras_of(config: dict, folder: str, path: str) -> list[Camera]:
    """The cameras of the station's file."""
    tables = config.get("camera")
    if not isinstance(tables, list) or not 1 <= len(tables) <= 16:
        raise BadSettings(f"{path}: there are 1 to 16 cameras, each as [[camera]]")
    cameras = [camera_of(table, folder, path) for table in tables]
    if len({camera.name for camera in cameras}) < len(cameras):
        raise BadSettings(f"{path}: two cameras have one name")
    return cameras


def address_of(listen: str) -> tuple[str, int]:
    """The host and the port of an address such as 127.0.0.1:8080 or [::1]:8080."""
    found = re.fullmatch(r"(?:\[([0-9A-Fa-f:.%]+)\]|([^:\[\]]+)):(\d{1,5})", listen)
    if not found or int(found[3]) > 65535:
        raise BadSettings(f"listen: {listen} isn't an address and a port, such as 127.0.0.1:8080")
    return found[1] or found[2], int(found[3])


def token_in(path: str) -> str:
    """The token in a file: its first line. Nobody else may know it, so a file that others may read
    or write is refused."""
    try:
        with open(path, encoding="ascii") as file:
            found = os.fstat(file.fileno())
            if not stat.S_ISREG(found.st_mode):
                raise BadSettings(f"token: {path} isn't a file")
            if found.st_mode & (stat.S_IRWXO | stat.S_IWGRP):
                raise BadSettings(
                    f"token: {path}: others may read or write it. Take that right away: chmod "
                    f"o=,g-w {path}"
                )
            if found.st_uid not in (0, os.geteuid()):
                raise BadSettings(
                    f"token: {path} belongs to another user, who may change it. Make a file of "
                    f"your own"
                )
            token = file.readline(1024).strip()
    except OSError as fault:
        raise BadSettings(f"token: {path}: {fault.strerror}") from None
    except UnicodeDecodeError:
        raise BadSettings(
            f"token: {path}: a token has letters, digits and signs of ASCII alone"
        ) from None
    if len(token) < TOKEN_LEAST:
        raise BadSettings(f"token: {path}: its first line needs {TOKEN_LEAST} characters or more")
    return token


def name_in(text: str | None) -> str:
    """The name of the console; BadSettings where it can't be one."""
    name = (text or NAMELESS).strip()
    if not name or len(name) > NAME_LETTERS or not name.isprintable():
        raise BadSettings(f"name: a name has 1 to {NAME_LETTERS} letters, in one line")
    return name


def make_token(path: str) -> None:
    """Makes a file with a new token, which its owner alone may read. One that is there stays as it
    is."""
    try:
        file = os.open(
            path, os.O_WRONLY | os.O_CREAT | os.O_EXCL | os.O_NOFOLLOW | os.O_CLOEXEC, 0o600
        )
        with os.fdopen(file, "w", encoding="ascii") as out:
            # Whatever the mask of the caller.
            os.fchmod(out.fileno(), 0o600)
            out.write(secrets.token_urlsafe(TOKEN_BYTES) + "\n")
            out.flush()
            os.fsync(out.fileno())
    except OSError as fault:
        raise BadSettings(f"--make-token: {path}: {fault.strerror}") from None


def version() -> str:
    """The version of the program."""
    for place in VERSION_FILES:
        path = Path(__file__).resolve().parent / place
        if path.is_file():
            return path.read_text(encoding="ascii").strip()
    return "unknown"


def parser() -> argparse.ArgumentParser:
    """The options."""
    words = argparse.ArgumentParser(
        prog="loop_page",
        usage="loop_page CONFIG [OPTIONS..]\n       loop_page --settings FILE [OPTIONS..]\n"
        "       loop_page --make-token FILE",
        description="See, press and fetch what a station records, in a browser.",
        epilog="docs/page.md and loop_page(1) describe it.",
    )
    words.add_argument(
        "config",
        metavar="CONFIG",
        nargs="?",
        help="the station's own configuration file; without it the page shows those stations alone "
        "that the settings name",
    )
    words.add_argument("--version", action="version", version=f"loop_page {version()}")
    words.add_argument(
        "--make-token",
        metavar="FILE",
        help="make a file with a new token, which you alone may read, and end",
    )
    words.add_argument(
        "--listen",
        metavar="ADDRESS:PORT",
        help=(
            "where the page is (127.0.0.1:8080); another address than this machine's wants a token"
        ),
    )
    words.add_argument(
        "--token",
        metavar="FILE",
        help="a file whose first line is the token, of 16 characters or more; "
        "others may neither read nor write it",
    )
    words.add_argument(
        "--users",
        metavar="FILE",
        help="a file of users, each with rights and the hash of a token of their own",
    )
    words.add_argument(
        "--add-user",
        nargs=3,
        metavar=("FILE", "NAME", "RIGHTS"),
        help="add a user to such a file, with rights of see,keep,release,set; print the token, and end",
    )
    words.add_argument(
        "--settings",
        metavar="FILE",
        help="more words: listen, token, name, on_alert, webhook, notes, folder, archive, chunks, "
        "station (TOML)",
    )
    words.add_argument(
        "--folder",
        metavar="FOLDER",
        help="the folder in which the station runs, for paths that are relative (this one)",
    )
    words.add_argument(
        "--name",
        metavar="TEXT",
        help="what the station is called in the page's title and head (Laboratory)",
    )
    words.add_argument(
        "--notes", metavar="FILE", help="where notes are kept (loop_page.notes in that folder)"
    )
    return words


def own_words(path: str | None) -> dict:
    """The page's own file of settings, where one is given."""
    own = toml_of(path) if path else {}
    if unknown := sorted(set(own) - WORDS):
        raise BadSettings(f"{path}: unknown words: {', '.join(unknown)}")
    command = own.get("on_alert", [])
    if not isinstance(command, list) or not all(isinstance(word, str) and word for word in command):
        raise BadSettings(f"{path}: on_alert is a list of texts, a command and its words")
    webhook = text_at(own, "webhook", path or "")
    if webhook and not re.match(r"https?://", webhook):
        raise BadSettings(f"{path}: webhook is an address that begins with http:// or https://")
    return own


def stations_of(tables: object, path: str) -> list[OtherStation]:
    """The other stations that a file names."""
    if not isinstance(tables, list) or len(tables) > MOST_STATIONS:
        raise BadSettings(f"{path}: there are at most {MOST_STATIONS} stations, as [[station]]")
    found = []
    for table in tables:
        if not isinstance(table, dict) or set(table) - {"name", "url", "token"}:
            raise BadSettings(f"{path}: a [[station]] has url, token and name alone")
        url, token = text_at(table, "url", path), text_at(table, "token", path)
        parts = urlsplit(url or "")
        if parts.scheme not in ("http", "https") or not parts.hostname or parts.query:
            raise BadSettings(f"{path}: url of a [[station]] is an address that begins with http://"
                              " or https://")
        name = text_at(table, "name", path) or re.sub(r"[^A-Za-z0-9_-]", "-", parts.hostname)
        if not NAME.fullmatch(name) or any(it.name == name for it in found):
            raise BadSettings(f"{path}: {name} can't be a station's name, or is another one's: give "
                              "it a name, of letters, digits, - or _")
        found.append(OtherStation(name, url.rstrip("/"), token_in(token) if token else None))
    return found


def options_of(words: list[str]) -> argparse.Namespace:
    """Reads the options. `--help`, `--version` and unknown words end the program here."""
    options = parser()
    given = options.parse_args(words)
    is_page = given.config is not None or given.settings is not None
    others = (given.make_token is not None) + (given.add_user is not None)
    if is_page + others != 1:
        options.error("name the station's configuration file, or --make-token or --add-user alone")
    return given


def read_settings(given: argparse.Namespace) -> Settings:
    """Reads the files that the options name."""
    own = own_words(given.settings)
    config = toml_of(given.config) if given.config else {}
    if not given.config and not own.get("station"):
        raise BadSettings(
            f"{given.settings}: without a station's configuration the page wants stations, as "
            "[[station]]"
        )
    named = {
        word: getattr(given, word) or text_at(own, word, given.settings or "")
        for word in ("listen", "token", "users", "folder", "notes", "name")
    }
    folder = str(Path(named["folder"] or ".").absolute())
    host, port = address_of(named["listen"] or "127.0.0.1:8080")
    token = token_in(named["token"]) if named["token"] else None
    users = named["users"] and os.path.join(folder, named["users"])
    if token is None and users is None and not is_loopback(host):
        raise BadSettings(
            f"listen: {host} can be reached from elsewhere, so the page wants a token: --token FILE"
        )
    place = {word: text_at(config, word, given.config or "") for word in ("orders", "answers")}
    orders, answers = (path and os.path.join(folder, path) for path in place.values())
    is_text = answers is not None and config.get("answers_form") != "json"
    notes = os.path.join(folder, named["notes"] or "loop_page.notes")
    archive, chunks, cameras_set, camera_states = (
        path and os.path.join(folder, path)
        for path in (
            text_at(own, it, given.settings or "")
            for it in ("archive", "chunks", "cameras", "camera_states")
        )
    )
    return Settings(
        cameras_of(config, folder, given.config) if given.config else [],
        orders,
        None if is_text else answers,
        host,
        port,
        token,
        notes,
        is_text,
        list(own.get("on_alert", [])),
        own.get("webhook"),
        archive,
        chunks,
        stations_of(own.get("station", []), given.settings or ""),
        name=name_in(named["name"]),
        config=given.config,
        folder=folder,
        users=users,
        cameras_set=cameras_set,
        camera_states=camera_states,
        own={word: own[word] for word in ("mail", "mqtt", "remind") if word in own},
    )
