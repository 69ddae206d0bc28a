"""Who may do what: a file of users, each with the rights that they have and the hash of their
token. The program makes the tokens, of 32 random bytes, so a plain SHA-256 tells nobody any of
them. A file that is changed counts at once: who is taken out is out."""
import hashlib
import logging
import os
import re
import secrets
import stat
import time
from dataclasses import dataclass

from . import limits
from .settings import NAME, TOKEN_BYTES, BadSettings

log = logging.getLogger("loop_page")

# To look; to keep, write notes, and take notice of warnings; to release; to set cameras.
RIGHTS = ("see", "keep", "release", "set")
LINE = re.compile(r"(\S+)\s+(\S+)\s+([0-9a-f]{64})")
HEAD = "# A line for each user: name, rights (of see, keep, release, set), SHA-256 of the token.\n"
# What a change asks for, by its address; all else asks for `see`.
CHANGES = {
    "/api/keep": "keep",
    "/api/note": "keep",
    "/api/event/note": "keep",
    "/api/seen": "keep",
    "/api/release": "release",
    "/api/event/release": "release",
    "/api/camera": "set",
}


@dataclass(frozen=True)
class User:
    """A user: the name, which is nothing for who has the page's own token, and the rights."""

    name: str
    rights: tuple[str, ...]


OWNER = User("", RIGHTS)


def right_for(path: str) -> str:
    """The right that a request at an address asks for."""
    return CHANGES.get(path, "see")


def rights_in(text: str) -> tuple[str, ...] | None:
    """Rights with commas between them; None where one is unknown."""
    words = text.split(",")
    return tuple(it for it in RIGHTS if it in words) if set(words) <= set(RIGHTS) else None


def hash_of(token: str) -> str:
    """The hash of a token, as the file has it."""
    return hashlib.sha256(token.strip().encode(errors="replace")).hexdigest()


def users_in(path: str) -> dict[str, User]:
    """The users of a file, by the hash of their token; BadSettings where it can't be used."""
    found: dict[str, User] = {}
    try:
        with open(path, encoding="utf-8") as file:
            mode = os.fstat(file.fileno())
            if not stat.S_ISREG(mode.st_mode) or mode.st_mode & (stat.S_IWOTH | stat.S_IWGRP):
                raise BadSettings(f"users: {path} isn't a file that you alone may write")
            lines = file.read(limits.USERS_BYTES).splitlines()
    except OSError as fault:
        raise BadSettings(f"users: {path}: {fault.strerror}") from None
    except UnicodeDecodeError:
        raise BadSettings(f"users: {path} isn't a text") from None
    for number, line in enumerate(lines, 1):
        if not line.strip() or line.startswith("#"):
            continue
        words = LINE.fullmatch(line.strip())
        rights = rights_in(words[2]) if words else None
        if not words or not NAME.fullmatch(words[1]) or rights is None:
            raise BadSettings(f"users: {path}:{number}: a line has a name, rights and a hash")
        if words[1] in {it.name for it in found.values()} or words[3] in found:
            raise BadSettings(f"users: {path}:{number}: {words[1]} is there twice")
        found[words[3]] = User(words[1], rights)
    return found


def add_user(path: str, name: str, rights: str) -> str:
    """Adds a user to a file, which is made where it isn't there, and answers the token; a user of
    that name gets new rights and a new token."""
    if not NAME.fullmatch(name) or not rights_in(rights):
        raise BadSettings(f"--add-user: a name of letters, and rights of {', '.join(RIGHTS)}")
    old = users_in(path) if os.path.exists(path) else {}
    token = secrets.token_urlsafe(TOKEN_BYTES)
    lines = [f"{it.name} {','.join(it.rights)} {mark}" for mark, it in old.items()
             if it.name != name]
    lines.append(f"{name} {','.join(rights_in(rights) or ())} {hash_of(token)}")
    try:
        file = os.open(f"{path}.new", os.O_WRONLY | os.O_CREAT | os.O_TRUNC | os.O_NOFOLLOW, 0o640)
        with os.fdopen(file, "w", encoding="utf-8") as out:
            out.write(HEAD + "\n".join(lines) + "\n")
            out.flush()
            os.fsync(out.fileno())
        os.replace(f"{path}.new", path)
    except OSError as fault:
        raise BadSettings(f"--add-user: {path}: {fault.strerror}") from None
    return token


class Users:
    """The users of a file, as it is now. One that can't be used any more lets nobody in."""

    def __init__(self, path: str) -> None:
        self.path = path
        self.known, self.mark, self.looked = users_in(path), self.stamp(), time.monotonic()

    def stamp(self) -> tuple | None:
        """By what another file is known."""
        try:
            found = os.stat(self.path)
        except OSError:
            return None
        return found.st_ino, found.st_mtime_ns, found.st_size

    def fresh(self) -> dict[str, User]:
        """The users, looked at again where a moment has passed and the file is another one."""
        if time.monotonic() - self.looked >= limits.USERS_SECONDS:
            self.looked, mark = time.monotonic(), self.stamp()
            if mark != self.mark:
                self.mark = mark
                try:
                    self.known = users_in(self.path)
                except BadSettings as fault:
                    log.warning("%s. Nobody of it is let in", fault)
                    self.known = {}
        return self.known

    def of_token(self, token: str) -> User | None:
        """The user of a token."""
        return self.fresh().get(hash_of(token)) if token else None

    def named(self, name: str) -> User | None:
        """The user of a name."""
        return next((it for it in self.fresh().values() if it.name == name), None)
