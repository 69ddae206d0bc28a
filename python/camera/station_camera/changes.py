"""What may be changed while a camera films: a file with some of the words of NAME.camera, which
the page writes. What the camera takes at once is set while it films; a region or a trigger opens it
anew. What it takes, has and refuses is said in a file of /run, so that frames wait for no disk."""
from __future__ import annotations

import json
import os
import resource
import time
from pathlib import Path
from typing import Any, Callable

from . import words
from .faults import Failed, Refused

# How often the file is looked at, and what is said is said anew, in seconds; and its bytes at most.
EVERY, AGAIN, BYTES = 0.5, 5.0, 4096
STATE_BYTES = 1 << 18
OTHER_SIZE = "another size needs another store: sudo loop_setup sets it"


class Changes:
    """The words that count now: those of the camera's own file, and what was changed."""

    def __init__(
        self, content: str, path: str | None, state: str | None, tell: Callable[[str], None]
    ) -> None:
        self.base, self.path, self.state, self.tell = words.lines_of(content), path, state, tell
        # Those that count, and those with which the camera filmed before.
        self.taken: dict[str, str] = {}
        self.good: dict[str, str] = {}
        self.mark: tuple[int, ...] | None = None
        self.fault, self.said, self.looked, self.told = "", "", 0.0, 0.0
        # How often the file was read: so who wrote it knows that it was.
        self.read = 0
        if path:
            self.mark = self._mark()
            self.taken = self._read() or {}

    def wanted(self) -> words.Wanted:
        """What the camera is to be."""
        return words.wanted_in({**self.base, **self.taken})

    def began(self, camera: Any) -> None:
        """The camera has taken it."""
        self.good = self.taken
        self.say(camera)

    def refused(self, why: str) -> bool:
        """The camera doesn't take it: what it took before counts again. Whether there was such."""
        if self.taken == self.good:
            return False
        self._wrong(why)
        self.taken = self.good
        return True

    def look(self, camera: Any) -> bool:
        """Looks at the file, where a moment has passed. Whether the camera is to be opened anew."""
        now = time.monotonic()
        if self.path is None or now < self.looked + EVERY:
            return False
        self.looked, mark = now, self._mark()
        if mark == self.mark:
            if now >= self.told + AGAIN:
                self.say(camera)
            return False
        self.mark, new = mark, self._read()
        is_anew = new is not None and self._take(camera, new)
        if not is_anew:
            self.say(camera)
        return is_anew

    def _take(self, camera: Any, new: dict[str, str]) -> bool:
        """Takes other words. Whether the camera is to be opened anew for them."""
        had, found = {**self.base, **self.taken}, {**self.base, **new}
        other = {key for key in had.keys() | found.keys() if had.get(key) != found.get(key)}
        try:
            wanted = words.wanted_in(found)
            if "REGION" in other and wanted.region:
                if (wanted.region.width, wanted.region.height) != camera.size():
                    raise Refused(f"REGION={found['REGION']}: {OTHER_SIZE}")
            is_anew = not all(key.startswith(camera.AT_ONCE) for key in other)
            if not is_anew:
                self._set(camera, other, found, had)
        except (words.BadFile, Failed, Refused) as fault:
            self._wrong(str(fault))
            return False
        self.taken, self.fault = new, ""
        if not is_anew:
            self.good = new
            for key in sorted(other & found.keys()):
                self.tell(f"{key}={found[key]} is set")
        return is_anew

    def _set(
        self, camera: Any, other: set[str], found: dict[str, str], had: dict[str, str]
    ) -> None:
        """Sets what is other while the camera films; where it refuses one, all as they were."""
        try:
            camera.change({key: it for key, it in found.items() if key in other})
        except Refused:
            camera.change({key: it for key, it in had.items() if key in other})
            raise

    def _wrong(self, why: str) -> None:
        self.fault = why
        self.tell(why)

    def _mark(self) -> tuple[int, ...] | None:
        """By what another file is known."""
        try:
            found = os.stat(self.path or "")
        except OSError:
            return None
        return found.st_ino, found.st_mtime_ns, found.st_size

    def _read(self) -> dict[str, str] | None:
        """The words of the file; none where it isn't there, and nothing where it can't be used."""
        self.read += 1
        try:
            with open(self.path or "", encoding="utf-8") as file:
                found = words.lines_of(file.read(BYTES))
            kind = next((it for it in words.CHANGING if it in self.base), "")
            for key in found:
                if not key.startswith(words.CHANGING.get(kind, ())):
                    raise words.BadFile(f"{key} can't be changed while it films")
            words.wanted_in({**self.base, **found})
            return found
        except FileNotFoundError:
            return {}
        except (OSError, UnicodeDecodeError) as fault:
            self._wrong(f"{self.path}: {getattr(fault, 'strerror', None) or fault}")
        except words.BadFile as fault:
            self._wrong(f"{self.path}: {fault}")
        return None

    def say(self, camera: Any) -> None:
        """Says what the camera takes, has, and has refused, where that is new."""
        self.told = time.monotonic()
        if self.state is None:
            return
        try:
            takes = camera.takes()
        except (Failed, Refused, OSError):
            return
        told = {"words": self.taken, "fault": self.fault, "read": self.read, "takes": takes}
        text = json.dumps(told, separators=(",", ":"))
        if text != self.said and len(text) < STATE_BYTES:
            self.said = text
            try:
                write(Path(self.state), text)
            except OSError as fault:
                self.tell(f"{self.state}: {fault.strerror}")
                self.state = None


def write(path: Path, text: str) -> None:
    """Writes a file whole, which all may read. The service lets none have a byte otherwise."""
    soft, most = resource.getrlimit(resource.RLIMIT_FSIZE)
    room = STATE_BYTES if most == resource.RLIM_INFINITY else min(STATE_BYTES, most)
    resource.setrlimit(resource.RLIMIT_FSIZE, (room, most))
    try:
        new = path.with_name(f".{path.name}.new")
        with open(new, "w", encoding="utf-8") as file:
            os.fchmod(file.fileno(), 0o644)
            file.write(text)
        os.replace(new, path)
    finally:
        resource.setrlimit(resource.RLIMIT_FSIZE, (soft, most))
