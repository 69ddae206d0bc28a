"""What people write beside clips, in a file of the page's own: by the store's path and by the clip,
so that a note never comes to stand beside other frames. A clip is known by its event's number and
the time of its first frame, since it grows while its event goes on; where it has a tag of yours, by
its id and the times of its first and last frame. The file is written anew, synced, and put in the
old one's place."""
import json
import threading

from . import limits
from .heard import is_number
from .reader import Clip
from .whole import clear, write_whole

VERSION = 1


class NotesFault(Exception):
    """Why a note can't be written, in a sentence."""


def tidy(text: str) -> str:
    """A note in one line, without control characters."""
    line = " ".join("".join(sign if sign.isprintable() else " " for sign in text).split())
    if len(line.encode()) > limits.NOTE_BYTES:
        raise NotesFault(f"A note has at most {limits.NOTE_BYTES} bytes.")
    return line


def key_of(store: str, clip: Clip) -> str:
    """By what a note is found: ids are used again, also for a clip that begins where an earlier one
    did."""
    return f"event {clip.tag} {clip.since} {store}" if is_number(clip.tag) else by_ends(store, clip)


def by_ends(store: str, clip: Clip) -> str:
    """By what a note of a clip with a tag of yours is found; an older page has written all notes
    so."""
    return f"{clip.id} {clip.since} {clip.until} {store}"


class Notes:
    """All notes, as the file has them."""

    def __init__(self, path: str) -> None:
        self.path, self.lock = path, threading.Lock()
        self.notes: dict[str, str] = {}
        # It grows with each change, so that open pages see that there is one.
        self.version = 0
        clear(path)
        self.fault = self.load()

    def load(self) -> str | None:
        """Reads the file. Answers why it can't be, if so; then it is never written over."""
        try:
            with open(self.path, encoding="utf-8") as file:
                found = json.load(file)
            if (
                not isinstance(found, dict)
                or found.get("version") != VERSION
                or not isinstance(found.get("notes"), dict)
            ):
                raise ValueError
            self.notes = {str(key): str(text) for key, text in found["notes"].items()}
        except FileNotFoundError:
            return None
        except (OSError, ValueError, RecursionError):
            return (
                f"The file of notes can't be read: {self.path}. Move it away, and start the page "
                f"again."
            )
        return None

    def of(self, store: str, clip: Clip) -> str:
        """The note of a clip."""
        return self.notes.get(key_of(store, clip)) or self.notes.get(by_ends(store, clip), "")

    def put(self, clips: list[tuple[str, Clip]], text: str, is_held) -> None:
        """Writes a note beside some clips, each with its store's path, or takes it away where it is
        empty. All of it is one write. `is_held` says of a key whether its clip still stands: notes
        of others make room."""
        line = tidy(text)
        with self.lock:
            if self.fault:
                raise NotesFault(self.fault)
            own = {key for it in clips for key in (key_of(*it), by_ends(*it))}
            changed = {key: value for key, value in self.notes.items() if key not in own}
            if line and len(changed) + len(clips) > limits.NOTES:
                changed = {key: value for key, value in changed.items() if is_held(key)}
            if line:
                changed |= {key_of(*it): line for it in clips}
            self.write(changed)
            self.notes, self.version = changed, self.version + 1

    def write(self, notes: dict[str, str]) -> None:
        """Writes the file."""
        try:
            write_whole(self.path, {"version": VERSION, "notes": notes})
        except OSError as fault:
            raise NotesFault(f"The note can't be written: {self.path}: {fault.strerror}.") from None
