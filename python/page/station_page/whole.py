"""A file of JSON that is replaced whole: a new one is written, synced, and put in the old one's
place."""
import contextlib
import json
import os
from pathlib import Path


def new_of(path: str) -> str:
    """The path of such a file that isn't whole yet."""
    return f"{path}.new"


def clear(path: str) -> None:
    """Removes what a page left that was killed while it wrote."""
    with contextlib.suppress(OSError):
        os.unlink(new_of(path))


def write_whole(path: str, found: object) -> None:
    """Writes a file in the place of the old one; OSError where it can't be, and the old one
    stays."""
    try:
        descriptor = os.open(
            new_of(path),
            os.O_WRONLY | os.O_CREAT | os.O_TRUNC | os.O_NOFOLLOW | os.O_CLOEXEC,
            0o600,
        )
        with os.fdopen(descriptor, "w", encoding="utf-8") as file:
            json.dump(found, file, ensure_ascii=False, indent=1)
            file.flush()
            os.fsync(file.fileno())
        os.replace(new_of(path), path)
        descriptor = os.open(Path(path).parent, os.O_RDONLY)
        try:
            os.fsync(descriptor)
        finally:
            os.close(descriptor)
    except OSError:
        clear(path)
        raise
