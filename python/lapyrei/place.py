"""Where an export is made, so that nothing half made is ever under its name."""
from __future__ import annotations

import contextlib
import errno
import fcntl
import os
import shutil
from collections.abc import Iterator

from . import layout
from .errors import ExportFault

# One of these is in each folder that an export has made.
MADE = ("frames.csv", "about.json", ".zgroup", "zarr.json")
NO_LINKS = (errno.EPERM, errno.EOPNOTSUPP, errno.ENOSYS, errno.EMLINK, errno.EXDEV)


@contextlib.contextmanager
def place_for(out: str, force: bool = False) -> Iterator[str]:
    """A path in a hidden folder beside `out`, where a file or a folder is made. Where all went well
    it is synced and given the name `out`; else nothing stays. What stands at `out` is refused, or
    replaced with `force`. A folder that a killed export has left is removed; one that another
    export is using is refused."""
    out = os.path.abspath(out)
    folder, name = os.path.split(out)
    if not force and os.path.lexists(out):
        raise ExportFault(f"{out} is there already: name another with --output, or use --force")
    if force and os.path.isdir(out) and not os.path.islink(out) and not is_export(out):
        raise ExportFault(f"{out} is a folder that no export has made: remove it yourself")
    if force and is_store(out):
        raise ExportFault(f"{out} is a store, which no export replaces")
    hidden = os.path.join(folder, f".{name}.part")
    try:
        held = hold(hidden)
    except OSError as fault:
        raise ExportFault(f"cannot write {out}: {fault.strerror}") from None
    try:
        made = os.path.join(hidden, name)
        yield made
        sync_all(made)
        move(made, out, force)
        sync(folder)
    except OSError as fault:
        raise ExportFault(f"cannot write {out}: {fault.strerror or fault}") from fault
    finally:
        shutil.rmtree(hidden, ignore_errors=True)
        os.close(held)


def check_room(out: str, size: int) -> None:
    """ExportFault where the disk, or what a process may write into a file, has no room for so many
    bytes: then nothing is begun."""
    folder = os.path.dirname(os.path.abspath(out))
    try:
        found = os.statvfs(folder)
    except OSError as fault:
        raise ExportFault(f"cannot write {out}: {fault.strerror}") from None
    free = found.f_bavail * found.f_frsize
    if size > free:
        raise ExportFault(
            f"cannot write {out}: it needs {size / 1e6:.0f} MB, and the disk has {free / 1e6:.0f}"
        )


def forget_cached(path: str) -> None:
    """Has the system forget what it keeps of a file, or of all in a folder, so that it is read from
    the disk."""
    names = [path]
    if os.path.isdir(path):
        names = [os.path.join(at, it) for at, _, found in os.walk(path) for it in found]
    for name in names:
        file = os.open(name, os.O_RDONLY | os.O_CLOEXEC)
        try:
            os.posix_fadvise(file, 0, 0, os.POSIX_FADV_DONTNEED)
        finally:
            os.close(file)


def is_export(folder: str) -> bool:
    """Whether a folder is one that an export made, which may be replaced."""
    return any(os.path.exists(os.path.join(folder, it)) for it in MADE)


def is_store(path: str) -> bool:
    """Whether a file is a store, or was one."""
    if not os.path.isfile(path):
        return False
    try:
        with open(path, "rb") as file:
            return file.read(8)[1:] == layout.MAGIC
    except OSError:
        return False


def hold(hidden: str) -> int:
    """Makes the hidden folder, and answers a descriptor that holds its lock."""
    for _ in range(2):
        with contextlib.suppress(FileExistsError):
            os.mkdir(hidden)
        held = os.open(hidden, os.O_RDONLY | os.O_DIRECTORY | os.O_CLOEXEC)
        try:
            fcntl.flock(held, fcntl.LOCK_EX | fcntl.LOCK_NB)
        except BlockingIOError:
            os.close(held)
            raise ExportFault(f"{hidden} is in use by another export") from None
        if not os.listdir(hidden):
            return held
        # A killed export has left it.
        shutil.rmtree(hidden)
        os.close(held)
    raise ExportFault(f"{hidden} can't be emptied")


def sync_all(path: str) -> None:
    """Puts a file, or a folder with all that is in it, on the disk."""
    for folder, _, names in os.walk(path):
        for name in names:
            sync(os.path.join(folder, name))
        sync(folder)
    if not os.path.isdir(path):
        sync(path)


def sync(path: str) -> None:
    """Puts a file, or the names in a folder, on the disk."""
    file = os.open(path, os.O_RDONLY | os.O_CLOEXEC)
    try:
        os.fsync(file)
    finally:
        os.close(file)


def move(made: str, out: str, force: bool) -> None:
    """Gives what was made its name. Without `force` nothing that has come there meanwhile is
    replaced."""
    if os.path.isdir(made):
        if force and os.path.isdir(out):
            old = made + ".old"
            os.rename(out, old)
        os.rename(made, out)
        return
    if force:
        os.replace(made, out)
        return
    try:
        os.link(made, out)
    except FileExistsError:
        raise ExportFault(f"{out} is there already: name another with --output") from None
    except OSError as fault:
        if fault.errno not in NO_LINKS or os.path.lexists(out):
            raise
        os.rename(made, out)
