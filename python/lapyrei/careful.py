"""A file for HDF5 that takes whatever it is given. HDF5 can't close a file of which a write failed:
it fails again, and once more at the end of the process, which it then ends. So what has no room is
kept in memory, and the fault is told once the file is closed."""
from __future__ import annotations

import io
import os
from typing import Any


class CarefulFile(io.RawIOBase):
    """A file to write and read at any place. `fault` is what the first write that failed said; what
    was to be written from then on is in memory alone."""

    def __init__(self, path: str) -> None:
        super().__init__()
        self.file = os.open(path, os.O_RDWR | os.O_CREAT | os.O_TRUNC | os.O_CLOEXEC, 0o666)
        self.at, self.length = 0, 0
        self.fault: OSError | None = None
        self.kept: list[tuple[int, bytes]] = []

    def check(self) -> None:
        """Raises what has failed."""
        if self.fault is not None:
            raise self.fault

    def readable(self) -> bool:
        """It can be read."""
        return True

    def writable(self) -> bool:
        """It can be written."""
        return True

    def seekable(self) -> bool:
        """Any place can be named."""
        return True

    def tell(self) -> int:
        """The place of the next read or write."""
        return self.at

    def seek(self, offset: int, whence: int = os.SEEK_SET) -> int:
        """Goes to a place."""
        start = {os.SEEK_SET: 0, os.SEEK_CUR: self.at, os.SEEK_END: self.length}[whence]
        self.at = start + offset
        return self.at

    def write(self, data: Any) -> int:
        """Writes all of it, or keeps it."""
        view, at = memoryview(data).cast("B"), self.at
        count = len(view)
        try:
            self.check()
            while view:
                done = os.pwrite(self.file, view, at)
                view, at = view[done:], at + done
        except OSError as fault:
            self.fault = fault
            self.kept.append((at, bytes(view)))
        self.at += count
        self.length = max(self.length, self.at)
        return count

    def readinto(self, buffer: Any) -> int:
        """Reads what was written, wherever it is."""
        view = memoryview(buffer).cast("B")
        count = max(0, min(len(view), self.length - self.at))
        found = bytearray(os.pread(self.file, count, self.at))
        found.extend(bytes(count - len(found)))
        for place, data in self.kept:
            first, end = max(place, self.at), min(place + len(data), self.at + count)
            if first < end:
                found[first - self.at : end - self.at] = data[first - place : end - place]
        view[:count] = found
        self.at += count
        return count

    def truncate(self, size: int | None = None) -> int:
        """Cuts it, or lets it grow."""
        self.length = self.at if size is None else size
        try:
            self.check()
            os.ftruncate(self.file, self.length)
        except OSError as fault:
            self.fault = fault
        return self.length

    def close(self) -> None:
        """Closes it."""
        file, self.file = self.file, -1
        if file >= 0:
            os.close(file)
        super().close()
