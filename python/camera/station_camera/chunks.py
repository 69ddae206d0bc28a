"""What a camera says of each frame beside its pixels (GenICam's chunk data): a line of CSV for each
frame that was given on, by the camera's own number. The page puts those of a clip into its zip.

Another process writes the files, this file as a program: so frames wait for no disk, and the
camera's service itself may write no file."""
from __future__ import annotations

import contextlib
import csv
import io
import os
import resource
import signal
import subprocess
import sys
import time
from pathlib import Path
from typing import IO, Callable, Sequence

# The lines of a file, and what all files of a camera have at most: the oldest go first.
LINES, MOST = 50_000, 256_000_000
# How long the lines that are on their way may take at the end.
SECONDS = 10.0


class Chunks:
    """The lines of a camera, on their way into a folder. What can't be written is told once, and
    frames go on without it."""

    def __init__(self, folder: Path, names: Sequence[str], tell: Callable[[str], None]) -> None:
        self.tell, self.is_told = tell, False
        self.run: subprocess.Popen[bytes] | None = None
        if names:
            words = [sys.executable, "-B", os.path.abspath(__file__), str(folder), *names]
            self.run = subprocess.Popen(words, stdin=subprocess.PIPE, bufsize=0)
            assert self.run.stdin is not None
            os.set_blocking(self.run.stdin.fileno(), False)

    def write(self, number: int, micros: int | None, values: Sequence[object]) -> None:
        """Writes what was said of a frame. One without a time of its own has that of now."""
        if self.run is None or self.run.stdin is None:
            return
        moment = micros if micros is not None else time.time_ns() // 1000
        line = io.StringIO()
        csv.writer(line).writerow([number, moment, *values])
        try:
            # Lines are shorter than what a pipe takes whole or not at all.
            os.write(self.run.stdin.fileno(), line.getvalue().encode(errors="replace"))
        except OSError as fault:
            if not self.is_told:
                self.is_told = True
                why = "the disk is slow" if isinstance(fault, BlockingIOError) else fault.strerror
                self.tell(f"chunks aren't written for now: {why}")

    def close(self) -> None:
        """Lets what is on its way be written."""
        if self.run and self.run.stdin:
            self.run.stdin.close()
            with contextlib.suppress(subprocess.TimeoutExpired):
                self.run.wait(SECONDS)
            self.run.kill()
            self.run.wait()
            self.run = None


class Files:
    """The files of a camera, in a folder: each is named by the time of its first frame in
    microseconds."""

    def __init__(self, folder: Path, names: Sequence[str]) -> None:
        self.folder, self.names = folder, tuple(names)
        self.file: IO[str] | None = None
        self.lines = 0

    def write(self, moment: int, line: str) -> None:
        """Writes a line; OSError where that can't be."""
        try:
            if self.file is None or self.lines >= LINES:
                self._begin(moment)
            assert self.file is not None
            self.file.write(line)
            self.lines += 1
        except OSError:
            self.file = None
            raise

    def _begin(self, moment: int) -> None:
        """Begins a file, and removes old ones where there are too many."""
        self.close()
        self.folder.mkdir(mode=0o755, parents=True, exist_ok=True)
        self.folder.chmod(0o755)
        files = sorted(self.folder.glob("[0-9]*.csv"))
        sizes = {path: path.stat().st_size for path in files}
        while files and sum(sizes.values()) > MOST:
            old = files.pop(0)
            old.unlink()
            del sizes[old]
        # A clock may have been set back: no file is written over.
        while (path := self.folder / f"{moment:020}.csv").exists():
            moment += 1
        self.file = open(path, "w", encoding="ascii", errors="replace", newline="", buffering=1)
        path.chmod(0o644)
        csv.writer(self.file).writerow(["number", "time_us", *self.names])
        self.lines = 0

    def close(self) -> None:
        """Closes the file."""
        if self.file:
            self.file.close()
            self.file = None


def main(folder: str, names: Sequence[str]) -> None:
    """Writes the lines that come, to their end. A signal is for the program that sends them."""
    for number in (signal.SIGTERM, signal.SIGINT, signal.SIGHUP):
        signal.signal(number, signal.SIG_IGN)
    _, most = resource.getrlimit(resource.RLIMIT_FSIZE)
    resource.setrlimit(resource.RLIMIT_FSIZE, (most, most))
    files, is_told = Files(Path(folder), names), False
    for line in open(0, encoding="ascii", errors="replace", newline=""):
        try:
            files.write(int(line.split(",")[1]), line)
        except OSError as fault:
            if not is_told:
                is_told = True
                said = f"chunks can't be written into {folder}: {fault.strerror}"
                print(said, file=sys.stderr, flush=True)
    files.close()


if __name__ == "__main__":
    main(sys.argv[1], sys.argv[2:])
