"""The disk below the stores, measured; and what a store takes of it."""
from __future__ import annotations

import json
import os
import shutil
import subprocess
import sys
import tempfile
import time
from fractions import Fraction
from pathlib import Path
from typing import Any, NamedTuple

from .text import Form

# What is written for the measurement, and for how long at most.
PIECE, MOST, SECONDS = 4 << 20, 256 << 20, 3.0
SYNCS = 20
# How a child says that it may not write there.
NOT_PERMITTED = 77
# The station's rule for a store: its segments and slots, the slots where frames have at most so
# many bytes and the store has 16 segments, and the bytes that aren't pixels.
SLOTS, SEGMENTS_MOST, SLOTS_MOST = 64, 64, 256
SMALL, SEGMENTS_LEAST = ((256, 16384), (128, 65536)), 16
HEADER, SEGMENT_HEAD, SLOT_HEAD = 2560, 512, 32
# So much of the room that is free isn't taken.
SPARE = 0.1
PROPOSED = (1, 2, 5, 10, 20, 30, 60, 120, 240, 480, 720)


class Disk(NamedTuple):
    """A disk: bytes a second, how long a sync takes in milliseconds, mostly and at worst, and the
    bytes that are free."""

    bandwidth: float
    sync: float
    worst: float
    free: int


def measured(folder: Path) -> Disk:
    """Measures the disk of a folder, by a file that is removed again."""
    room = shutil.disk_usage(folder).free
    with tempfile.NamedTemporaryFile(dir=folder, prefix=".loop_setup.") as file:
        piece, done, begun = os.urandom(PIECE), 0, time.monotonic()
        while done < min(MOST, room // 4) and time.monotonic() < begun + SECONDS:
            done += os.write(file.fileno(), piece)
        os.fdatasync(file.fileno())
        bandwidth = done / (time.monotonic() - begun)
        times = []
        for _ in range(SYNCS):
            before = time.monotonic()
            os.pwrite(file.fileno(), piece[:4096], 0)
            os.fdatasync(file.fileno())
            times.append(1000 * (time.monotonic() - before))
    return Disk(bandwidth, sorted(times)[SYNCS // 2], max(times), room)


def measured_by(folder: Path, user: dict[str, Any]) -> Disk:
    """Measures it as another user, by the words that a process takes for one; or as this one."""
    if not user:
        return measured(folder)
    place, words = str(Path(__file__).resolve().parents[1]), "json, sys; sys.path.insert(1, "
    code = (
        f"import {words}{place!r})\nfrom pathlib import Path\nfrom station_camera import disk\n"
        "try:\n    print(json.dumps(disk.measured(Path(sys.argv[1]))))\n"
        f"except PermissionError:\n    sys.exit({NOT_PERMITTED})"
    )
    done = subprocess.run(
        [sys.executable, "-B", "-c", code, str(folder)],
        cwd="/",
        stdin=subprocess.DEVNULL,
        capture_output=True,
        text=True,
        **user,
    )
    if done.returncode == NOT_PERMITTED:
        raise PermissionError(f"{folder}: not permitted")
    if done.returncode:
        raise OSError(f"{folder} can't be measured: {done.stderr.strip().splitlines()[-1:]}")
    return Disk(*json.loads(done.stdout))


def shape(form: Form, minutes: float) -> tuple[int, int] | None:
    """The segments and slots of the store that the station makes for so many minutes, or None where
    none holds so many frames."""
    before = max(int(-(-Fraction(minutes) * 60 * form.rate // 1)) - 1, 0)
    size = form.bytes_of_frame()
    usual = next(
        (
            slots
            for slots, largest in SMALL
            if size <= largest and -(-before // slots) + 1 >= SEGMENTS_LEAST
        ),
        SLOTS,
    )
    slots = max(usual, -(-before // (SEGMENTS_MOST - 1)))
    return None if slots > SLOTS_MOST else (max(2, -(-before // slots) + 1), slots)


def bytes_of(form: Form, segments: int, slots: int) -> int:
    """The bytes of a store."""
    return HEADER + segments * (SEGMENT_HEAD + slots * (SLOT_HEAD + form.bytes_of_frame()))


def store_bytes(form: Form, minutes: float) -> int | None:
    """The bytes of the store that the station makes for so many minutes, or None where none holds
    so many frames."""
    found = shape(form, minutes)
    return None if found is None else bytes_of(form, *found)


def needs(form: Form) -> float:
    """The bytes a second that a camera brings."""
    return float(form.bytes_of_frame() * form.rate)


def gigabytes(count: float) -> str:
    """Bytes in words."""
    return f"{count / 1e9:.1f} GB" if count >= 1e8 else f"{count / 1e6:.1f} MB"
