"""What the station says of its cameras: it is asked by its pipe of orders, and its service prints
the answers into the journal."""
from __future__ import annotations

import os
import re
import subprocess
import time
from pathlib import Path

# How long an answer is waited for, in seconds.
PATIENCE = 5.0


def journal(since: float) -> str:
    """What the station has printed since a time."""
    words = ["journalctl", "-u", "loop_station", "-o", "cat", "--since", f"@{since:.0f}"]
    try:
        done = subprocess.run(words, capture_output=True, text=True, timeout=60)
    except (OSError, subprocess.TimeoutExpired):
        return ""
    return done.stdout


def status(pipe: Path) -> dict[str, str]:
    """The line of `status` of each camera, by its name; none where the station doesn't answer."""
    began = time.time()
    label = f"check-{os.getpid()}-{time.time_ns() % 10**9}"
    try:
        # Without a reader nobody waits.
        descriptor = os.open(pipe, os.O_WRONLY | os.O_NONBLOCK)
    except OSError:
        return {}
    with os.fdopen(descriptor, "w") as file:
        file.write(f"@{label} status\n")
    while time.time() < began + PATIENCE:
        said = journal(began - 1)
        if f"@{label} done" in said:
            found = re.findall(rf"@{label} status (\S+) (.*)", said)
            return dict(found)
        time.sleep(0.2)
    return {}


def clock_in(line: str) -> float | None:
    """By how many seconds a camera's clock is ahead of the station's; below 0: behind. None where
    its frames have no times of their own."""
    found = re.search(r" clock ([+-]\d+(?:\.\d+)?) s\b", line)
    return float(found[1]) if found else None
