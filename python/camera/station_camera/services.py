"""The services of systemd, and what a store says of its frames."""
from __future__ import annotations

import os
import subprocess
import time
from pathlib import Path
from typing import Any

from lapyrei import layout


class Failed(Exception):
    """A service doesn't do what it is told."""


def run(*given: str) -> str:
    """Runs systemctl."""
    try:
        done = subprocess.run(["systemctl", *given], capture_output=True, text=True, timeout=120)
    except FileNotFoundError:
        raise Failed("systemctl isn't here: begin loop_station and loop_camera by hand") from None
    except subprocess.TimeoutExpired:
        raise Failed(f"systemctl {' '.join(given)} doesn't end") from None
    if done.returncode:
        raise Failed(f"systemctl {' '.join(given)}: {(done.stderr or done.stdout).strip()}")
    return done.stdout


def is_active(unit: str) -> bool:
    """Whether a service runs."""
    try:
        return (
            subprocess.run(["systemctl", "is-active", "--quiet", unit], timeout=60).returncode == 0
        )
    except (FileNotFoundError, subprocess.TimeoutExpired):
        return False


def store_at(path: Path) -> Any:
    """What a store is, or None where there is none that can be read now."""
    for _ in range(50):
        try:
            return layout.read_store(str(path))
        except layout.Unsteady:
            time.sleep(0.02)
        except (OSError, layout.Refused):
            return None
        except Exception as fault:
            # The module's own refusals: the file isn't there, or isn't a store yet.
            if type(fault).__module__ != "lapyrei.errors":
                raise
            return None
    return None


def depths_of(store: Any) -> set[int]:
    """How many bits the samples of a store's frames have."""
    return {layout.bits_of(frame.flags) for frame in store.frames}


def wait_for_frame(path: Path, after: int, seconds: float) -> int | None:
    """Waits until a store has a frame of this number or a later one; answers the next number."""
    end = time.monotonic() + seconds
    while time.monotonic() < end:
        found = store_at(path)
        if found is not None and found.next > after:
            return found.next
        time.sleep(0.2)
    return None


def token(path: Path, group: str = "loop_page") -> bool:
    """Makes the page's token where there is none; answers whether it did."""
    if path.exists():
        return False
    import base64
    import shutil

    text = base64.urlsafe_b64encode(os.urandom(32)).decode().rstrip("=")
    path.parent.mkdir(parents=True, exist_ok=True)
    descriptor = os.open(path, os.O_WRONLY | os.O_CREAT | os.O_EXCL, 0o600)
    with os.fdopen(descriptor, "w") as file:
        file.write(text + "\n")
    try:
        shutil.chown(path, group=group)
        os.chmod(path, 0o640)
    except (LookupError, PermissionError):
        # Without the page's user only root reads it, and the page says so.
        pass
    return True
