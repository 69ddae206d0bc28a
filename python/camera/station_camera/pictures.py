"""A first picture: some frames of loop_camera, the rate at which they came, and the last as PNG."""
from __future__ import annotations

import contextlib
import grp
import os
import pwd
import re
import subprocess
import sys
import tempfile
import threading
import time
from fractions import Fraction
from pathlib import Path
from typing import IO, Any, NamedTuple, Sequence

from . import text
from .faults import Failed

HERE = Path(__file__).resolve().parent
# Beside the sources, or where the programs are installed.
PLACES = (HERE.parent / "loop_camera", HERE.parents[2] / "bin" / "loop_camera")
PROGRAM = next((it for it in PLACES if it.is_file()), PLACES[0])
NONE = "no picture came"
COLOURS = {word: name for name, word in text.COLOURS.items()}
# So many frames at least, for so long, and no longer than that; and twice that for a picture of one.
FRAMES, MEASURED, SECONDS = 5, 2.0, 30.0
# The service's user, and the groups that its unit adds.
USER, GROUPS = "loop_camera", ("video",)


class Taken(NamedTuple):
    """What came: the form of the frames, how many a second, the picture's path, and what was
    counted beside whole frames, in words."""

    form: text.Form
    rate: float | None
    path: Path
    missed: str = ""


def form_in(line: bytes) -> text.Form:
    """The form that a header says."""
    found = re.match(rb"YUV4MPEG2 W(\d+) H(\d+) F(\d+):(\d+) .*?C(\w+)", line)
    if not found or found[5].decode() not in COLOURS:
        raise Failed(f"{NONE}: its frames have another header: {line[:80]!r}")
    rate = Fraction(int(found[3]), int(found[4]) or 1)
    return text.Form(int(found[1]), int(found[2]), COLOURS[found[5].decode()], rate)


def user_of(name: str, more: Sequence[str] = ()) -> dict[str, Any]:
    """By which words a process is a service's, with its user and groups; none where this isn't
    root, or there is no such user."""
    if os.geteuid():
        return {}
    try:
        user = pwd.getpwnam(name)
    except KeyError:
        return {}
    groups = set(os.getgrouplist(name, user.pw_gid))
    for it in more:
        with contextlib.suppress(KeyError):
            groups.add(grp.getgrnam(it).gr_gid)
    return dict(user=user.pw_uid, group=user.pw_gid, extra_groups=sorted(groups))


def take(content: str, name: str, folder: Path, is_service: bool = False) -> Taken:
    """Takes a picture by the text of a NAME.camera, into a folder; as the service's user, where
    that is wanted: what it may not do shows here."""
    own = user_of(USER, GROUPS) if is_service else {}
    with tempfile.TemporaryDirectory(prefix="loop_setup.") as place:
        file = Path(place) / f"{name}.camera"
        file.write_text(content, encoding="utf-8")
        if own:
            for path in (Path(place), file):
                os.chown(path, own["user"], own["group"])
        with open(Path(place) / "said", "w+b") as said:
            run = subprocess.Popen(
                [sys.executable, "-B", PROGRAM, file],
                stdin=subprocess.DEVNULL,
                stdout=subprocess.PIPE,
                stderr=said,
                start_new_session=True,
                cwd=place,
                **own,
            )
            # Whatever happens, it has an end.
            timer = threading.Timer(SECONDS, run.kill)
            timer.start()
            try:
                found = taken(run.stdout, folder / f"{name}.png")
            except (Failed, ValueError) as fault:
                run.kill()
                run.wait()
                # What ffmpeg lacks isn't the camera's fault.
                why = told(said)[-1:] if str(fault).startswith(NONE) else [str(fault)]
                raise Failed(": ".join([NONE, *why])) from None
            finally:
                timer.cancel()
                end(run)
            return found._replace(missed=missed_in(told(said)))


def told(said: IO[bytes]) -> list[str]:
    """The lines that loop_camera has said."""
    said.seek(0)
    return said.read().decode(errors="replace").strip().splitlines()


def missed_in(lines: list[str]) -> str:
    """What loop_camera has counted beside whole frames, in its own words."""
    end = next((line for line in reversed(lines) if "ended: " in line), "")
    return end.partition(" frames given on, ")[2]


def end(run: subprocess.Popen) -> None:
    """Ends loop_camera so that it gives the camera back: it isn't killed where it ends by
    itself."""
    run.stdout.close()
    run.terminate()
    try:
        run.wait(10)
    except subprocess.TimeoutExpired:
        run.kill()
        run.wait()


def taken(source, path: Path) -> Taken:
    """Reads some frames, and makes a picture of the last."""
    head = source.readline()
    form = form_in(head)
    data, times = b"", [0.0]
    while len(times) <= FRAMES or times[-1] < times[1] + MEASURED:
        line = source.readline()
        data = source.read(form.bytes_of_frame())
        times.append(time.monotonic())
        if not line.startswith(b"FRAME") or len(data) < form.bytes_of_frame():
            raise Failed(f"{NONE}: it ended")
    # The first one has waited while the others came; on a busy machine all have.
    took = times[-1] - times[2]
    png(head, data, path)
    return Taken(form, (len(times) - 3) / took if took > 0 else None, path)


def png(head: bytes, data: bytes, path: Path) -> None:
    """Makes a PNG of a frame."""
    words = [
        "ffmpeg",
        "-nostdin",
        "-v",
        "error",
        "-f",
        "yuv4mpegpipe",
        "-i",
        "pipe:0",
        "-frames:v",
        "1",
        "-f",
        "image2pipe",
        "-c:v",
        "png",
        "pipe:1",
    ]
    try:
        done = subprocess.run(
            words, input=head + b"FRAME\n" + data, capture_output=True, timeout=2 * SECONDS
        )
    except FileNotFoundError:
        raise Failed("ffmpeg isn't installed: sudo apt install ffmpeg") from None
    except subprocess.TimeoutExpired:
        raise Failed(f"ffmpeg makes no picture within {2 * SECONDS:.0f} s") from None
    if done.returncode or not done.stdout:
        raise Failed(f"ffmpeg makes no picture: {done.stderr.decode(errors='replace').strip()}")
    path.write_bytes(done.stdout)
    os.chmod(path, 0o644)
