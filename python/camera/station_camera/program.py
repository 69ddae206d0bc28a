"""The program loop_camera: its words, and a camera from its file to the text."""
from __future__ import annotations

import os
import signal
import sys
import threading
import time
from pathlib import Path
from typing import Any, Callable, NamedTuple

from . import needed, network, v4l2, words
from .faults import Failed, Refused
from .changes import Changes
from .film import Ended, Film, Given, OfGenicam, OfLinux
from .text import BadFrames, NobodyReads, Text


class Options(NamedTuple):
    """The words of the command line."""

    file: str | None = None
    list: bool = False
    fake: bool = False
    to: str | None = None
    frames: int | None = None
    log: str | None = None
    chunks: str | None = None
    set: str | None = None
    state: str | None = None


def options(given: list[str]) -> Options | None:
    """The words, or None where they can't be read."""
    found: dict[str, Any] = {}
    left = list(given)
    while left:
        word = left.pop(0)
        if word in ("--list", "--fake"):
            found[word[2:]] = True
        elif word in ("--to", "--log", "--chunks", "--set", "--state") and left:
            found[word[2:]] = left.pop(0)
        elif word == "--frames" and left and left[0].isdecimal() and int(left[0]):
            found["frames"] = int(left.pop(0))
        elif not word.startswith("-") and "file" not in found:
            found["file"] = word
        else:
            return None
    is_list = found.get("list") and not found.keys() - {"list", "fake"}
    is_film = "file" in found and not found.keys() & {"list", "fake"}
    return Options(**found) if is_list or is_film else None


class Asked:
    """Whether somebody asks for the end, by a signal. A camera that doesn't answer any more is
    waited for by calls that nothing ends: so what isn't over then after `SECONDS` is given up."""

    SECONDS = 1.0

    def __init__(self) -> None:
        self.is_so = False
        # Whether a frame is being taken, and what is done last.
        self.is_busy: Callable[[], bool] = lambda: False
        self.last: Callable[[], None] = lambda: None
        for number in (signal.SIGTERM, signal.SIGINT, signal.SIGHUP):
            signal.signal(number, self._hear)
        # A signal is written there at once, whatever the program waits for.
        heard, self.bell = os.pipe()
        os.set_blocking(self.bell, False)
        signal.set_wakeup_fd(self.bell, warn_on_full_buffer=False)
        threading.Thread(target=self._give_up, args=(heard,), daemon=True).start()

    def _hear(self, _number: int, _frame: Any) -> None:
        # A second one ends the program, whatever it waits for.
        for number in (signal.SIGTERM, signal.SIGINT, signal.SIGHUP):
            signal.signal(number, signal.SIG_DFL)
        self.is_so = True

    def _give_up(self, heard: int) -> None:
        """Waits for a signal, and ends the program where it doesn't end by itself. A reader that is
        slow has time for the frame that it takes."""
        rung = os.read(heard, 1)
        os.close(heard)
        if not rung:
            return
        end = time.monotonic() + self.SECONDS
        while time.monotonic() < end:
            if self.is_busy():
                end = time.monotonic() + self.SECONDS
            time.sleep(0.05)
        self.last()
        os._exit(0)

    def __call__(self) -> bool:
        return self.is_so

    def close(self) -> None:
        """Nobody is listened to any more."""
        signal.set_wakeup_fd(-1)
        os.close(self.bell)


def list_all(fake: bool) -> int:
    """Prints every camera that is found."""
    found: list[Any] = []
    try:
        found = needed.genicam().cameras(fake)
    except Failed as fault:
        print(fault, file=sys.stderr)
    for it in found:
        print("\n    ".join(lines_of_genicam(it)))
    devices = v4l2.devices()
    for it in devices:
        print("\n    ".join(lines_of_device(it)))
    if not found and not devices:
        print("no camera is found")
    return 0


def lines_of_genicam(it: Any) -> list[str]:
    """What a camera of GenICam says of itself."""
    first = f"GENICAM={it.serial}  {it.name}  {it.protocol} {it.address}".rstrip()
    if it.why:
        return [first, f"doesn't answer: {it.why}"]
    now = f"now {it.size[0]}x{it.size[1]} {it.format}"
    rate = f" {it.rate:g} a second of {it.most:g} at most" if it.most else ""
    return [
        first,
        " ".join(it.formats),
        f"largest {it.largest[0]}x{it.largest[1]}; {now}{rate}",
    ]


def lines_of_device(it: v4l2.Found) -> list[str]:
    """What a device of V4L2 says of itself."""
    modes = [
        f"{mode.format} {mode.width}x{mode.height} {' '.join(mode.rates)} a second".replace(
            "  ", " "
        )
        for mode in it.modes
    ]
    controls = [f"CONTROL_{line}" for line in it.controls]
    return [f"DEVICE={it.device}  {it.name}", *([it.why] if it.why else []), *modes, *controls]


def main(given: list[str], doc: str) -> int:
    """Reads the words; returns the status."""
    wants = options(given)
    if wants is None:
        print(doc.strip("\n"), file=sys.stderr)
        return 2
    name = Path(wants.file or "").stem

    def tell(line: str) -> None:
        print(f"{name}: {line}" if name else line, file=sys.stderr, flush=True)

    return list_all(wants.fake) if wants.list else film(wants, tell)


def film(given: Options, tell, calls: Any = None) -> int:
    """Films a camera; returns the status."""
    try:
        content = Path(given.file or "").read_text(encoding="utf-8")
        wanted = words.wanted(content)
    except (OSError, UnicodeDecodeError) as fault:
        tell(f"{given.file}: {getattr(fault, 'strerror', None) or fault}")
        return 1
    except words.BadFile as fault:
        tell(f"{given.file}: {fault}")
        return 1
    asked = Asked()
    try:
        out = Text(None, given.to) if given.to else Text(1)
        asked.is_busy = lambda: out.is_busy
        if wanted.source:
            network.film(wanted, out, tell, asked)
            return 0
        kind = OfGenicam(wanted, tell) if wanted.genicam else OfLinux(wanted, tell, calls)
        changes = Changes(content, given.set, given.state, tell)
        more = Given(given.log, given.chunks, changes if given.set or given.state else None)
        it = Film(kind, out, tell, asked, given.frames, more)
        asked.last = it.counts.end
        it.run()
    except Ended:
        return 0
    except (NobodyReads, BadFrames, Refused, Failed, OSError) as fault:
        tell(str(fault))
        return 1
    finally:
        asked.close()
    return 0
