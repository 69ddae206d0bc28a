"""Network cameras and films, by ffmpeg, which takes this program's place. They have no numbers, and
no times but those of their arrival."""
from __future__ import annotations

import os
import signal
from typing import Callable

from .faults import Failed
from .text import Text
from .words import Wanted

# After so much silence a network camera is asked anew, in microseconds.
SILENCE = 10_000_000


def ffmpeg_words(wanted: Wanted) -> list[str]:
    """The command that writes the frames of a source as YUV4MPEG2 to its output."""
    source, size = wanted.source or "", wanted.region
    colour = wanted.store_format or "yuv420p"
    start = ["ffmpeg", "-nostdin", "-v", "error"]
    if source.startswith(("rtsp://", "rtsps://")):
        start += ["-rtsp_transport", "tcp", "-timeout", str(SILENCE)]
    elif "://" not in source:
        # A film is played as fast as it was taken.
        start += ["-re"]
    filters = [f"scale={size.width}:{size.height}"] if size else []
    filters += [f"fps={wanted.rate_word}"] if wanted.rate else []
    return [
        *start,
        *("-i", source, "-an"),
        *(("-vf", ",".join(filters)) if filters else ()),
        *("-fps_mode", "passthrough", "-pix_fmt", colour),
        *("-strict", "-1", "-f", "yuv4mpegpipe", "-"),
    ]


def film(wanted: Wanted, out: Text, tell: Callable[[str], None], asked: Callable[[], bool]) -> None:
    """Becomes ffmpeg over a source."""
    if not out.open(asked):
        return
    command = ffmpeg_words(wanted)
    tell(
        f"filming {wanted.source} by ffmpeg: it has no numbers, so the station estimates what is "
        "lost, and frames have the time of their arrival"
    )
    os.dup2(out.descriptor, 1)
    for number in (signal.SIGPIPE, signal.SIGTERM, signal.SIGINT, signal.SIGHUP):
        signal.signal(number, signal.SIG_DFL)
    try:
        os.execvp(command[0], command)
    except FileNotFoundError:
        raise Failed("ffmpeg isn't installed: sudo apt install ffmpeg") from None
