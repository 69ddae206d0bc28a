"""The command lapyrei-export."""
from __future__ import annotations

import argparse
import os
import signal
import sys
import time
from collections.abc import Sequence
from types import FrameType
from typing import Any

from . import __version__, open as open_store, times
from .colour import MATRICES
from .errors import ExportFault, LapyreiError
from .exports import KINDS, Options, export
from .store import Clip, Event, Frames, Store

ABOUT = """Writes the frames of a store, or of an event, into files of science.

STORE is a store's file, or the folder of one camera's. STORE#EVENT is the event of that name, which
--events lists: the frames of one keep. It only reads, and may run beside the recorder: but the ring
goes on, so frames that aren't locked may be gone before they are written. Then nothing is written.

formats:
  h5        HDF5, a chunk a frame                     (python3-h5py)
  zarr      Zarr, a chunk a frame                     (python3-zarr)
  zarr3     the same of the third version of Zarr
  ome-zarr  OME-Zarr, NGFF 0.4                        (python3-zarr)
  tiff      a stack for ImageJ, BigTIFF beyond 4 GB   (python3-tifffile)
  ome-tiff  OME-TIFF: times, channel and bits in XML  (python3-tifffile)
  mkv       FFV1, without loss, at the frames' times  (ffmpeg)
  mp4       H.264, for the eye, at the frames' times  (ffmpeg)
  png       a folder of pictures                      (python3-png)
  npy       a folder of arrays for numpy.load
  y4m       YUV4MPEG2, as a save writes it: one text of all parts of an event
  csv       numbers and times alone"""
SIGNALS = (signal.SIGINT, signal.SIGTERM, signal.SIGHUP)


class Stopped(BaseException):
    """A signal has come: `number` is its number."""

    def __init__(self, number: int) -> None:
        super().__init__(number)
        self.number = number


class Signals:
    """Signals end the work, which then tidies up. A second one changes nothing."""

    def __init__(self) -> None:
        self.number = 0
        for it in SIGNALS:
            if signal.getsignal(it) != signal.SIG_IGN:
                signal.signal(it, self.come)

    def come(self, number: int, _: FrameType | None) -> None:
        """A signal has come."""
        if not self.number:
            self.number = number
            raise Stopped(number)

    def look(self) -> None:
        """Stops also where a library has swallowed what `come` raised."""
        if self.number:
            raise Stopped(self.number)


class Bar:
    """A line on the terminal that says how far a long work is. Where the error output is no
    terminal, nothing is written."""

    WIDTH = 30

    def __init__(self, total: int, frame_bytes: int, is_shown: bool) -> None:
        self.total, self.frame_bytes, self.is_shown = total, frame_bytes, is_shown
        self.began, self.last, self.is_there = time.monotonic(), 0.0, False

    def show(self, count: int) -> None:
        """So many frames are written."""
        now = time.monotonic()
        if not self.is_shown or now - self.began < 0.5 or now - self.last < 0.2:
            return
        self.last, self.is_there, took = now, True, now - self.began
        full = self.WIDTH * count // self.total
        left = took * (self.total - count) / count
        speed = count * self.frame_bytes / took / 1e6
        line = f"[{'#' * full}{' ' * (self.WIDTH - full)}] {count} of {self.total} frames, "
        line += f"{speed:.0f} MB/s, {left:.0f} s left"
        print(f"\r{line:<79}", end="", file=sys.stderr, flush=True)

    def clear(self) -> None:
        """Takes the line away."""
        if self.is_there:
            print(f"\r{'':79}\r", end="", file=sys.stderr, flush=True)


def parser() -> argparse.ArgumentParser:
    """What the command takes."""
    it = argparse.ArgumentParser(
        "lapyrei-export",
        usage="lapyrei-export [OPTIONS] STORE|STORE#EVENT FORMAT\n"
        "       lapyrei-export --events STORE",
        description=ABOUT,
        formatter_class=argparse.RawDescriptionHelpFormatter,
        allow_abbrev=False,
    )
    it.add_argument("store", metavar="STORE", help="a store, a folder of one camera's, or an event")
    it.add_argument("format", metavar="FORMAT", nargs="?", choices=list(KINDS), help="as above")
    it.add_argument("-o", "--output", metavar="OUT", help="the file or folder to make")
    it.add_argument("--events", action="store_true", help="lists the events, and writes nothing")
    it.add_argument("--clip", metavar="ID", type=int, help="the frames of one clip")
    it.add_argument("--from", dest="first", metavar="TIME", help="no frames from before a time")
    it.add_argument("--to", dest="last", metavar="TIME", help="no frames from after a time")
    it.add_argument("--last", dest="span", metavar="SECONDS", help="the newest SECONDS alone")
    colour = it.add_mutually_exclusive_group()
    colour.add_argument(
        "--rgb",
        dest="colour",
        action="store_const",
        const="rgb",
        help="red, green and blue in the place of Y, Cb and Cr",
    )
    colour.add_argument("--luma", dest="colour", action="store_const", const="luma", help="Y alone")
    it.add_argument(
        "--matrix", choices=list(MATRICES), default="bt601", help="for RGB: %(default)s"
    )
    it.add_argument("--full-range", action="store_true", help="for RGB: Y goes from 0 to 255")
    it.add_argument("--lossless", action="store_true", help="mp4 without loss; few players take it")
    it.add_argument("--compress", action="store_true", help="h5, zarr and zarr3, compressed")
    it.add_argument(
        "--verify",
        action="store_true",
        help="reads it back, and compares pixels, times and tags, before it is named",
    )
    it.add_argument("--force", action="store_true", help="replaces an export that is there")
    it.add_argument("-q", "--quiet", action="store_true", help="no progress bar")
    it.add_argument("--version", action="version", version=f"lapyrei-export {__version__}")
    return it


def chosen(words: Any) -> tuple[Store, Frames]:
    """The store, and the frames of it that are wanted."""
    path, event = words.store, None
    if not os.path.lexists(path) and "#" in path:
        path, _, event = path.rpartition("#")
    store = open_store(path)
    frames: Frames = store
    if event is not None:
        frames = store.event(event)
    if words.clip is not None:
        frames = store.clip(words.clip)
    if words.first is not None or words.last is not None:
        ends = int(frames.times.min(initial=0)), int(frames.times.max(initial=0))
        first = ends[0] if words.first is None else frames.moment(words.first)
        last = ends[1] if words.last is None else frames.moment(words.last)
        frames = frames.between(first, last)
    if words.span is not None and len(frames):
        try:
            span = times.micros(words.span)
        except ValueError as fault:
            raise ExportFault(str(fault)) from None
        frames = frames.between(int(frames.times[-1]) - span, int(frames.times[-1]))
    return store, frames


def name_for(store: Store, frames: Frames, ending: str) -> str:
    """A file's name: the camera, the time of the first frame, and of an event its name."""
    day = times.utc(int(frames.times[0]))[:19].replace(":", "-") if len(frames) else ""
    parts = [store.camera] + ([day + "Z"] if day else [])
    if isinstance(frames, Event):
        parts.append(frames.name)
    if isinstance(frames, Clip):
        parts.append(str(frames.id))
    stem = "_".join(parts)
    return f"{stem}_{ending}" if ending in ("png", "npy") else f"{stem}.{ending}"


def list_events(store: Store) -> None:
    """Prints a line for each event."""
    for event in store.events:
        span = f"{times.iso(event.since)} to {times.iso(event.until)}"
        if times.iso(event.since) is None:
            span = f"{times.seconds(event.since)} to {times.seconds(event.until)}"
        tag = f" tag {event.tag}" if event.tag else ""
        tag = tag if event.number is None else f" number {event.number}"
        clips = ", ".join(f"clip {it.id} {it.first}..{it.last}" for it in event.clips)
        print(f"event {event.name}{tag}  {len(event)} frames, {span}  ({clips})")


def work(words: Any, signals: Signals) -> None:
    """Does what the words ask for."""
    store, frames = chosen(words)
    if words.events:
        list_events(store)
        return
    out = words.output or name_for(store, frames, KINDS[words.format].ending)
    options = Options(
        colour=words.colour,
        matrix=words.matrix,
        full=words.full_range,
        lossless=words.lossless,
        compress=words.compress,
        force=words.force,
        verify=words.verify,
    )
    bar = Bar(len(frames), store.geometry.size, sys.stderr.isatty() and not words.quiet)

    def done(count: int) -> None:
        signals.look()
        bar.show(count)

    try:
        count = export(frames, words.format, out, options, done)
    finally:
        bar.clear()
    print(f"exported {count} {out}" + ", and read back the same" * options.verify)


def main(arguments: Sequence[str] | None = None) -> int:
    """Reads the words; answers the status: 0, 1 where something is refused, 2 for unknown words.
    A signal ends the process as such, once all is tidied up."""
    it = parser()
    words = it.parse_args(arguments)
    if words.format is None and not words.events:
        it.error("which FORMAT? One of " + ", ".join(KINDS))
    signals = Signals()
    try:
        work(words, signals)
    except LapyreiError as fault:
        print(f"lapyrei-export: {fault}", file=sys.stderr)
        return 1
    except Stopped as stopped:
        signal.signal(stopped.number, signal.SIG_DFL)
        os.kill(os.getpid(), stopped.number)
    return 0
