"""Films by ffmpeg: FFV1 in Matroska, which keeps each bit, and H.264 in MP4, which plays
everywhere.

Frames are given to ffmpeg as a Matroska stream of our own, since that is the one raw format of it
that has a time for each frame: a film lasts as long as what it shows, with its holes."""
from __future__ import annotations

import os
import shutil
import subprocess
import tempfile
from collections.abc import Iterable, Sequence
from typing import Any

import numpy as np
from numpy.typing import NDArray

from .errors import ExportFault, MissingPackage

# How raw frames are called in Matroska, by the division of their colours: of 8 bits, and of more,
# to which the bits are added as a last byte.
NAMES = {
    None: (b"Y800", b"Y1\0"),
    (2, 2): (b"I420", b"Y3\x0b"),
    (2, 1): (b"Y42B", b"Y3\x0a"),
    (1, 1): (b"444P", b"Y3\0"),
}
PIXELS = {None: "gray", (2, 2): "yuv420p", (2, 1): "yuv422p", (1, 1): "yuv444p"}
# The depths that FFV1 has of grey and of colour; grey of others is kept in 16 bits, as it is.
GREY_DEPTHS, COLOUR_DEPTHS = (8, 9, 10, 12, 16), (8, 9, 10, 12, 14, 16)
LOSSLESS_DEPTHS = (8, 10)
# A shorter side isn't cut into slices.
LEAST_SIDE = 16
EVEN = "pad=ceil(iw/2)*2:ceil(ih/2)*2"
MILLISECOND = 1000
# Each frame at its own time; an encoder would round it to the rate.
TIMED = ("-an", "-fps_mode", "passthrough", "-enc_time_base", "1:1000")


def element(name: int, content: bytes) -> bytes:
    """An element of EBML: its name, its length and its content."""
    count = (name.bit_length() + 7) // 8
    return name.to_bytes(count, "big") + ((1 << 56) | len(content)).to_bytes(8, "big") + content


def number(name: int, value: int) -> bytes:
    """An element that is a number."""
    return element(name, value.to_bytes(8, "big"))


def stream_front(width: int, height: int, code: bytes, period: float) -> bytes:
    """The head of a Matroska stream of raw frames, with times in microseconds. `period` is the time
    of a frame in seconds, `code` names the format."""
    ebml = element(0x4282, b"matroska") + number(0x4287, 4) + number(0x4285, 2)
    info = number(0x2AD7B1, 1000) + element(0x4D80, b"lapyrei") + element(0x5741, b"lapyrei")
    video = number(0xB0, width) + number(0xBA, height) + element(0x2EB524, code)
    track = number(0xD7, 1) + number(0x73C5, 1) + number(0x83, 1) + element(0x86, b"V_UNCOMPRESSED")
    track += number(0x23E383, max(1, round(period * 1e9))) + element(0xE0, video)
    parts = element(0x1549A966, info) + element(0x1654AE6B, element(0xAE, track))
    # A segment whose length nobody knows.
    return element(0x1A45DFA3, ebml) + bytes.fromhex("1853806701ffffffffffffff") + parts


def frame_front(moment: int, size: int) -> bytes:
    """What stands before a frame's bytes: a cluster of its own, at a time in microseconds."""
    when = number(0xE7, moment)
    block = b"\xa3" + ((1 << 56) | (size + 4)).to_bytes(8, "big") + b"\x81\0\0\x80"
    length = (1 << 56) | (len(when) + len(block) + size)
    return b"\x1f\x43\xb6\x75" + length.to_bytes(8, "big") + when + block


def film_times(times: NDArray[np.int64], period: int) -> tuple[NDArray[np.int64], bool]:
    """When each frame is shown, in microseconds from the first one on, and whether those are the
    frames' times, to the millisecond. Films have no finer ones: of frames that come closer, or
    whose clock was set back, each is shown one period after the one before it, and at least 1
    ms."""
    if len(times) and 0 <= int(times[0]) and int(times.max()) < 1 << 62:
        exact = (times - times[0] + MILLISECOND // 2) // MILLISECOND * MILLISECOND
        if (np.diff(exact) > 0).all():
            return exact, True
    step = max(period, MILLISECOND)
    return np.arange(len(times), dtype=np.int64) * step, False


def code_of(divided: tuple[int, int] | None, bits: int) -> bytes:
    """How frames are called in Matroska."""
    plain, deep = NAMES[divided]
    return plain if bits == 8 else deep + bytes([bits])


def lossless_kind(divided: tuple[int, int] | None, bits: int) -> tuple[str, int]:
    """What ffmpeg calls the samples of FFV1, and their bits there."""
    depths = GREY_DEPTHS if divided is None else COLOUR_DEPTHS
    given = bits if bits in depths else 16
    return PIXELS[divided] + ("" if given == 8 else f"{given}le"), given


def lossless_words(
    divided: tuple[int, int] | None, bits: int, shape: tuple[int, int]
) -> tuple[list[str], int]:
    """What ffmpeg is told for FFV1, and the bits as which samples are given to it."""
    name, given = lossless_kind(divided, bits)
    # ffmpeg 5.1 has wrong pixels, without a word, where a slice has no pixel of a plane: version 1
    # of FFV1 has one slice. Version 3 has checksums.
    level = ["-level", "3", "-slicecrc", "1"] if min(shape) >= LEAST_SIDE else ["-level", "1"]
    return [*TIMED, "-c:v", "ffv1", *level, "-g", "1", "-pix_fmt", name], given


def playable_words(
    divided: tuple[int, int] | None, bits: int, is_lossless: bool
) -> tuple[list[str], int]:
    """What ffmpeg is told for H.264, and the bits as which samples are given to it."""
    words = [*TIMED, "-c:v", "libx264", "-preset", "veryfast"]
    words += ["-threads", "2", "-movflags", "+faststart", "-video_track_timescale", "1000000"]
    if not is_lossless:
        given = bits if bits in (GREY_DEPTHS if divided is None else COLOUR_DEPTHS) else 16
        return [*words, "-crf", "18", "-pix_fmt", "yuv420p", "-vf", EVEN], given
    if bits not in LOSSLESS_DEPTHS:
        raise ExportFault(f"mp4 has no lossless samples of {bits} bits: take mkv, h5 or tiff")
    name = PIXELS[divided] + ("" if bits == 8 else f"{bits}le")
    # Grey goes from 0 to the top; colours stay as they are, whatever they mean.
    whole = ["-color_range", "pc"] if divided is None else []
    return [*words, *whole, "-qp", "0", "-pix_fmt", name], bits


def encode(
    words: Sequence[str],
    path: str,
    front: bytes,
    frames: Iterable[tuple[int, Sequence[NDArray[Any]]]],
) -> None:
    """Runs ffmpeg over frames, each a time in microseconds and its planes, into a file. ExportFault
    has ffmpeg's last words where it fails."""
    if shutil.which("ffmpeg") is None:
        raise MissingPackage("a film", "ffmpeg")
    command = ["nice", "-n", "10", "ffmpeg", "-v", "error", "-nostdin", "-y"]
    command += ["-f", "matroska", "-i", "pipe:0"]
    with tempfile.TemporaryFile() as told:
        run = subprocess.Popen(
            [*command, *words, path], stdin=subprocess.PIPE, stderr=told, bufsize=0
        )
        assert run.stdin is not None
        try:
            feed(run.stdin.fileno(), front, frames)
            run.stdin.close()
            run.wait()
        finally:
            # Also where a signal has come, or a frame is gone.
            run.kill()
            run.stdin.close()
            run.wait()
        if run.returncode:
            told.seek(0)
            text = " ".join(told.read()[-500:].decode(errors="replace").split())
            raise ExportFault(f"ffmpeg made no film: {text or f'status {run.returncode}'}")


def feed(pipe: int, front: bytes, frames: Iterable[tuple[int, Sequence[NDArray[Any]]]]) -> None:
    """Writes the stream. Where ffmpeg ends early, its status says so."""
    try:
        write_all(pipe, front)
        for moment, planes in frames:
            data = [plane.reshape(-1).view(np.uint8).data for plane in planes]
            write_all(pipe, frame_front(moment, sum(len(it) for it in data)))
            for it in data:
                write_all(pipe, it)
    except BrokenPipeError:
        return


def write_all(pipe: int, data: Any) -> None:
    """Writes all bytes."""
    left = memoryview(data)
    while left:
        left = left[os.write(pipe, left) :]
