"""What a camera takes of its disk: the room of its ring, what it writes, how old its oldest frame
is, and for how long there is room that isn't locked."""
import os
from pathlib import Path
from typing import NamedTuple

from .reader import Reading
from .rings import Ring


class Space(NamedTuple):
    """A file system's bytes, and those of them that are free for anybody."""

    bytes: int
    free: int


def space_at(path: str) -> Space | None:
    """The file system of a store; none where it doesn't say. A dead disk holds this up."""
    try:
        found = os.statvfs(Path(path).parent)
    except OSError:
        return None
    return Space(found.f_frsize * found.f_blocks, found.f_frsize * found.f_bavail)


def unlocked_blocks(reading: Reading | Ring) -> int:
    """How many blocks may still be locked. With all blocks of a store but one locked, recording
    into it stops when the newest block is full."""
    rooms = [(part.geometry.segments, part.locked()) for part in reading.each()]
    return sum(max(0, it - 1 - round(locked * it)) for it, locked in rooms)


def figures_of(reading: Reading | Ring, space: Space | None) -> dict:
    """The figures, for JSON, in bytes, bytes a second, microseconds since 1970 and seconds. What is
    written goes by the frames that come now."""
    geometry, oldest = reading.geometry, reading.oldest()
    slots = unlocked_blocks(reading) * geometry.slots
    frame = (geometry.segment_at(1) - geometry.segment_at(0)) / geometry.slots
    return {
        "ring_bytes": sum(part.geometry.disk_size() for part in reading.each()),
        "writes": round((reading.rate() or 0) * frame),
        "oldest_us": oldest.time if oldest else None,
        "left_seconds": round(slots / geometry.rate(), 1),
        "disk_bytes": space.bytes if space else None,
        "free_bytes": space.free if space else None,
    }
