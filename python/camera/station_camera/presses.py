"""What a keep locks of a store, and what is written of it: how many presses a store takes, and the
disk."""
from __future__ import annotations

from typing import NamedTuple

from . import disk
from .text import Form

# Blocks of a store that aren't locked by a keep: that of the next frames, and one to go on in.
OPEN_BLOCKS = 2


class Choice(NamedTuple):
    """So many minutes: the bytes of their store, how many keeps of so many seconds lock at once
    without an end of the recording, the bytes of a keep, and how many of these the disk has room
    for beside the store."""

    minutes: float
    size: int
    presses: int
    keep: int
    kept: int
    room: int

    def line(self, is_released: bool) -> str:
        """The choice in a line."""
        store = f"{self.minutes:g} minutes, {disk.gigabytes(self.size)}"
        many = f"{self.presses} {'press' if self.presses == 1 else 'presses'} of {self.keep} s"
        each = f"({disk.gigabytes(self.kept)} each)"
        if is_released:
            return f"{store}: {many} {each} at once; the disk has room for {self.room} saved ones"
        return f"{store}: {many} {each}, and then frames wait until one is released"


def at_once(form: Form, segments: int, slots: int, keep: int) -> int:
    """How many keeps of so many seconds a store takes while none is unlocked, wherever in a block
    each begins."""
    frames = max(1, int(-(-keep * form.rate // 1)))
    blocks = (slots + frames - 2) // slots + 1
    return max(0, segments - OPEN_BLOCKS) // blocks


def choice(form: Form, minutes: float, keep: int, free: int) -> Choice | None:
    """A choice of so many minutes and a keep of so many seconds, on a disk with so much free; None
    where no store holds so many frames."""
    shape = disk.shape(form, minutes)
    if shape is None:
        return None
    size, kept = disk.bytes_of(form, *shape), int(disk.needs(form) * keep)
    room = max(0, free - size) // max(1, kept)
    return Choice(minutes, size, at_once(form, *shape, keep), keep, kept, room)
