"""A camera's stores as one ring, in plain lists: which frames they hold, with which sequences, once
frames came, were lost, and clips were locked, over starts, kills and stores that join. It was
written from the rules of the camera's count, and not from the program.

A source's numbers say what it lost: each number that is missing between two frames is a tick
without a frame, and raises the sequence. More than 65,535 at once, or a number that doesn't rise,
is a new beginning, in which nothing is known to be lost; so is a new stream. The sequence goes on
at a start: after the newest one that is stored. It wraps at 2^32. A new block is begun where the
newest is full: in a free segment, or in the place of the oldest block, by the sequence of its first
frame from the newest one on. No locked block goes, and none that is the newest of its store. No
clock decides anything.
"""
from __future__ import annotations

import dataclasses

WRAP = 1 << 32
# So many numbers may be missing at once.
MISSING = 65_535
# What is wrong with a model, for trials: a start begins the sequence anew; lost frames don't raise
# it; the newest block goes, or the oldest of the newest one's store, or that with the oldest time;
# locks aren't heeded.
RULES = ("anew", "lost", "newest", "store", "clock", "locks")


@dataclasses.dataclass
class Block:
    """A block: its store, the frames by what names them, the sequence of the first, and a time."""

    store: int
    frames: list[int]
    sequence: int
    time: int = 0


class Model:
    """What the stores of a camera hold. `room` has the segments of each store, `of` the sequence of
    each frame that was ever stored."""

    def __init__(self, slots: int, room: dict[int, int], rule: str = "") -> None:
        self.slots, self.room, self.rule = slots, dict(room), rule
        self.blocks: list[Block] = []
        self.of: dict[int, int] = {}
        self.locked: set[int] = set()
        self.number: int | None = None
        self.next, self.lost, self.anew = 0, 0, 0

    def copy(self) -> Model:
        """Another one like it."""
        other = Model(self.slots, self.room, self.rule)
        other.blocks = [dataclasses.replace(it, frames=list(it.frames)) for it in self.blocks]
        other.of, other.locked = dict(self.of), set(self.locked)
        other.number, other.next = self.number, self.next
        other.lost, other.anew = self.lost, self.anew
        return other

    def start(self) -> None:
        """The program begins: the sequence goes on after the newest that is stored, and what the
        source's last number was is forgotten."""
        self.number, self.lost, self.anew = None, 0, 0
        newest = self.blocks[-1].frames[-1] if self.blocks else None
        self.next = 0 if newest is None or self.rule == "anew" else (self.of[newest] + 1) % WRAP

    def goes(self, store: int) -> None:
        """A store is taken away, with what it holds."""
        for block in self.blocks:
            if block.store == store:
                self.locked.difference_update(block.frames)
        self.blocks = [it for it in self.blocks if it.store != store]
        del self.room[store]

    def joins(self, store: int, segments: int) -> None:
        """An empty store joins."""
        self.room[store] = segments

    def missing(self, number: int | None) -> int:
        """How many frames the source lost before one of this number."""
        before, self.number = self.number, number
        if number is None or before is None:
            return 0
        lost = number - before - 1
        if 0 <= lost <= MISSING:
            return lost
        self.anew += 1
        return 0

    def begins(self) -> bool:
        """Whether the next frame begins a block."""
        return not self.blocks or len(self.blocks[-1].frames) == self.slots

    def free(self) -> list[int]:
        """The stores that have a free segment."""
        used = [it.store for it in self.blocks]
        return [it for it, segments in self.room.items() if used.count(it) < segments]

    def fits(self) -> int:
        """How many frames come into the newest block, or one that is free."""
        rest = 0 if self.begins() else self.slots - len(self.blocks[-1].frames)
        return (sum(self.room.values()) - len(self.blocks)) * self.slots + rest

    def victim(self) -> Block | None:
        """The block that goes next, if one may."""
        newest = {it.store: it for it in self.blocks}
        may = [it for it in self.blocks if newest[it.store] is not it
               and (self.rule == "locks" or not self.locked.intersection(it.frames))]
        last = self.next
        may.sort(key=lambda it: (it.sequence - last) % WRAP)
        if self.rule == "newest":
            may.reverse()
        elif self.rule == "store":
            may.sort(key=lambda it: it.store != self.blocks[-1].store)
        elif self.rule == "clock":
            may.sort(key=lambda it: it.time)
        return may[0] if may else None

    def ticks(self, number: int | None) -> None:
        """The ticks without a frame before the next one."""
        lost = self.missing(number)
        self.lost += lost
        if self.rule != "lost":
            self.next = (self.next + lost) % WRAP

    def recycle(self) -> int | None:
        """Removes what has to go before the next frame; answers the store that it comes into, as
        far as that is known: -1 where a free segment is taken, None where nothing may go."""
        if not self.begins():
            return self.blocks[-1].store
        if self.free():
            return -1
        gone = self.victim()
        if gone is None:
            return None
        self.blocks.remove(gone)
        return gone.store

    def store(self, frame: int, time: int = 0) -> bool:
        """Stores a frame, if it may."""
        place = self.recycle()
        if place is None:
            return False
        self.put(frame, place, time)
        return True

    def put(self, frame: int, place: int, time: int = 0) -> None:
        """A frame comes into its place."""
        if self.begins():
            self.blocks.append(Block(place, [], self.next, time))
        self.blocks[-1].frames.append(frame)
        self.of[frame] = self.next
        self.next = (self.next + 1) % WRAP

    def held(self) -> list[tuple[tuple[int, int], ...]]:
        """Each block's frames, with their sequences."""
        return sorted(tuple((it, self.of[it]) for it in block.frames) for block in self.blocks)

    def settle(self, homes: dict[int, int]) -> None:
        """Learns from the files in which stores blocks are that took a free segment."""
        for block in self.blocks:
            block.store = homes[block.frames[0]]

    def row(self, first: int, last: int) -> list[int] | None:
        """The frames from one to another, of all stores: None where some aren't held any more, so
        that nobody can tell what was lost."""
        span = (self.of[last] - self.of[first]) % WRAP
        frames = [it for block in self.blocks for it in block.frames]
        held = [it for it in frames if (self.of[it] - self.of[first]) % WRAP <= span]
        return held if held == [it for it in self.of if first <= it <= last] else None

    def lost_in(self, frames: set[int], among: list[int]) -> int:
        """How many frames were lost between some, of those in a row: where one of another store
        lies between two, what was lost there is that one's, or between the two stores."""
        pairs = [(one, other) for one, other in zip(among, among[1:])
                 if one in frames and other in frames]
        return sum((self.of[other] - self.of[one]) % WRAP - 1 for one, other in pairs)
