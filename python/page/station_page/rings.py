"""A camera's stores: its only one, or several that are one ring. Which files they are says
`lapyrei.files.numbered_of`. Within such a camera a frame has the name (store, number), and a clip
the id that the station prints."""
import functools
import os
import threading
import time
from bisect import bisect_left, bisect_right

from lapyrei import layout
from lapyrei.errors import Gone
from lapyrei.files import Known, numbered_of
from lapyrei.files import StoreFile as OpenStore
from lapyrei.losses import Hole

from . import limits
from .reader import Frame, Held, Piece, Placed, Reader, Reading, Source, newest_in, store_of
from .workers import Workers

UNLIKE = "it has other frames than the store with the newest one"


class Ring(Held):
    """Several stores at a moment, by their numbers: whatever is overwritten is the oldest block of
    all of them that may go. Of `there` files these are read, and `spoilt` says of others why they
    can't be."""

    def __init__(self, parts: dict[int, Reading], there: int, spoilt: dict[str, str]) -> None:
        self.parts, self.stores, self.spoilt = parts, (len(parts), there), spoilt
        self.geometry = self.active().geometry
        self.clips = [clip for part in parts.values() for clip in part.clips]

    def each(self) -> list[Reading]:
        """Its stores."""
        return list(self.parts.values())

    def faults(self) -> dict[str, str]:
        """Which of several stores can't be used, by path, and why."""
        return self.spoilt

    def active(self) -> Reading:
        """The store with the newest frame."""
        return active_of(self.parts)

    def part(self, id_: int) -> Reading:
        """The store of the clip of an id."""
        return self.parts[store_of(id_)]

    def are_beside(self, one: int, other: int) -> bool:
        """Whether the clips of two ids are in one store."""
        return store_of(one) == store_of(other)

    def bits(self) -> int:
        """The bits of the newest frame's samples."""
        return self.active().bits()

    def newest_frames(self, count: int) -> list[layout.Frame]:
        """So many frames, the newest."""
        found = [frame for part in self.each() for frame in part.frames[-count:]]
        return sorted(found, key=lambda frame: frame.time)[-count:]

    def is_all_locked(self) -> bool:
        """Whether no block is left into which further frames could come."""
        return all(part.is_all_locked() for part in self.each())

    def locked(self) -> float:
        """Which part of the room is locked, from 0 to 1."""
        segments = [part.geometry.segments for part in self.each()]
        return sum(part.locked() * it for part, it in zip(self.each(), segments)) / sum(segments)

    def is_free(self, part: Reading) -> bool:
        """Whether a store has a segment without a frame."""
        return len(part.store.with_frames()) < part.geometry.segments

    @functools.cached_property
    def goes(self) -> tuple[int, int, int, int, int] | None:
        """The block that goes next: its first and last number, its store, and its first and last
        frame's time."""
        if any(self.is_free(part) for part in self.each()):
            return None
        found = []
        for number, part in self.parts.items():
            if removed := part.removed_next():
                first, last = removed
                found.append((part.time_of(first), number, first, last, part.time_of(last)))
        if not found:
            return None
        since, number, first, last, until = min(found)
        return first, last, number, since, until

    def removed_next(self) -> tuple[int, int, int, int, int] | None:
        """The block that is removed next, or nothing where there is room or none may be."""
        return self.goes

    def next_store(self) -> int | None:
        """The store into which the block after the newest one comes."""
        active = self.active()
        free = [number for number, part in self.parts.items() if self.is_free(part)]
        if active.among in free:
            return active.among
        return min(free, default=self.goes and self.goes[2])

    @functools.cached_property
    def runs(self) -> list[Piece]:
        """The pieces of each store, in the order of their times."""
        found = [piece for part in self.each() for piece in part.pieces()]
        return sorted(found, key=lambda it: (it.since, it.store, it.first))

    def pieces(self) -> list[Piece]:
        """The held frames, divided where a time is missing."""
        return self.joined

    def holes(self) -> list[Hole]:
        """Where frames were lost within the stores: what is missing between them is told of events,
        which hold all of their time."""
        return self.missed

    @functools.cached_property
    def missed(self) -> list[Hole]:
        """The holes, by time."""
        found = [it for part in self.each() for it in part.holes()]
        return sorted(found, key=lambda it: it.since)

    @functools.cached_property
    def joined(self) -> list[Piece]:
        """The runs, joined where nothing is missing between them."""
        found: list[Piece] = []
        longest = layout.longest_step(self.geometry)
        for run in self.runs:
            if not found or run.since - found[-1].until > longest:
                found.append(run)
                continue
            old = found.pop()
            end = max(old, run, key=lambda it: it.until)
            found.append(Piece(old.first, end.last, old.since, end.until, old.store, end.ends))
        return found

    def near(self, number: int, by: int, store: int | None = None) -> Frame | None:
        """The held frame that is so many held frames after one, or the last one on that side; none
        of a store that isn't there."""
        part = self.parts.get(-1 if store is None else store)
        found = part.near(number, 0, store) if part else None
        if found is None or not by:
            return found
        wanted = self.before(found.time) + self.of_time(found.time).index(found) + by
        wanted = min(max(wanted, 0), self.count() - 1)
        # The latest moment before which no more frames come than before the wanted one is its own.
        times = [part.by_time().times for part in self.each() if part.frames]
        least, most = min(it[0] for it in times), max(it[-1] for it in times)
        while least < most:
            middle = (least + most + 1) // 2
            least, most = (middle, most) if self.before(middle) <= wanted else (least, middle - 1)
        return self.of_time(least)[wanted - self.before(least)]

    def before(self, moment: int) -> int:
        """How many frames come before a moment."""
        return sum(bisect_left(part.by_time().times, moment) for part in self.each())

    def of_time(self, moment: int) -> list[Frame]:
        """The frames of a time: mostly one."""
        return [
            order.frame(place)
            for order in (part.by_time() for part in self.each())
            for place in range(bisect_left(order.times, moment), bisect_right(order.times, moment))
        ]


def active_of(parts: dict[int, Reading]) -> Reading:
    """The store with the newest frame; the first one where there is none."""
    return max(parts.values(), key=lambda it: it.frames[-1].time if it.frames else -1)


class Lent(OpenStore):
    """A store's file that is opened when something is read of it: of 256 stores few are open at a
    time. It stays open as long as somebody has this."""

    def __init__(self, path: str, identity: tuple[int, int]) -> None:
        self.path, self.identity, self.file, self.lock = path, identity, -1, threading.Lock()

    def read_at(self, at: int, count: int) -> bytes:
        """Bytes from a place on; Gone where the path has another file by now."""
        with self.lock:
            if self.file < 0:
                found = OpenStore(self.path)
                if found.identity != self.identity:
                    raise Gone(f"{self.path} is another file now")
                self.file, found.file = found.file, -1
        return super().read_at(at, count)


class Sources:
    """The frames of a ring, to be fetched. Each store's own are asked for by its number."""

    def __init__(self, ring: Ring, sources: dict[int, Source], likely: list[int]) -> None:
        """`likely` are the stores that may have the newest frame by now."""
        self.ring, self.sources, self.likely = ring, sources, likely
        self.geometry = ring.geometry

    def of(self, store: int | None) -> Source:
        """The frames of the store of a number."""
        found = None if store is None else self.sources.get(store)
        if found is None:
            raise Gone("the camera has several stores, and not this one")
        return found.again() if isinstance(found, Resting) else found

    def newest(self, place: object) -> tuple[Placed, tuple[int, int]] | None:
        """The newest frame, and where it is."""
        found, known = [], dict([place]) if isinstance(place, tuple) else {}
        for number in self.likely:
            source = self.of(number)
            if it := newest_in(source.opened, source.geometry, known.get(number)):
                found.append((it[0].time, number, *it))
            if it and number == self.likely[0] and (it[0].number + 1) % source.geometry.slots:
                # Another store is recorded into only once a block is full.
                break
        if not found:
            return None
        _, number, frame, segment = max(found)
        return Placed(*frame, number), (number, segment)


class Resting(Source):
    """The frames of a store whose file isn't open."""

    def __init__(self, path: str, identity: tuple, reading: Reading, reads: Workers | None) -> None:
        super().__init__(Lent(path, identity), reading, reads)
        self.reading = reading

    def again(self) -> Source:
        """The same, whose file is closed once nobody has this any more."""
        return Source(Lent(self.opened.path, self.opened.identity), self.reading, self.reads)


class Member:
    """One of several stores. It is read again where its file was changed."""

    def __init__(self, number: int, path: str, reads: Workers | None) -> None:
        self.number, self.path, self.reads = number, path, reads
        self.reader = Reader(path, reads, number)
        self.mark: tuple | None = None
        self.is_settled, self.why = False, ""
        self.identity: tuple[int, int] = (0, 0)
        self.reading: Reading | None = None
        self.source: Source | None = None

    def stamp(self) -> tuple | None:
        """What of the file says that it was changed."""
        try:
            found = os.stat(self.path)
        except OSError:
            return None
        times = found.st_mtime_ns, max(found.st_mtime_ns, found.st_ctime_ns)
        return found.st_dev, found.st_ino, found.st_size, *times

    def look(self, stamp: tuple | None) -> None:
        """Reads the store. Of a file that was changed just now nobody knows whether it was changed
        again, by its time alone."""
        age = time.time_ns() - stamp[-1] if stamp else 0
        try:
            self.reading, self.source = self.reader.read()
            self.identity, self.why = self.source.opened.identity, ""
        except (layout.Refused, OSError) as fault:
            self.reading, self.source, self.why = None, None, str(fault)
        is_old = age > limits.SETTLED_SECONDS * 1_000_000_000
        self.mark, self.is_settled = stamp or (), is_old and self.reading is not None

    def rest(self) -> None:
        """Frames come into another store: its file is closed, and little is remembered."""
        if self.reading is not None and not isinstance(self.source, Resting):
            self.reader.opened, self.reader.known = None, Known()
            self.reading = self.reading.packed()
            self.source = Resting(self.path, self.identity, self.reading, self.reads)


class Stores:
    """What stands where a camera's store is named, read again and again. Readings are made one at
    a time, from any thread."""

    def __init__(self, path: str, reads: Workers | None = None) -> None:
        """`reads` are the threads in which frames are read."""
        self.path, self.reads, self.lock = path, reads, threading.Lock()
        self.one, self.members = Reader(path, reads), {}

    def read(self) -> tuple[Reading | Ring, Source | Sources]:
        """What is there now; Refused where no store is."""
        with self.lock:
            found = dict(numbered_of(self.path))
            self.members = {
                number: self.members.get(number) or Member(number, path, self.reads)
                for number, path in found.items()
            }
            if not found:
                return self.one.read()
            self.one.opened, self.one.known = None, Known()
            self.look()
            return self.ring()

    def look(self) -> None:
        """Reads what was changed, and then, for a while, what wasn't read yet: the newest first. A
        camera with many stores is shown before all of them are read."""
        end, stamps = time.monotonic() + limits.RING_SECONDS, {}
        for member in self.members.values():
            stamp = member.stamp()
            if member.mark is None or not member.is_settled or stamp != member.mark:
                stamps[member.number] = stamp
        order = [self.members[number] for number in stamps]
        order.sort(key=lambda it: (it.mark is None, -(stamps[it.number] or (0, 0))[-2]))
        count = 0
        for member in order:
            if member.mark is None:
                if count and time.monotonic() > end and self.held():
                    break
                count += 1
            member.look(stamps[member.number])
            # What is read is packed before the next one: all of them would be large.
            if (held := self.held()) and member.reading and active_of(held) is not member.reading:
                member.rest()

    def held(self) -> dict[int, Reading]:
        """The stores that are read."""
        found = self.members.items()
        return {number: member.reading for number, member in found if member.reading}

    def ring(self) -> tuple[Ring, Sources]:
        """The stores that are read, as one ring."""
        parts = self.held()
        if not parts:
            raise layout.Refused(next(iter(self.members.values())).why)
        active = active_of(parts)
        spoilt = {it.path: it.why for it in self.members.values() if it.why not in ("", "missing")}
        for number, part in list(parts.items()):
            if part.geometry[:5] != active.geometry[:5]:
                spoilt[self.members[number].path] = UNLIKE
                del parts[number]
            elif part is not active:
                self.members[number].rest()
                parts[number] = self.members[number].reading
        ring = Ring(parts, len(self.members) - len(spoilt), spoilt)
        sources = {number: self.members[number].source for number in parts}
        likely = [active.among, ring.next_store()]
        return ring, Sources(ring, sources, [it for it in dict.fromkeys(likely) if it is not None])
