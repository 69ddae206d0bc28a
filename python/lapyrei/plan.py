"""What the station makes of so much room: how many stores, how large, and how much footage they
hold. It was written from docs/reference.md and docs/laboratory.md. It needs nothing but Python."""
from __future__ import annotations

import re
from fractions import Fraction
from typing import NamedTuple

from . import layout
from .layout import Geometry

SEGMENTS_MOST, SLOTS_MOST, STORES_MOST = 64, 256, 256
# The slots of a segment: 64, and more for frames of at most so many bytes, where there are at least
# so many segments of these.
SLOTS, SMALL, SEGMENTS_LEAST = 64, ((256, 16384), (128, 65536)), 16
SIDE_MOST, FRAME_MOST = 16384, 16_777_216
UNITS = {"": 1, "k": 10**3, "M": 10**6, "G": 10**9, "T": 10**12}
UNITS |= {"Ki": 2**10, "Mi": 2**20, "Gi": 2**30, "Ti": 2**40}
SECONDS = {"s": 1, "min": 60, "h": 3600, "d": 86400}


class Unfit(ValueError):
    """Why no store is as it is asked for, in a sentence."""


class Plan(NamedTuple):
    """Stores of one geometry, as the station makes them."""

    stores: int
    geometry: Geometry

    @property
    def frames(self) -> int:
        """How many of the newest frames they hold for certain, while nothing is locked."""
        blocks: int = self.stores * self.geometry.segments
        slots: int = self.geometry.slots
        return (blocks - 1) * slots + 1

    @property
    def bytes(self) -> int:
        """What their files take."""
        return self.stores * self.geometry.disk_size()

    @property
    def seconds(self) -> float:
        """How long that footage lasts."""
        return self.frames / self.geometry.rate()


def geometry_in(size: str, form: str, bits: str, rate: str) -> Geometry:
    """The frames that `1920x1080 GREY 16 100` says, without a ring. Samples of more than 8 bits
    have two bytes each, and so twice the width in a store."""
    sides, found = re.fullmatch(r"(\d{1,5})x(\d{1,5})", size), form.encode()
    if not sides or found not in layout.DIVIDED:
        raise Unfit("a size is 640x480, and a format GREY, YM12, YM16 or YM24")
    if bits not in ("8", *map(str, layout.DEEP)):
        raise Unfit("samples have 8 to 16 bits")
    whole = re.fullmatch(r"(\d{1,9})(?:[:/](\d{1,9})|\.(\d{1,6}))?", rate)
    if not whole:
        raise Unfit("a rate is 25, 29.97 or 30000:1001")
    parts = Fraction(rate.replace(":", "/")) if whole[2] is None or int(whole[2]) else Fraction(0)
    width, height = int(sides[1]) * (1 if bits == "8" else 2), int(sides[2])
    bytes_of = layout.frame_bytes(width, height, found) or 0
    if not parts or not 0 < width <= SIDE_MOST or not 0 < height <= SIDE_MOST:
        raise Unfit("sides and rate are at least 1, and a row has at most 16,384 bytes")
    if bytes_of > FRAME_MOST:
        raise Unfit(f"a frame would have {bytes_of:,} bytes, and a store's have {FRAME_MOST:,}")
    return Geometry(width, height, found, parts.numerator, parts.denominator, 2, 1, bytes_of)


def room_in(text: str) -> tuple[int | None, Fraction | None]:
    """The bytes that `2TB` says, or the seconds that `12h` does."""
    found = re.fullmatch(r"(\d{1,15}(?:\.\d{1,3})?)([kMGT]i?)?B?", text)
    if found:
        return int(Fraction(found[1]) * UNITS[found[2] or ""]), None
    found = re.fullmatch(r"(\d{1,9}(?:\.\d{1,3})?)(s|min|h|d)", text)
    if not found:
        raise Unfit("room is 2TB, 500GB or 1.5TiB, or a time: 90s, 10min, 12h or 2d")
    return None, Fraction(found[1]) * SECONDS[found[2]]


def slots_within(geometry: Geometry, segments: int, room: int) -> int:
    """The most slots of so many segments that fit into so much room of one store, 256 at most."""
    each: int = (room - layout.FRONT) // segments - layout.HEADER
    slot: int = layout.HEAD + geometry.size
    return max(0, min(SLOTS_MOST, each // slot))


def within(geometry: Geometry, room: int) -> Plan:
    """The stores that `bytes` of the station's file makes."""
    largest = geometry._replace(segments=SEGMENTS_MOST, slots=SLOTS_MOST)
    stores = min(STORES_MOST, max(1, -(-room // largest.disk_size())))
    slots = slots_within(geometry, SEGMENTS_MOST, room // stores)
    if stores > 1:
        return Plan(stores, largest._replace(slots=slots))
    usual = next((it for it, size in SMALL if geometry.size <= size
                  and slots_within(geometry, SEGMENTS_LEAST, room) >= it), SLOTS)
    if slots >= usual:
        return Plan(1, largest._replace(slots=slots))
    one = layout.HEADER + usual * (layout.HEAD + geometry.size)
    segments = (room - layout.FRONT) // one
    if segments >= 2:
        return Plan(1, geometry._replace(segments=segments, slots=usual))
    slots = slots_within(geometry, 2, room)
    if slots < 1:
        raise Unfit("that is less than two frames take")
    return Plan(1, geometry._replace(segments=2, slots=slots))


def lasting(geometry: Geometry, seconds: Fraction) -> Plan:
    """The stores that `minutes` or `hours` of the station's file makes."""
    before = max(-(-seconds * geometry.num // geometry.den), 1) - 1
    usual = next((it for it, size in SMALL if geometry.size <= size
                  and -(-before // it) + 1 >= SEGMENTS_LEAST), SLOTS)
    segments, stores = max(2, -(-before // usual) + 1), 1
    if segments > SEGMENTS_MOST:
        segments, blocks = SEGMENTS_MOST, -(-before // SLOTS_MOST) + 1
        stores = -(-blocks // SEGMENTS_MOST)
        usual = -(-before // (stores * SEGMENTS_MOST - 1))
    if stores > STORES_MOST:
        raise Unfit("256 stores, the most, hold 4,194,049 frames, and that is more")
    return Plan(stores, geometry._replace(segments=segments, slots=usual))


def planned(size: str, form: str, bits: str, rate: str, room: str) -> Plan:
    """What the station makes of so much room for such frames."""
    geometry = geometry_in(size, form, bits, rate)
    count, seconds = room_in(room)
    if count is not None:
        return within(geometry, count)
    return lasting(geometry, seconds or Fraction(0))


def duration(seconds: float) -> str:
    """A length of time in words."""
    if seconds < 100:
        return f"{seconds:.1f} s"
    if seconds < 6000:
        return f"{seconds / 60:.1f} min"
    return f"{seconds / 3600:.1f} h" if seconds < 360_000 else f"{seconds / 86400:.1f} days"


def amount(count: float) -> str:
    """Bytes in words."""
    for unit, size in (("TB", 1e12), ("GB", 1e9), ("MB", 1e6)):
        if count >= size:
            return f"{count / size:.{2 if unit == 'TB' else 1}f} {unit}"
    return f"{count:.0f} bytes"
