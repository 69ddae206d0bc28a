"""Regions of pictures: which rows and columns of each plane `clip[:, 100:200, 50:90]` names. Of a
region only its rows are read."""
from __future__ import annotations

import operator
from typing import Any, NamedTuple

from numpy.typing import NDArray


class Region(NamedTuple):
    """Rows and columns of a plane, and which of both are one: an array then lacks that side."""

    rows: range
    columns: range
    is_row: bool = False
    is_column: bool = False

    def span(self) -> tuple[int, int]:
        """The first row that is read, and the end of those."""
        return min(self.rows[0], self.rows[-1]), max(self.rows[0], self.rows[-1]) + 1

    def is_empty(self) -> bool:
        """Whether it has no pixel."""
        return not (self.rows and self.columns)

    def shape(self) -> tuple[int, ...]:
        """The shape of its array."""
        sides = ((self.rows, self.is_row), (self.columns, self.is_column))
        return tuple(len(places) for places, is_one in sides if not is_one)

    def of(self, read: NDArray[Any]) -> NDArray[Any]:
        """What it names of the rows that were read, each whole."""
        first, _ = self.span()
        found = read[slice_of(self.rows, first), slice_of(self.columns, 0)]
        return found.reshape(self.shape())


def slice_of(places: range, first: int) -> slice:
    """The slice of what begins at a place, which has these places."""
    stop = places.stop - first
    return slice(places.start - first, None if stop < 0 else stop, places.step)


def whole_region(shape: tuple[int, int]) -> Region:
    """All of a plane."""
    return Region(range(shape[0]), range(shape[1]))


def keys_of(key: tuple[Any, ...], sides: int = 3) -> tuple[Any, ...]:
    """A key for each side: frames, rows and columns."""
    dots = [place for place, it in enumerate(key) if it is Ellipsis]
    if len(dots) > 1 or len(key) - len(dots) > sides:
        raise IndexError(f"frames have {sides} sides (frames, rows, columns), not {len(key)}")
    at = dots[0] if dots else len(key)
    between = sides - len(key) + len(dots)
    return (*key[:at], *[slice(None)] * between, *key[at + 1 :])


def places_of(key: Any, length: int, what: str) -> tuple[range, bool]:
    """The places of a side that a number or a slice names, and whether it is one."""
    if isinstance(key, slice):
        return range(length)[key], False
    try:
        place = operator.index(key)
    except TypeError:
        raise TypeError(
            f"{what} are chosen by a number or a slice, not by {type(key).__name__}"
        ) from None
    if not -length <= place < length:
        raise IndexError(f"there are {length} {what}, and no {place}")
    place %= length
    return range(place, place + 1), True


def region_of(rows: Any, columns: Any, shape: tuple[int, int]) -> Region:
    """The region of a plane that two keys name."""
    down, is_row = places_of(rows, shape[0], "rows")
    across, is_column = places_of(columns, shape[1], "columns")
    return Region(down, across, is_row, is_column)


def regions_of(
    rows: Any, columns: Any, planes: tuple[tuple[int, int], ...], divided: tuple[int, int] | None
) -> list[Region]:
    """The region of each plane of a picture. Those of the colours have each sample that stands for
    a pixel of the region."""
    luma = region_of(rows, columns, planes[0])
    if divided is None:
        return [luma]
    if luma.rows.step != 1 or luma.columns.step != 1:
        raise IndexError("a region in colour has no steps: take `luma`, or slice the picture")
    across, down = divided
    colour = luma._replace(rows=samples(luma.rows, down), columns=samples(luma.columns, across))
    return [luma, colour, colour]


def samples(pixels: range, by: int) -> range:
    """The samples that stand for some pixels, each for so many."""
    if not pixels:
        return range(0)
    return range(pixels.start // by, -(-pixels.stop // by))
