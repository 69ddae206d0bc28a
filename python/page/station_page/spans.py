"""What a keep didn't get of the time that was asked for. The station says it; where nobody hears
the station, the page reckons it by the store: because the ring held no more, because no frames came
for a while, or because they came no more."""
from collections.abc import Iterable

from . import words
from .heard import Part
from .reader import Clip, Reading
from .rings import Ring

# Times are named up to so many holes.
HOLES_NAMED = 3
# What is shorter than this is no hole: a second, in microseconds, or three frames.
LEAST = 1_000_000


def told(part: Part) -> str:
    """What the station says, in sentences: how much is held of how much, from when to when no frame
    is, and how many were lost."""
    many = "1 frame of it was" if part.lost == 1 else f"{part.lost} frames of it were"
    lost = f"{many} lost." if part.lost else ""
    if not part.is_short():
        return lost
    held, asked = ((it or 0) / 1e6 for it in (part.held, part.asked))
    front = f"That is {words.seconds_words(held)} of {words.seconds_words(asked)}"
    times = f": no frames are held {times_of(part.gaps)}." if part.gaps else "."
    return f"{front}{times} {lost}".rstrip()


def times_of(gaps: list[tuple[int, int]]) -> str:
    """Some times, of which the first few are named."""
    named = [f"from {words.clock(one)} to {words.clock(two)}" for one, two in gaps[:HOLES_NAMED]]
    more = len(gaps) - len(named)
    return ", ".join(named) + (f", and {more} more times" if more else "")


def pieces_of(reading: Reading | Ring, clips: Iterable[Clip]) -> list[tuple[int, int]]:
    """The times from which to which a clip's frames follow one another, in microseconds since
    1970."""
    found = []
    for clip in clips:
        part = reading.part(clip.id)
        for piece in part.pieces():
            first, last = max(piece.first, clip.first), min(piece.last, clip.last)
            if first <= last:
                found.append((part.time_of(first), part.time_of(last)))
    return sorted(found)


def lack(reading: Reading | Ring, clips: list[Clip], since: int, until: int) -> str:
    """What is missing of a time from `since` to `until`, in a sentence; nothing where all is
    there."""
    period = round(1_000_000 / reading.geometry.rate())
    least = max(LEAST, 3 * period)
    pieces = pieces_of(reading, clips)
    if not pieces:
        return ""
    missed = []
    if pieces[0][0] - since > least:
        missed.append(before(reading, pieces[0][0], since))
    holes = [(one[1], two[0]) for one, two in zip(pieces, pieces[1:]) if two[0] - one[1] > least]
    if holes:
        missed.append(between(holes))
    if until - pieces[-1][1] > least:
        missed.append(f"no frames came after {words.clock(pieces[-1][1])}")
    if not missed:
        return ""
    held = sum(one[1] - one[0] + period for one in pieces) / 1e6
    return (
        f"That is {words.seconds_words(held)} of {words.seconds_words((until - since) / 1e6)}: "
        f"{', and '.join(missed)}."
    )


def before(reading: Reading | Ring, first: int, since: int) -> str:
    """Why the beginning is missing: the ring doesn't reach back so far, or no frames came then."""
    oldest = reading.oldest().time
    if first > oldest and since >= oldest:
        return f"no frames came until {words.clock(first)}"
    return f"the ring held nothing from before {words.clock(first)}"


def between(holes: list[tuple[int, int]]) -> str:
    """Which times within have no frames."""
    return f"no frames came {times_of(holes)}"
