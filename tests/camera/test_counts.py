"""What is counted, and when it is told."""
import random

import pytest

from station_camera.counts import Counts, Lost, Unrolled


@pytest.mark.parametrize(
    "numbers,missing",
    [
        ([1, 2, 3], 0),
        ([1, 2, 5], 2),
        ([65534, 65535, 1, 2], 0),
        ([65534, 1], 1),
        ([65535, 3], 2),
        ([65530, 2], 6),
        ([70000, 70003], 2),
        ([7, 7], 0),
        ([500, 3, 4], 0),
        ([65534, 65535, 0, 1], 0),
        ([65534, 1, 65535, 2], 0),
        ([3, 6, 4, 7], 1),
        ([5, 4, 6], -1),
        ([10, 50_000, 50_001], 49_989),
        ([65534, 1, 40_000], 40_000 - 1),
        ([40_000, 10], 25_544),
        ([1, 65535, 2], -1),
        ([70_000, 70_000 + 65_536], 65_535),
        ([70_000, 70_000 + 65_537], 0),
    ],
)
def test_missing_numbers_are_lost_frames(numbers, missing):
    lost = Lost()
    assert sum(map(lost.before, numbers)) == missing


@pytest.mark.parametrize(
    "around,numbers,unrolled",
    [
        (65535, [1, 2, 5], [1, 2, 5]),
        (65535, [65534, 65535, 1, 2], [65534, 65535, 65536, 65537]),
        (65535, [65530, 2], [65530, 65537]),
        (65535, [65535, 65536, 65537], [65535, 65536, 65537]),
        (65535, [65534, 1, 65535, 2], [65534, 65536, 65535, 65537]),
        (65535, [500, 3, 4], [500, 3, 4]),
        (65535, [65535, 1, 3], [65535, 65536, 65538]),
        (65535, [65534, 65535, 1, 1, 3], [65534, 65535, 65536, 65536, 65538]),
        (65535, [7, 7, 8, 10], [7, 7, 8, 10]),
        (65535, [0, 0, 0, 0], [0, 0, None, None]),
        (65535, [7, 7, 7, 8, 10], [7, 7, None, 8, 10]),
        (65535, [10, 50_000, 50_001], [10, 50_000, 50_001]),
        (65535, [65534, 1, 40_000], [65534, 65536, 105_535]),
        (65535, [1, 65535, 2], [1, None, 2]),
        (1 << 32, [(1 << 32) - 1, 0, 1], [(1 << 32) - 1, 1 << 32, (1 << 32) + 1]),
        (1 << 32, [(1 << 32) - 2, 1], [(1 << 32) - 2, (1 << 32) + 1]),
        (1 << 32, [500, 3, 4], [500, 3, 4]),
    ],
)
def test_numbers_that_go_round_are_counted_on(around, numbers, unrolled):
    own = Unrolled(around)
    assert [own.of(it) for it in numbers] == unrolled


@pytest.mark.parametrize("seed", range(50))
def test_what_is_told_here_is_what_the_station_counts(seed):
    """Numbers of 16 bits that jump by any step. The station's rule: 65,535 are lost at once, and
    what goes back or jumps further begins anew."""
    luck, numbers = random.Random(seed), [random.Random(seed).randrange(1, 65536)]
    for _ in range(300):
        step = luck.choice((1, 1, 2, luck.randrange(1, 65_000), -luck.randrange(257, 65_000)))
        numbers.append((numbers[-1] + step - 1) % 65535 + 1)
    given = list(map(Unrolled(65535).of, numbers))
    steps = [after - before for before, after in zip(given, given[1:])]
    lost = Lost()
    assert [lost.before(it) for it in numbers][1:] == [
        it - 1 if 0 < it <= 65_536 else 0 for it in steps
    ]


def test_counts_are_told_once_a_second_and_at_the_end():
    told, time = [], [100.0]
    counts = Counts(told.append, lambda: time[0])
    counts.look()
    assert told == []
    counts.add("incomplete")
    counts.look()
    counts.add("incomplete", 2)
    counts.look()
    time[0] += 0.9
    counts.look()
    assert told == [
        "1 frame incomplete and dropped; since the start 0 frames given on, 1 frame "
        "incomplete and dropped"
    ]
    time[0] += 0.1
    counts.frames = 7
    counts.look()
    assert told[1].startswith(
        "2 frames incomplete and dropped; since the start 7 frames given on, 3 frames"
    )
    counts.add("lost")
    counts.end()
    assert told[2].startswith("1 frame lost before it came; since") and len(told) == 4
    assert (
        told[3]
        == "ended: 7 frames given on, 3 frames incomplete and dropped, 1 frame lost before it came"
    )


def test_another_streams_counts_are_added():
    counts = Counts(lambda _: None)
    counts.set("resent", 5, 10)
    assert counts.whole["resent"] == 15
