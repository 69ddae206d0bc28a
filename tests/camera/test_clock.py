"""The camera's clock, tied to the system's."""
import pytest

from station_camera.clock import SECOND, Clock

DAY = 1_795_880_280 * SECOND


class Clocks:
    """The system's clock and a camera's, as a test sets them. Reading the camera takes time."""

    def __init__(self, start=5 * SECOND):
        self.system, self.camera, self.takes, self.told = DAY, start, [3_000_000], []

    def now(self):
        return self.system

    def latch(self):
        took = self.takes[0] if len(self.takes) == 1 else self.takes.pop(0)
        self.system += took
        self.camera += took
        # It is read in the middle of the way there and back.
        return self.camera - took // 2

    def clock(self, mode, latch=True):
        return Clock(mode, self.told.append, self.latch if latch else None, self.now)


def test_a_camera_that_says_its_time_is_tied_by_the_quickest_reading():
    it = Clocks()
    it.takes = [9_000_000, 100_000, 8_000_000]
    clock = it.clock("tied")
    assert clock.offset == DAY - 5 * SECOND
    assert clock.micros(7 * SECOND, 0) == (DAY + 2 * SECOND) // 1000
    assert "tied to the system's clock" in it.told[0] and "within 50 us" in it.told[0]


def test_a_camera_without_a_time_is_tied_by_its_first_frame_and_stays_so():
    it = Clocks()
    clock = it.clock("tied", latch=False)
    assert it.told == []
    assert clock.micros(100, DAY) == DAY // 1000
    # The second arrives late; its time is the camera's.
    assert clock.micros(100 + SECOND, DAY + 9 * SECOND) == (DAY + SECOND) // 1000
    assert "by the first frame's arrival" in it.told[0] and len(it.told) == 1


@pytest.mark.parametrize("ahead", [0, 37])
def test_ptp_differs_by_whole_seconds(ahead):
    it = Clocks(start=DAY + ahead * SECOND + 2_000_000)
    clock = it.clock("ptp")
    assert clock.offset == -ahead * SECOND
    assert f"by PTP: {ahead} s ahead" in it.told[0]


def test_a_clock_that_ptp_has_not_set_is_told_and_tied():
    it = Clocks(start=SECOND // 2)
    clock = it.clock("ptp")
    assert "isn't set by PTP" in it.told[0] and clock.offset == DAY - SECOND // 2


def test_arrival_and_frames_without_a_time_have_none():
    assert Clocks().clock("arrival").micros(5, DAY) is None
    assert Clocks().clock("tied").micros(0, DAY) is None


def test_a_drift_is_told_each_time_it_has_doubled():
    it = Clocks()
    clock = it.clock("tied")
    for drift in (20, 60, 70, 90, 110, 390):
        it.system = DAY + (it.camera - 5 * SECOND) + drift * SECOND // 1000
        clock.look(it.camera, it.system)
    told = [line.split(":")[0] for line in it.told[1:]]
    assert told == [
        f"the camera's clock is {it} ms behind since the start" for it in (60, 110, 390)
    ]
