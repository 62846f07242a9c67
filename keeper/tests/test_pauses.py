"""Pauses: what the real-time clock shows of a host that stood still."""

import math
import unittest

from keeper.supervisor.pauses import Bounds, Pauses

NONE = -1.0  # of a host without a real-time clock
BEGAN = 1_796_000_000.37  # Unix seconds when the host was booted


class Host:
    """Three clocks. `boot` counts on; `real` and `hardware` are what the two others are ahead of
    it (s). The real-time clock is `fast` by so much (s/s)."""

    def __init__(self, fast: float = 0.0) -> None:
        self.boot, self.real, self.hardware, self.fast = 5.0, BEGAN, BEGAN, fast

    def boottime(self) -> float:
        return self.boot

    def realtime(self) -> float:
        return self.boot + self.real

    def rtc(self) -> int | None:
        if self.hardware == NONE:
            return None
        return math.floor(self.boot * (1 + self.fast) + self.hardware)


class Readings(unittest.TestCase):
    def test_bounds_widen_by_what_the_clocks_may_go_apart(self) -> None:
        """By a millisecond a second: a hundred seconds later by a tenth of a second either way."""
        later = Bounds(5.0, 6.0, 0.0).narrowed(Bounds(0.0, 9.0, 100.0))
        self.assertEqual((later.least, later.most, later.at), (4.9, 6.1, 100.0))
        later = Bounds(5.0, 6.0, 0.0).narrowed(Bounds(5.5, 9.0, 100.0))
        self.assertEqual((later.least, later.most), (5.5, 6.1))

    def test_a_clock_that_agreed_before_and_agrees_less_now_was_set_by_none(self) -> None:
        """The system's clock is 10.0 s ahead; the real-time clock jumped from there."""
        for known, new, due in ((9.95, 10.24, 0.29), (9.71, 9.99, 0.0), (10.0, 10.15, 0.0)):
            pauses = Pauses(Host())  # type: ignore[arg-type]
            pauses.ahead.append(10.0)
            before, now = (Bounds(one - 0.1, one + 0.1, 50.0) for one in (known, new))
            self.assertAlmostEqual(pauses._judged(before, now), due)


class Watched(unittest.TestCase):
    """A host that is looked at forty times a second."""

    def setUp(self) -> None:
        self.host = Host()
        self.pauses = Pauses(self.host)  # type: ignore[arg-type]

    def seen(self, seconds: float) -> list[float]:
        """The pauses that are seen in this time."""
        found = []
        for _ in range(round(seconds * 40)):
            self.host.boot += 0.025
            if span := self.pauses.look():
                found.append(span)
        return found

    def paused(self, seconds: float) -> None:
        """The host stands still, and its real-time clock goes on."""
        self.host.hardware += seconds

    def test_a_pause_is_seen_within_two_seconds(self) -> None:
        for seconds in (0.3, 0.45, 2.0, 31.8, 600.0):
            with self.subTest(seconds=seconds):
                self.assertEqual(self.seen(5), [])
                self.paused(seconds)
                found = self.seen(2)
                self.assertEqual(len(found), 1)
                self.assertLess(abs(found[0] - seconds), 0.2)

    def test_a_day_of_clocks_that_go_apart_is_no_pause(self) -> None:
        for fast in (100e-6, -100e-6):
            self.host = Host(fast)
            self.pauses = Pauses(self.host)  # type: ignore[arg-type]
            self.assertEqual(self.seen(7200), [])

    def test_a_clock_that_is_slewed_is_no_pause(self) -> None:
        for _ in range(2000):
            self.host.hardware -= 500e-6  # the seconds since the boot are slewed with it
            self.assertEqual(self.seen(1), [])

    def test_the_real_time_clock_is_set_by_the_system_s(self) -> None:
        for seconds in (0.7, 5.0, 259200.0):
            with self.subTest(seconds=seconds):
                self.host.real += seconds
                self.assertEqual(self.seen(20), [])
                self.host.hardware += seconds
                self.assertEqual(self.seen(5), [])

    def test_it_is_set_back(self) -> None:
        self.seen(5)
        self.host.hardware -= 40.0
        self.assertEqual(self.seen(5), [])
        self.paused(31.8)
        self.assertEqual(len(self.seen(2)), 1)

    def test_a_pause_after_which_both_clocks_are_set(self) -> None:
        """However short it is: the system's clock before it tells it from a clock that was set."""
        for seconds in (0.4, 0.6, 1.9, 31.8):
            with self.subTest(seconds=seconds):
                self.seen(5)
                self.paused(seconds)
                self.host.real += seconds
                self.assertEqual(len(self.seen(2)), 1)

    def test_a_sleep_that_the_kernel_counted_by_whole_seconds(self) -> None:
        self.seen(5)
        self.paused(0.7)
        self.pauses.forget()
        self.assertEqual(self.seen(5), [])

    def test_a_host_without_a_real_time_clock(self) -> None:
        self.host.hardware = NONE
        self.assertEqual(self.seen(5), [])


if __name__ == "__main__":
    unittest.main()
