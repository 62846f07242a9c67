"""Moments and spans as people read them."""

import unittest

from keeper.durations import ago, clock, length, span


class Spans(unittest.TestCase):
    def test_two_units_at_most(self) -> None:
        for seconds, said in (
                (0.4, "0 s"), (119.4, "119 s"), (120, "2 min"), (150, "2 min 30 s"),
                (3599, "59 min 59 s"), (3600, "1 h"), (86399, "23 h 59 min"), (86400, "1 d"),
                (90000, "1 d 1 h"), (-5, "0 s")):
            self.assertEqual(span(seconds), said)

    def test_small_ones(self) -> None:
        for seconds, said in ((0.0000004, "0 us"), (-0.000999, "-999 us"), (0.001, "1.0 ms"),
                              (-0.0123, "-12.3 ms"), (0.9994, "999.4 ms"), (16.0, "16.000 s")):
            self.assertEqual(length(seconds), said)


class Moments(unittest.TestCase):
    def test_in_utc(self) -> None:
        # `date -u -d @1767269100` says Thu Jan  1 12:05:00 UTC 2026.
        self.assertEqual(clock(1767269100.0), "2026-01-01 12:05:00")
        self.assertEqual((clock(0.0), ago(0.0, 5.0)), ("never", "never"))
        self.assertEqual(ago(100.0, 3700.0), "1 h ago")


if __name__ == "__main__":
    unittest.main()
