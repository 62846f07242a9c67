#!/usr/bin/env python3
"""Tests of build/build_estimate.py: python3 -B build/test_build_estimate.py"""

import unittest

from build_estimate import CODE, LAST, LOADED, SECONDS_A_LINE, SPREAD, WEIGHT, Estimate, sizes_of

BELOW = {"low": [], "left": ["low"], "right": ["low"], "program": ["left", "right"]}
SIZES = {"low": 1000.0, "left": 500.0, "right": 3000.0, "program": 100.0}


class Sizes(unittest.TestCase):
    def test_what_is_loaded_counts_once_and_the_program_has_all_code(self):
        sizes = sizes_of(BELOW, {"low": 1000, "left": 500, "right": 300, "program": 100})
        self.assertEqual((sizes["low"], sizes["left"], sizes["right"]), (1000, 500 + LOADED * 1000, 300 + LOADED * 1000))
        self.assertEqual(sizes["program"], 100 + LOADED * 1800 + CODE * 1900)


class Estimates(unittest.TestCase):
    def setUp(self):
        self.wide, self.narrow = Estimate(BELOW, SIZES, 4), Estimate(BELOW, SIZES, 1)

    def test_the_longest_chain_or_all_on_the_processors_there_are(self):
        self.assertAlmostEqual(self.wide.left(0.0), 4100 * SECONDS_A_LINE)
        self.assertAlmostEqual(self.narrow.left(0.0), SPREAD * 4600 * SECONDS_A_LINE)

    def test_the_pace_goes_by_what_was_seen(self):
        self.wide.begin({"low"}, 10.0)
        self.wide.begin({"low"}, 20.0)  # it was begun before
        self.wide.end("low", 110.0)
        pace = (SECONDS_A_LINE * WEIGHT + 100) / (WEIGHT + 1000)
        self.assertAlmostEqual(self.wide.left(110.0), 3100 * pace)

    def test_what_is_kept_says_nothing_of_the_pace(self):
        self.wide.end("low", 1.0)
        self.assertAlmostEqual(self.wide.left(1.0), 3100 * SECONDS_A_LINE)

    def test_what_is_in_hand_counts_down_and_never_to_nothing(self):
        for name in ("low", "left"):
            self.wide.end(name, 0.0)
        self.wide.begin({"right"}, 0.0)
        self.assertAlmostEqual(self.wide.left(30.0), 3000 * SECONDS_A_LINE - 30 + 100 * SECONDS_A_LINE)
        pace = (SECONDS_A_LINE * WEIGHT + 1000 / (1 - LAST)) / (WEIGHT + 3000)
        self.assertAlmostEqual(self.wide.left(1000.0), LAST * 3000 * pace + 100 * pace)

    def test_it_neither_stands_still_nor_jumps(self):
        """As on a machine that is four times slower than these lines say, with nothing proved for minutes."""
        self.wide.begin({"low"}, 0.0)
        seen = [self.wide.left(float(second)) for second in range(100)]
        self.assertTrue(all(0 < abs(one - other) < 15 for one, other in zip(seen, seen[1:])))
        self.wide.end("low", 99.0)
        self.assertAlmostEqual(self.wide.left(99.0), seen[99], delta=0.1 * seen[99])

    def test_at_the_end_nothing_is_left(self):
        for name in BELOW:
            self.wide.end(name, 5.0)
        self.assertEqual(self.wide.left(5.0), 0.0)


if __name__ == "__main__":
    unittest.main()
