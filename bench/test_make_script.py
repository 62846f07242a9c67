"""Tests of make_script.py: twelve radios and four servers, in order of time.

    python3 -m unittest bench.test_make_script
"""

import collections
import itertools
import unittest

from bench.make_script import lines, stamp, station


class Scripts(unittest.TestCase):
    def test_a_minute(self):
        """DCF77 has 59 marks a minute, WWVB 60, and MSF 60 and one more where bit B alone is 1."""
        rows = [line.split() for line in itertools.takewhile(lambda one: not one.startswith("pulse 0 62"), lines())]
        counts = collections.Counter(tuple(row[:2]) for row in rows)
        self.assertEqual([counts["pulse", str(feed)] for feed in (0, 3, 8, 11)], [59, 59, 60, 60])
        self.assertEqual([counts[word, "12"] for word in ("ask", "answer")], [1, 1])
        moments = [int(row[2]) for row in rows]
        self.assertEqual(moments, sorted(moments))

    def test_what_goes_with_it(self):
        self.assertEqual([station().count(f"[[{table}]]") for table in ("radio", "server")], [12, 4])
        # The counter stands at 2 s at noon of 2026-01-01, 3976257600 s after 1900.
        self.assertEqual(stamp(2_500_000), 3976257600 << 32 | 1 << 31)
