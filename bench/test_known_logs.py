"""Tests of known_logs.py: what of a program's text is wrong or late.

    python3 -m unittest bench.test_known_logs
"""

import unittest

from bench.known_logs import BEGIN, FIRST, Report, is_wrong, late, since_1900

NOON = 3976257600  # FIRST in seconds since 1900


class Logs(unittest.TestCase):
    def test_the_first_minute(self):
        self.assertEqual(since_1900(FIRST), NOON)

    def test_late(self):
        """A minute that closes 20 ms late; on a counter that gains 100 parts in a million, a minute is 6 ms longer."""
        self.assertAlmostEqual(late(Report(BEGIN + 60_020_000, ""), 0), 20)
        self.assertAlmostEqual(late(Report(BEGIN + 60_006_000, ""), 100), 0)

    def test_a_wrong_verdict(self):
        close = BEGIN + 120_000_000
        for said, wrong in ((f"verdict {NOON + 120} 0", False), (f"verdict {NOON + 60} 0", True), (f"lone {NOON}", False)):
            self.assertEqual(is_wrong(Report(close, said), FIRST, 0), wrong, said)
