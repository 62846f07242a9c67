"""Tests of lab/minutes.py by the logs of examples/, which another hand's maker wrote.

    python3 -m unittest lab.test_minutes
"""

import datetime
import unittest

from lab.minutes import minute_of
from lab.program import TOP

NOON = datetime.datetime(2026, 1, 1, 12)
BEGIN = 2_000_000  # the counter at noon, in microseconds
DELAYS = {"dcf": ("dcf77", 1400), "msf": ("msf", 2600), "wwvb": ("wwvb", 21000)}
JITTER = 1500


class Minutes(unittest.TestCase):
    def test_ten_minutes_as_the_examples_have_them(self):
        for plan, (name, delay) in DELAYS.items():
            log = [tuple(map(int, line.split())) for line in (TOP / f"examples/radios/{name}.log").read_text().splitlines()]
            sent = [
                (minute * 60_000_000 + at, width)
                for minute in range(10)
                for at, width in minute_of(plan, NOON + datetime.timedelta(minutes=minute))
            ]
            received = [(at - BEGIN - delay, width) for at, width in log if 0 <= at - BEGIN - delay < 600_000_000]
            self.assertEqual(len(received), len(sent), plan)
            for (came, wide), (at, width) in zip(received, sent):
                self.assertTrue(0 <= came - at <= JITTER and abs(wide - width) <= JITTER, (plan, at))

    def test_summer_is_not_kept(self):
        """In July DCF77 would send an hour more; these senders have winter time all year."""
        widths = [width for _, width in minute_of("dcf", datetime.datetime(2026, 7, 1, 12))]
        self.assertEqual(widths[17:19], [100_000, 200_000])
