"""Tests of lab/receiver.py: what a receiver in software writes, also through the feeder of edges.

    python3 -m unittest lab.test_receiver
"""

import datetime
import itertools
import subprocess
import sys
import time
import unittest

from lab.program import TOP
from lab.receiver import MINUTE, SECOND, Faults, command, heard

NOON = datetime.datetime(2026, 1, 1, 12)


class Forms(unittest.TestCase):
    def made(self, plan, form):
        tool = command("--plan", plan, "--minutes", 2, "--form", form, "--jitter", 3, "--begin", 5000000)
        return subprocess.run(tool, capture_output=True, check=True, timeout=60).stdout

    def test_a_log_of_edges_is_that_of_pulses(self):
        """As the feeder reads the lines of gpiomon."""
        for plan in ("dcf", "msf", "wwvb"):
            with self.subTest(plan=plan):
                edges = self.made(plan, "edges")
                self.assertEqual(len(edges.splitlines()[0].split()), 4)
                feeder = [sys.executable, "-B", TOP / "feeders/edges_to_log.py"]
                log = subprocess.run(feeder, input=edges, capture_output=True, timeout=60).stdout
                self.assertEqual(log, self.made(plan, "log"))
                self.assertGreater(len(log.splitlines()), 115)


class Fading(unittest.TestCase):
    def received(self, share, minutes=300):
        found = heard("dcf", NOON, Faults(jitter=3000, fades=share), 7)
        return list(itertools.takewhile(lambda one: one[0] < minutes * MINUTE, found))

    def test_a_minute_that_fades_is_received_up_to_some_second(self):
        whole, faded = self.received(0), self.received(0.3)
        self.assertTrue(set(faded) < set(whole))
        short = 0
        for minute in range(300):
            moments = [moment for moment, _, _ in faded if moment // MINUTE == minute]
            seconds = [moment // SECOND % 60 for moment in moments]
            self.assertEqual(seconds, list(range(len(seconds))))
            short += len(seconds) < 59
        # 300 minutes of which three in ten fade: 90, with a standard deviation of 8.
        self.assertTrue(60 < short < 120, short)


class Live(unittest.TestCase):
    def live(self, base, *more):
        """The starts of what it writes within a second, as UTC in microseconds."""
        tool = command("--plan", "dcf", "--live", 1.2, "--since", f"0,{base!r}", *more)
        said = subprocess.run(tool, capture_output=True, check=True, timeout=60, text=True).stdout
        return [int(line.split()[0]) + base * 1e6 for line in said.splitlines()]

    def test_seconds_are_those_of_the_clock_that_is_named(self):
        """UTC is ahead of the host's monotonic clock by `base`. DCF77 has 59 marks a minute."""
        base = 1767268800.25 - time.monotonic()
        began = time.monotonic() + base
        past = self.live(base, "--history", "2")
        now = self.live(base)
        for unix in past + now:
            self.assertLess(abs(unix / 1e6 - round(unix / 1e6)), 2e-6)
        self.assertTrue(2 * 59 <= sum(unix < began * 1e6 for unix in past) <= 3 * 59 + 1)
        self.assertTrue(0 < len(now) <= 2)
        self.assertTrue(all(unix >= began * 1e6 for unix in now))

