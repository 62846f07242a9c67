#!/usr/bin/env python3
"""Tests of the feeders over recorded edges. What they have to write are the logs of the examples, which no feeder made.

    feeders/test_edges_to_log.py

What needs hardware isn't run here: gpiomon itself, and a serial port's lines.
"""

import os
import pathlib
import random
import subprocess
import threading
import time
import unittest

HERE = pathlib.Path(__file__).resolve().parent
from edges_to_log import Reductions, lines_of

RADIOS = HERE.parent / "examples" / "radios"
PLANS = ("dcf77", "msf", "wwvb")


def reductions_of(plan):
    """The starts and widths of an example's log."""
    return [tuple(map(int, line.split())) for line in (RADIOS / f"{plan}.log").read_text().splitlines()]


def edges_of(reductions):
    """The edges of a line that is high while the carrier is reduced: microseconds, and whether it rises."""
    return [edge for start, width in reductions for edge in ((start, True), (start + width, False))]


def stamp(at):
    return f"{at // 10**6}.{at % 10**6:06}789"


def ours(at, rising):
    return f"{stamp(at)} {'rising' if rising else 'falling'}\n"


def gpiomon_1(at, rising):
    return f"event: {'RISING' if rising else 'FALLING'} EDGE offset: 17 timestamp: [{stamp(at):>16}]\n"


def gpiomon_2(at, rising):
    return f"{stamp(at)}\t{'rising' if rising else 'falling'}\tgpiochip0 17\n"


def ran(*words, text="", program="edges_to_log.py"):
    """A feeder that ended by itself: what it wrote, what it said on standard error, and its exit status."""
    done = subprocess.run([HERE / program, *words], input=text.encode(), capture_output=True, timeout=60)
    return done.stdout.decode(), done.stderr.decode(), done.returncode


def feed(text, *words):
    """What the feeder writes of a text, and what it says on standard error."""
    written, said, status = ran(*words, text=text)
    assert status == 0, said
    return written, said


def log_of(reductions):
    return "".join(f"{start} {width}\n" for start, width in reductions)


class Edges(unittest.TestCase):
    def gives(self, edges, reductions, form=ours, *words):
        written, said = feed("".join(form(at, rising) for at, rising in edges), *words)
        self.assertEqual(written, log_of(reductions))
        self.assertEqual(said, "")

    def test_each_plan_in_each_form(self):
        for plan in PLANS:
            reductions = reductions_of(plan)
            for form in (ours, gpiomon_1, gpiomon_2):
                with self.subTest(plan=plan, form=form.__name__):
                    self.gives(edges_of(reductions), reductions, form)

    def test_a_line_that_is_low_while_the_carrier_is_reduced(self):
        for plan in PLANS:
            reductions = reductions_of(plan)
            with self.subTest(plan=plan):
                self.gives([(at, not rising) for at, rising in edges_of(reductions)], reductions, ours, "--low")

    def test_noise(self):
        """Spikes of up to 4.9 ms in reductions and between them, none within 5 ms of an edge."""
        chance = random.Random(7)
        for plan in PLANS:
            reductions = reductions_of(plan)
            edges = edges_of(reductions)
            noisy = []
            for (at, rising), (then, _) in zip(edges, edges[1:]):
                noisy.append((at, rising))
                if then - at > 30_000 and chance.random() < 0.4:
                    spike = at + chance.randrange(10_000, then - at - 15_000)
                    noisy += [(spike, not rising), (spike + chance.randrange(1, 4_900), rising)]
            noisy.append(edges[-1])
            self.assertGreater(len(noisy), len(edges) + 200)
            with self.subTest(plan=plan):
                self.gives(noisy, reductions)

    def test_lost_edges(self):
        """Of each edge that was lost one reduction isn't given, and no other."""
        for plan in PLANS:
            reductions = reductions_of(plan)
            edges = edges_of(reductions)
            for lost in range(20, 28):
                with self.subTest(plan=plan, lost=lost):
                    left = reductions[: lost // 2] + reductions[lost // 2 + 1 :]
                    self.gives(edges[:lost] + edges[lost + 1 :], left)

    def test_widths(self):
        second = 1_000_000
        for width, told in ((4_999, None), (5_000, 5_000), (1_999_999, 1_999_999), (2_000_000, 2_000_000), (2_000_001, 2_000_000), (9_000_000, 2_000_000)):
            with self.subTest(width=width):
                edges = edges_of([(second, width), (20 * second, 100_000)])
                self.gives(edges, ([(second, told)] if told else []) + [(20 * second, 100_000)])

    def test_gaps(self):
        second = 1_000_000
        self.gives(edges_of([(second, 50_000), (second + 54_999, 45_001)]), [(second, 100_000)])
        self.gives(edges_of([(second, 50_000), (second + 55_000, 45_000)]), [(second, 50_000), (second + 55_000, 45_000)])

    def test_starts_rise(self):
        """A clock that goes back, and the same edges twice."""
        edges = edges_of([(5_000_000, 100_000)])
        self.gives(edges + edges + edges_of([(4_000_000, 100_000), (6_000_000, 100_000)]), [(5_000_000, 100_000), (6_000_000, 100_000)])

    def test_the_last_line_without_its_line_feed(self):
        written, _ = feed("1.000000 rising\n1.100000 falling")
        self.assertEqual(written, "1000000 100000\n")

    def test_what_is_no_edge(self):
        others = ("waiting for line: -- rising", "2026-11-29T12:00:00.123456789Z rising gpiochip0 17", "event: RISING EDGE offset: 17")
        written, said = feed("\n1.0 rising\n1.1 falling\n" + "".join(f"{line}\n" for line in others))
        self.assertEqual(written, "1000000 100000\n")
        self.assertEqual(said, "".join(f"no edge: {line}\n" for line in others))

    def test_lines_of_noise(self):
        """Ten lines a minute are reported, a hundred characters of each, and nothing that a terminal would obey."""
        noise = ["\x1b[31mred", "n" * 200, *(f"noise {number}" for number in range(10))]
        written, said = feed("".join(f"{line}\n" for line in noise))
        self.assertEqual(written, "")
        shown = ["\\x1b[31mred", "n" * 100, *noise[2:10]]
        self.assertEqual(said, "".join(f"no edge: {line}\n" for line in shown) + "2 more lines were no edge\n")

    def test_a_line_without_an_end(self):
        """It takes no memory, and an edge after it counts. Nor is a number that never ends a moment."""
        written, said = feed("x" * 10_000_000 + "\n1.0 rising\n1.1 falling\n" + "9" * 5000 + ".0 rising\n")
        self.assertEqual(written, "1000000 100000\n")
        self.assertEqual(said, f"no edge: {'x' * 100}\nno edge: {'9' * 100}\n")

    def test_what_is_kept_of_a_line_without_an_end(self):
        """At most a page of memory and what is read at a time."""
        reader, writer = os.pipe()
        with os.fdopen(writer, "wb") as out:
            out.write(b"x" * 60_000)
        with os.fdopen(reader, "rb") as into:
            lines = list(lines_of(into.fileno(), Reductions(lambda start, width: None)))
        self.assertEqual(len(lines), 1)
        self.assertLessEqual(len(lines[0]), 4096)

    def test_a_clock_that_is_not_monotonic(self):
        """The realtime clock is beyond the moments of a log: it is said once."""
        text = "1789000000.0 rising\n1789000000.1 falling\n1.0 rising\n1.1 falling\n"
        written, said = feed(text)
        self.assertEqual(written, "1000000 100000\n")
        self.assertEqual(said, "beyond the moments of a log: 1789000000.0 rising (is it stamped by the monotonic clock?)\n")


class Live(unittest.TestCase):
    def setUp(self):
        self.feeder = subprocess.Popen([HERE / "edges_to_log.py"], stdin=subprocess.PIPE, stdout=subprocess.PIPE, bufsize=0)
        self.addCleanup(self.feeder.wait)
        self.addCleanup(self.feeder.stdout.close)
        self.addCleanup(self.feeder.stdin.close)
        limit = threading.Timer(30, self.feeder.kill)
        limit.start()
        self.addCleanup(limit.cancel)

    def test_a_line_comes_as_its_reduction_ends(self):
        for second in (1, 2):
            self.feeder.stdin.write(ours(second * 10**6, True).encode() + ours(second * 10**6 + 100_000, False).encode())
            self.assertEqual(self.feeder.stdout.readline(), f"{second}000000 100000\n".encode())

    def test_a_reduction_is_written_once_nothing_more_can_belong_to_it(self):
        """It waits for a gap of noise, and no longer: at most a fifth of a second is lost before the log has the mark."""
        self.feeder.stdin.write(ours(10**6, True).encode() + ours(1_100_000, False).encode())
        self.assertEqual(self.feeder.stdout.readline(), b"1000000 100000\n")
        reductions = Reductions(lambda start, width: None)
        reductions.edge(10**6, True)
        self.assertEqual(reductions.wait(), 2.2)
        reductions.edge(1_100_000, False)
        self.assertEqual(reductions.wait(), 0.2)

    def test_an_outage_is_told_when_two_seconds_are_over(self):
        self.feeder.stdin.write(ours(10**6, True).encode())
        begin = time.monotonic()
        self.assertEqual(self.feeder.stdout.readline(), b"1000000 2000000\n")
        self.assertGreaterEqual(time.monotonic() - begin, 2)
        self.feeder.stdin.write(ours(5 * 10**6, False).encode() + ours(6 * 10**6, True).encode() + ours(6_200_000, False).encode())
        self.assertEqual(self.feeder.stdout.readline(), b"6000000 200000\n")

    def test_edges_that_are_held_back(self):
        """By the moments of the edges the mark had 100 ms: its width was reported wrong while its end was held back. That is said once."""
        feeder = subprocess.Popen([HERE / "edges_to_log.py"], stdin=subprocess.PIPE, stdout=subprocess.PIPE, stderr=subprocess.PIPE, bufsize=0)
        self.addCleanup(feeder.stdout.close)
        self.addCleanup(feeder.stderr.close)
        for start in (10**6, 2 * 10**6):
            feeder.stdin.write(ours(start, True).encode())
            self.assertEqual(feeder.stdout.readline(), f"{start} 2000000\n".encode())
            feeder.stdin.write(ours(start + 100_000, False).encode())
        feeder.stdin.close()
        self.assertEqual(feeder.wait(20), 0)
        self.assertEqual(len(said := feeder.stderr.read().decode().splitlines()), 1)
        self.assertTrue(said[0].startswith("an edge came more than 2 s late"), said)

    def test_an_edge_in_two_pieces(self):
        line = ours(10**6, True).encode() + ours(1_100_000, False).encode()
        for byte in line:
            self.feeder.stdin.write(bytes([byte]))
        self.assertEqual(self.feeder.stdout.readline(), b"1000000 100000\n")

    def test_a_reader_that_ends(self):
        self.feeder.stdout.close()
        try:
            for second in range(1, 4):
                self.feeder.stdin.write(ours(second * 10**6, True).encode() + ours(second * 10**6 + 100_000, False).encode())
                time.sleep(0.2)
        except BrokenPipeError:
            pass
        self.assertEqual(self.feeder.wait(10), 1)


if __name__ == "__main__":
    os.environ["PYTHONDONTWRITEBYTECODE"] = "1"
    unittest.main()
