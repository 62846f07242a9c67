#!/usr/bin/env python3
"""Tests of steady.py over made marks whose true moments are known.

    feeders/test_steady.py
"""

import pathlib
import random
import statistics
import unittest

HERE = pathlib.Path(__file__).parent
from steady import PhaseLine, Steady

SECOND = 1_000_000
RADIOS = HERE.parent / "examples" / "radios"


def due(second, ppm=0.0, phase=123_456):
    """When the mark of a second is due on a counter that gains `ppm` parts per million."""
    return 5 * SECOND + phase + round(second * SECOND * (1 + ppm * 1e-6))


def errors(steady, seconds, jitter, seed=1, ppm=0.0, outliers=0.03, phase=123_456):
    """By how much each of these seconds' marks is off in the raw log and in the steady one, in microseconds."""
    chance = random.Random(seed)
    raw, moved = [], []
    for second in seconds:
        at = due(second, ppm, phase) + round(chance.uniform(-jitter, jitter))
        if chance.random() < outliers:
            at += round(chance.uniform(-60_000, 60_000))
        raw.append(at - due(second, ppm, phase))
        moved.append(steady.start(at) - due(second, ppm, phase))
    return raw, moved


def minutes(first, past):
    """The seconds of these minutes that DCF77 marks."""
    return [second for second in range(first * 60, past * 60) if second % 60 != 59]


def side(apart):
    """What the code plans say of two starts so far apart: by their rules, apart from the borders that steady.py has."""
    joins = 150_000 <= apart <= 250_000
    neighbours = 900_000 <= apart <= 1_100_000
    begins_minute = 1_900_000 <= apart <= 2_100_000
    return joins, neighbours, begins_minute, apart > 2_100_000, apart > 1_100_000, apart > 250_000


class Line(unittest.TestCase):
    def test_jitter_is_a_fifth_after_two_minutes(self):
        for jitter in (2_000, 8_000, 15_000):
            for ppm in (0, 50, -50):
                with self.subTest(jitter=jitter, ppm=ppm):
                    steady = Steady()
                    errors(steady, minutes(0, 2), jitter, ppm=ppm)
                    raw, moved = errors(steady, minutes(2, 40), jitter, seed=2, ppm=ppm)
                    self.assertLess(statistics.pstdev(moved) * 5, statistics.pstdev(raw))
                    self.assertLess(abs(statistics.mean(moved)), 1_000)

    def test_two_minutes_are_enough(self):
        """Of many receivers with 15 ms of jitter: the mark after two minutes is off by a fifth of what it was, the counter's drift included."""
        for ppm in (0, 50, -50):
            with self.subTest(ppm=ppm):
                raw, moved = [], []
                for seed in range(60):
                    steady = Steady()
                    raw += errors(steady, minutes(0, 2), 15_000, seed, ppm)[0]
                    moved += errors(steady, [120], 15_000, 1000 + seed, ppm, outliers=0)[1]
                self.assertLess(statistics.fmean(one * one for one in moved) ** 0.5 * 5, statistics.pstdev(raw))

    def test_the_drift_is_known_after_a_gap(self):
        """After ten minutes at 200 ppm and two without marks the line rises at once."""
        late = []
        for seed in range(30):
            steady = Steady()
            errors(steady, range(0, 600), 8_000, seed, ppm=200)
            late += errors(steady, range(720, 760), 8_000, 1000 + seed, ppm=200)[1][30:]
        self.assertLess(abs(statistics.mean(late)), 700)

    def test_no_mark_moves_where_there_is_no_jitter(self):
        raw, moved = errors(Steady(), minutes(0, 20), 0, ppm=30, outliers=0)
        self.assertLess(max(map(abs, moved[120:])), 20)

    def test_what_is_unknown_is_not_moved(self):
        """The first eight marks of a log, and of what follows a gap of more than a minute."""
        steady = Steady()
        raw, moved = errors(steady, range(0, 300), 15_000)
        self.assertEqual(raw[:8], moved[:8])
        self.assertNotEqual(raw[8:16], moved[8:16])
        raw, moved = errors(steady, range(361, 400), 15_000, phase=500_000)
        self.assertEqual(raw[:8], moved[:8])
        self.assertLess(statistics.pstdev(moved[8:]), statistics.pstdev(raw[8:]))

    def test_a_lost_minute_is_no_gap(self):
        steady = Steady()
        errors(steady, range(0, 300), 8_000)
        raw, moved = errors(steady, range(355, 400), 8_000)
        self.assertLess(statistics.pstdev(moved) * 5, statistics.pstdev(raw))

    def test_a_great_step_is_followed_after_six_marks(self):
        for phase in (123_456 + 90_000, 400_000, 623_456, 900_000, 123_456 - 90_000):
            with self.subTest(phase=phase):
                steady = Steady()
                errors(steady, range(0, 300), 2_000, outliers=0)
                raw, moved = errors(steady, range(300, 400), 2_000, phase=phase, outliers=0)
                self.assertEqual(raw[1:6], moved[1:6])
                self.assertLess(max(map(abs, moved[7:])), 2_500)

    def test_a_small_step_is_followed(self):
        """One of 30 ms within 20 marks at 2 ms of jitter, within 70 at 15 ms."""
        for jitter, marks in ((2_000, 20), (15_000, 70)):
            with self.subTest(jitter=jitter):
                steady = Steady()
                errors(steady, range(0, 600), jitter)
                _, moved = errors(steady, range(600, 900), jitter, phase=153_456)
                self.assertLess(abs(statistics.mean(moved[marks : marks + 60])), jitter / 2)

    def test_noise_does_not_make_it_forget(self):
        """Twenty seconds of noise, as when a motor runs."""
        steady = Steady()
        errors(steady, range(0, 600), 8_000)
        chance = random.Random(5)
        for second in range(600, 620):
            steady.start(due(second) + chance.randrange(0, 900_000))
        raw, moved = errors(steady, range(621, 680), 8_000)
        self.assertLess(statistics.pstdev(moved) * 5, statistics.pstdev(raw))

    def test_a_start_on_a_border_stays_on_its_side(self):
        """Code plans read 0.9 s and more as a neighbouring mark, and up to 1.1 s with it."""
        steady = Steady()
        steady.second = [5_000_000]
        for apart, due in ((900_000, (0, 80_000)), (900_001, (-1, 80_000)), (1_100_000, (-80_000, 0)), (1_100_001, (0, 80_000)), (1_900_000, (0, 80_000)), (2_100_000, (-80_000, 0))):
            with self.subTest(apart=apart):
                self.assertEqual(steady.room(5_000_000 + apart), due)

    def test_spread(self):
        """Half the marks of a jitter of 8 ms either way are farther off than 4 ms."""
        steady = Steady()
        errors(steady, range(0, 900), 8_000, outliers=0)
        self.assertAlmostEqual(steady.spread, 4_000, delta=500)

    def test_the_window_ends(self):
        line = PhaseLine(80_000)
        for second in range(5000):
            line.hear(due(second), line.early(due(second)))
        self.assertLess(len(line.marks), 610)


class Rules(unittest.TestCase):
    """What a log says stays what it was."""

    def noisy(self, seed):
        """A log of an hour with jitter, lost marks, noise, second parts, steps of the counter and steps of the phase."""
        chance = random.Random(seed)
        starts, at, phase = set(), SECOND, 0
        for second in range(3600):
            at = SECOND + second * SECOND + phase
            if chance.random() < 0.003:
                phase += chance.choice((chance.randrange(-400_000, 400_000), chance.randrange(-50_000, 50_000), 90_000_000))
            if chance.random() > 0.02 and second % 60 != 59:
                mark = at + round(chance.gauss(0, 25_000))
                starts.add(mark)
                if chance.random() < 0.2:
                    starts.add(mark + 200_000 + round(chance.gauss(0, 25_000)))
            if chance.random() < 0.03:
                starts.add(at + chance.randrange(SECOND))
        return sorted(start for start in starts if start > 0)

    def test_sides_of_the_borders(self):
        crossings = 0
        for seed in range(20):
            starts = self.noisy(seed)
            steady = Steady()
            moved = [steady.start(start) for start in starts]
            for place in range(1, len(starts)):
                self.assertGreater(moved[place], moved[place - 1])
                self.assertLessEqual(abs(moved[place] - starts[place]), 80_000)
                self.assertEqual(side(starts[place] - starts[place - 1]), side(moved[place] - moved[place - 1]))
            crossings += sum(a != b for a, b in zip(starts, moved))
        self.assertGreater(crossings, 20_000)

    def test_second_parts_go_with_their_first(self):
        """The log of an MSF receiver with jitter: what joins, and how far the next mark is from the first part, stay."""
        chance = random.Random(3)
        steady = Steady()
        before = before_put = 0
        for second in range(2000):
            first = due(second) + round(chance.uniform(-40_000, 40_000))
            apart = 200_000 + round(chance.uniform(-70_000, 70_000))
            put = steady.start(first)
            if chance.random() < 0.5:
                self.assertEqual(steady.start(first + apart) - put, apart)
            if second:
                self.assertEqual(side(first - before), side(put - before_put))
            before, before_put = first, put

    def test_marks_too_far_apart_stay_so(self):
        """A mark 105 ms late has a neighbour 1105 ms before it: its minute is refused, also where 80 ms of that could be undone."""
        for late, near in ((105_000, 1_100_001), (-105_000, 899_999)):
            with self.subTest(late=late):
                steady = Steady()
                errors(steady, range(0, 300), 0, outliers=0)
                put = steady.start(due(300) + late)
                self.assertFalse(900_000 <= put - due(299) <= 1_100_000)
        steady = Steady()
        errors(steady, range(0, 300), 0, outliers=0)
        before = steady.start(due(300) - 55_000)
        after = steady.start(due(301) + 55_000)
        self.assertEqual(after - before, 1_100_001)

    def test_the_examples_give_as_many_lines_with_the_same_widths(self):
        for plan in ("dcf77", "msf", "wwvb"):
            steady = Steady()
            lines = (RADIOS / f"{plan}.log").read_bytes().splitlines(keepends=True)
            moved = [steady.line(line) for line in lines]
            self.assertEqual([line.split()[1] for line in lines], [line.split()[1] for line in moved])

    def test_a_counter_that_goes_back(self):
        """A bad log stays one: a start that doesn't rise is put where it doesn't rise."""
        steady = Steady()
        errors(steady, range(0, 300), 15_000)
        put = steady.start(due(300))
        self.assertLess(steady.start(due(300) - 10), put)
        self.assertLess(steady.start(due(200)), put)

    def test_what_is_no_line_of_a_log(self):
        steady = Steady()
        errors(steady, range(0, 300), 15_000)
        for line in (b"", b"\n", b"5 5", b"05 5\n", b"5 5\r\n", b"5  5\n", b" 5 5\n", b"-5 5\n", b"5 5 5\n", b"\xff\n", b"%d 5\n" % 2**50, b"9" * 40 + b" 1\n"):
            with self.subTest(line=line):
                self.assertEqual(steady.line(line), line)

    def test_the_least_moments(self):
        steady = Steady()
        self.assertEqual(steady.line(b"0 100000\n"), b"0 100000\n")
        for second in range(1, 100):
            at = 3 + second * SECOND - (20 if second == 50 else 0)
            self.assertGreaterEqual(steady.start(at), 0)


if __name__ == "__main__":
    unittest.main()
