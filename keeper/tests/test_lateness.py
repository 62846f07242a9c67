"""Which delay follows from a radio's minutes, by made-up radios."""

import math
import random
import statistics
import unittest

from keeper.lateness import Minute, Result, error_of, minutes_of, result, sentences
from keeper.supervisor.pulses import Pulse

EPOCH = 2208988800


def made(late: float, sigma: float, count: int, seed: int = 1) -> list[Minute]:
    chance = random.Random(seed)
    return [Minute(60.0 * place, late + chance.gauss(0, sigma / 7), late + chance.gauss(0, sigma))
            for place in range(count)]


class Lateness(unittest.TestCase):
    def test_marks_of_a_minute(self):
        pulses = []
        for second in range(61):
            start = 5_000_000 + second * 1_000_000 + 34_000 + (second % 3 - 1) * 500
            pulses.append(Pulse(start, 200_000 if second % 4 == 0 else 100_000))
        pulses.append(Pulse(65_230_000, 100_000))
        # The mark of counter 65.034 s began Unix second 1065.
        (one,) = minutes_of(pulses, [f"0 65033500 verdict {1065 + EPOCH} 0"], 1000.0)
        self.assertAlmostEqual(one.at, 1065.0335)
        self.assertAlmostEqual(one.late, 0.034)
        self.assertAlmostEqual(one.closing, 0.0335)

    def test_second_parts_are_no_marks_of_a_second(self):
        """As MSF has them: some hundred milliseconds after the second's own mark."""
        pulses = []
        for second in range(61):
            for part in (0, 250_000, 330_000):
                pulses.append(Pulse(5_000_000 + second * 1_000_000 + 34_000 + part, 100_000))
        (one,) = minutes_of(pulses, [f"0 65034000 verdict {1065 + EPOCH} 0"], 1000.0)
        self.assertAlmostEqual(one.late, 0.034)

    def test_the_closing_mark_is_one_of_its_minute(self):
        (one,) = minutes_of([Pulse(65_034_000, 100_000)], [f"0 65034000 verdict {1065 + EPOCH} 0"],
                            1000.0)
        self.assertAlmostEqual(one.late, 0.034)

    def test_the_standard_error_of_a_median(self):
        """Of normal values: by the root of half a pi more than a mean's, and the median distance
        from the median is the quartile of a normal distribution."""
        sigma = 2.0 / statistics.NormalDist().inv_cdf(0.75)  # 0 to 8 lie 2 off 4 in the median
        due = math.sqrt(math.pi / 2) * sigma / 3
        self.assertAlmostEqual(error_of([float(one) for one in range(9)]), due, places=3)

    def test_other_lines_do_not_count(self):
        lines = ("", "0 1 lone 5", "0 1 refused 2", "0 1 differs 1 2 3", "status 0",
                 "0 x verdict 1 0", "0 1 verdict -1 0", f"0 {'9' * 5000} verdict 1 0",
                 f"0 1 verdict {'9' * 400} 0")
        self.assertEqual(minutes_of([Pulse(1, 1)], lines, 0.0), [])

    def test_the_result(self):
        found = result(made(0.0342, 0.004, 400))
        self.assertAlmostEqual(found.late, 0.0342, delta=4 * found.error)
        self.assertLess(found.error, 0.0001)
        self.assertAlmostEqual(found.spread, 0.004, delta=0.0008)
        self.assertEqual(sentences(found, "dcf", 1400)[-1], "set in the station file: delay = "
                         f"{round(found.late * 1e6)} (it is 1400)")
        self.assertIsNone(result(made(0.1, 0.001, 4)))

    def test_outliers_do_not_move_it(self):
        minutes = made(0.02, 0.001, 50) + [Minute(0.0, 0.9, 0.9)] * 5
        self.assertAlmostEqual(result(minutes).late, 0.02, delta=0.0002)

    def test_one_that_no_delay_fits(self):
        for late in (-0.003, 0.101):
            said = sentences(result(made(late, 0.0001, 9)), "msf", 0)[-1]
            self.assertEqual(said, "no delay fits, which is 0 to 100 ms: the reference is off, or "
                                   "the receiver's output is the other way round")

    def test_what_is_said(self):
        self.assertEqual(sentences(Result(90, 0.02, 0.001, 0.002), "dcf", 0), [
            "the marks of DCF77 come 20.00 ms late, within 1.00 ms; a closing mark scatters by "
            "2.00 ms", "set in the station file: delay = 20000 (it is 0)"])


if __name__ == "__main__":
    unittest.main()
