"""Lines of a pulse log: whole and valid ones go on, and nothing else."""

import unittest

from keeper.supervisor.pulses import AHEAD, HISTORY, MOST, OLDEST, Lines

NOW = 5_000_000_000


class LineTests(unittest.TestCase):
    def setUp(self):
        self.lines = Lines()
        self.lines.take(b"", NOW - 2 * HISTORY)

    def takes(self, text, *due):
        self.assertEqual([(one.start, one.width) for one in self.lines.take(text, NOW)], list(due))

    def refuses(self, text, why):
        before = self.lines.bad
        self.takes(text)
        self.assertEqual(self.lines.bad, before + 1)
        self.assertIn(why, self.lines.last_bad)

    def test_whole_lines_alone(self):
        self.takes(b"4999000000 100000\n49990", (4_999_000_000, 100_000))
        self.takes(b"01000 200000\n", (4_999_001_000, 200_000))
        self.assertEqual(self.lines.bad, 0)

    def test_bad_lines_are_left_out_and_counted(self):
        for text in (b"\n", b"4999000000\n", b"4999000000  1\n", b" 4999000000 1\n", b"4999000000 1 \n", b"+4999000000 1\n", b"04999000000 1\n",
                     b"4999000000 0\n", b"4999000000 01\n", b"4999000000 1\r\n", b"4999000000,1\n", b"\xff\xfe\x00\n", b"4999.5 100\n"):
            self.refuses(text, "it isn't a start and a width")
        self.refuses(b"4999000000 2000001\n", "its width is above 2 s")
        self.refuses(b"1125899906842624 1\n", "its start is out of range")
        self.takes(b"4999000000 2000000\n", (4_999_000_000, 2_000_000))

    def test_starts_rise(self):
        self.takes(b"4999000000 1\n", (4_999_000_000, 1))
        self.refuses(b"4999000000 1\n", "isn't after the one before")
        self.refuses(b"4998000000 1\n", "isn't after the one before")
        self.takes(b"4999000001 1\n", (4_999_000_001, 1))

    def test_starts_are_of_the_hosts_clock(self):
        self.refuses(b"%d 1\n" % (NOW + AHEAD + 1), "ahead of the host's counter")
        self.refuses(b"%d 1\n" % (NOW - OLDEST - 1), "old")
        self.refuses(b"4999000 1\n", "old")  # milliseconds
        self.takes(b"%d 1\n%d 1\n" % (NOW - OLDEST, NOW + AHEAD), (NOW - OLDEST, 1), (NOW + AHEAD, 1))

    def test_more_pulses_than_a_receiver_gives_are_noise(self):
        first = 4_900_000_000
        self.takes(b"".join(b"%d 5000\n" % (first + place * 10_000) for place in range(MOST)), *((first + place * 10_000, 5000) for place in range(MOST)))
        self.refuses(b"%d 5000\n" % (first + 999_999), "it is noise: more than 100 pulses begin within a second")
        self.takes(b"%d 5000\n%d 5000\n" % (first + 1_000_000, first + 1_010_000), (first + 1_000_000, 5000), (first + 1_010_000, 5000))

    def test_a_line_without_an_end(self):
        self.refuses(b"x" * 40, "it is too long")
        self.takes(b"x" * 4000)
        self.takes(b"4998000000 7\n4999000000 1\n", (4_999_000_000, 1))
        self.assertEqual(self.lines.bad, 1)

    def test_a_source_that_begins_again(self):
        self.takes(b"4998000000 1\n4999000000 1\n4999", (4_998_000_000, 1), (4_999_000_000, 1))
        self.lines.begin()
        self.assertIn("it was cut off", self.lines.last_bad)
        # It may say its last minutes again, for as long as it takes to say them.
        self.takes(b"4000 1\n4998000000 1\n4999000000 1\n4999500000 1\n", (4_999_500_000, 1))
        self.assertEqual(self.lines.bad, 1)
        self.assertEqual(self.lines.take(b"4999500000 1\n", NOW + HISTORY + 1), [])
        self.assertEqual(self.lines.bad, 2)


if __name__ == "__main__":
    unittest.main()
