#!/usr/bin/env python3
"""Tests of what journal_text.py reads, and of the lines and pages that it works out.

    tools/test_journal_text.py
"""

import random
import tempfile
import unittest

from journal_text import (
    Station,
    beside,
    due,
    line_through,
    numbers_of,
    read_entry,
    read_journal,
    read_station,
    reported_each_minute,
    run_of,
    station_of,
    unix_of,
)
from made_entries import NOON, NOON_UNIX, verdicts

STATION = """\
bound = 50
leap_file = "leap-seconds.list"
[[radio]]
plan = "dcf"
log = "a"
[[radio]]
plan = "msf"
log = "b"
[[radio]]
plan = "dcf"
log = "c"
[[server]]
address = "192.0.2.7"
port = 123
"""


def verdicts_at(first, minutes):
    """Verdicts of feed 0 on a counter that showed this second at noon."""
    return [read_entry(f"0 {(first + 60 * one) * 1_000_000} verdict {NOON + 60 * one} 0") for one in minutes]


class Reading(unittest.TestCase):
    def test_entries(self):
        entry = read_entry("j2 6 -53687 0 362003000 verdict 3976257900 0\n")
        self.assertEqual((entry.feed, entry.at, entry.kind, entry.fields, entry.rate), (0, 362003000, "verdict", ["3976257900", "0"], -53687))
        self.assertEqual(read_entry("2 5 refused 13").rate, None)
        for line in ("", "j2", "j2 1", "j2 x 0 0 5 lone 7", "link 0 answered 2", "page 5 1 1 44434600", "status 0", "0 5 verdict", "0 5 verdict x 0", "-1 5 lone 7", "0 6 refused", "0 6 sample 17", "0 6 differs 1 2", "0 6 lone 7 8"):
            with self.subTest(line=line):
                self.assertIsNone(read_entry(line))

    def test_names(self):
        with tempfile.NamedTemporaryFile("w") as file:
            file.write(STATION)
            file.flush()
            station = read_station(file.name)
        self.assertEqual(station.kinds, ["dcf", "msf", "dcf", "server", "leap"])
        self.assertEqual(station.names, ["DCF77 (feed 0)", "MSF", "DCF77 (feed 2)", "192.0.2.7:123", "leap second file"])
        self.assertEqual(station.bound, 50)

    def test_what_is_no_station(self):
        keeper = b'station = "station.toml"\n[[radio]]\ncommand = "gpiomon 17"\n'
        for text in (b"radio = 3\n", b"server = [1]\n", b'bound = "x"\n', b"bound =\n", b"\xff\n", keeper):
            with self.subTest(text=text), tempfile.NamedTemporaryFile("wb") as file:
                file.write(text)
                file.flush()
                self.assertRaises(ValueError, read_station, file.name)

    def test_a_last_line_that_was_cut_off(self):
        """As where a signal ended `serve` while it printed."""
        with tempfile.NamedTemporaryFile("w") as file:
            # The second one's last digits are missing.
            file.write(f"0 5 lone {NOON}\n0 6 lone {NOON // 1000}")
            file.flush()
            self.assertEqual([entry.at for entry in read_journal(file.name)], [5])

    def test_names_without_a_station(self):
        entries = [read_entry("0 5 lone 7"), read_entry("2 5 sample 17077897383243199545 40802189 8837 2 7f000001 256 512"), read_entry("1 5 declined 3")]
        self.assertEqual(station_of(entries).names, ["radio 0", "server 1", "server 127.0.0.1"])

    def test_a_line_that_outliers_do_not_bend(self):
        points = [(at, 3.0 + 0.5 * at + ((400, -400)[at % 2] if at % 5 == 0 else 0)) for at in range(99)]
        level, slope = line_through(points)
        self.assertAlmostEqual(level, 3.0, delta=1)
        self.assertAlmostEqual(slope, 0.5, delta=0.01)

    def test_a_line_through_values_that_rise(self):
        """A day with 1 ms of jitter on a counter that is 5 ppm off: the slope is known within a third of a millisecond a day."""
        for seed in range(10):
            chance = random.Random(seed)
            _, slope = line_through([(60.0 * minute, 5e-6 * 60 * minute + chance.uniform(-1e-3, 1e-3)) for minute in range(1440)])
            self.assertAlmostEqual(slope, 5e-6, delta=4e-9)

    def test_a_run(self):
        run = run_of(verdicts(range(60), 50))
        self.assertAlmostEqual(run.rate, -50e-6, delta=1e-8)
        self.assertAlmostEqual(unix_of(run, 2_000_000), NOON_UNIX, delta=1e-5)
        self.assertAlmostEqual(due(run, 2_000_000), NOON_UNIX - 2, delta=1e-5)
        self.assertIsNone(run_of([read_entry("0 5 refused 3")]))

    def test_samples_say_the_time_and_give_it_to_clients(self):
        """A server that is asked each 16 s, whose offset is that of a counter that showed 2 s at noon: by the sixth
        sample the dispersion of what is missing is below a second (RFC 5905, section 10)."""
        offset = (NOON - 2) * 2**32
        lines = (f"0 {(2 + 16 * one) * 1_000_000} sample {offset} 4294967 4294967 1 7f000001 10 10" for one in range(20))
        run = run_of([read_entry(line) for line in lines])
        self.assertAlmostEqual(unix_of(run, 2_000_000), NOON_UNIX, delta=1e-3)
        moments = reported_each_minute(run, station_of(run.entries))
        self.assertEqual([moment.has_time for moment in moments], [False, *[True] * 5])

    def test_a_notice_ends_what_was_given_at_its_leap_second(self):
        """The leap second is at 12:10; a notice tells of it at 12:06, and the verdicts end at 12:07 (docs/PAGE.md, "until")."""
        entries = verdicts(range(8)) + [read_entry(f"1 {2_000_000 + 6 * 60_000_000} notice {NOON + 600}")]
        entries += [read_entry(f"0 {2_000_000 + 60_000_000 * minute} refused 2") for minute in range(8, 14)]
        station = Station(["dcf", "leap"], ["DCF77", "leap second file"], 1000)
        moments = reported_each_minute(run_of(entries), station)
        self.assertEqual([moment.has_time for moment in moments], [False] * 3 + [True] * 7 + [False] * 4)

    def test_what_clients_were_given(self):
        """Four verdicts give time with 0.94 s (docs/PAGE.md works that out); eight give 5 ms; an hour of silence adds 54 ms, which is beyond 50."""
        entries = verdicts(range(12)) + verdicts(range(72, 74))
        station = station_of(entries)._replace(bound=1000)
        moments = reported_each_minute(run_of(entries), station)
        self.assertEqual([moment.has_time for moment in moments[:5]], [False, False, False, True, True])
        self.assertAlmostEqual(moments[3].dispersion, 0.94, delta=0.01)
        self.assertAlmostEqual(moments[8].dispersion, 0.005, delta=0.001)
        self.assertAlmostEqual(moments[71].dispersion, 0.005 + 15e-6 * 3600, delta=0.001)
        bounded = reported_each_minute(run_of(entries), station._replace(bound=50))
        self.assertTrue(bounded[20].has_time)
        self.assertFalse(bounded[71].has_time)


    def test_a_sample_is_given_with_its_server(self):
        """docs/PAGE.md has a sample's address in hexadecimal digits."""
        sample = read_entry("1 5 sample 17077897383243199545 40802189 8837 2 7f000001 256 512")
        self.assertEqual(numbers_of(sample), (17077897383243199545, 40802189, 8837, 2, 0x7F000001, 256, 512))

    def test_the_page_of_the_tools_is_that_of_the_page_that_is_worked_out(self):
        """The journal of docs/PAGE.md, section 10: a minute before the first verdict, and four of them."""
        model = beside("lab.model.page")
        journal = model.Journal(["dcf"], 1000)
        entries = [read_entry(f"0 62000000 lone {NOON}")] + verdicts_at(62, range(1, 5))
        for entry in entries:
            journal.add(model.Entry(entry.feed, entry.at, entry.kind, numbers_of(entry)))
        due = "page 5 1 1 44434600 17077896086183477248 302000000 4364906902 0 61542 ed00e13000000000 0 0"
        self.assertEqual(journal.page.line(), due)


if __name__ == "__main__":
    unittest.main()
