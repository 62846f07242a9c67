"""What `status` prints of a state."""

import unittest

from keeper.reporter import overview
from keeper.reporter.health import summary
from keeper.reporter.overview import DIGITS, hours
from keeper.reporter.state import LeapFileState, Quarter, State
from keeper.tests.made_station import NOW, a_good_station, made_station

BEGUN = NOW // 900 * 900  # of the last quarter of an hour


class Text(unittest.TestCase):
    def test_all_is_there(self) -> None:
        said = overview.render(a_good_station(), NOW)
        for due in (
            "OK: time from DCF, stratum 1, root dispersion 5.4 ms\n\n2026-01-01 12:05:00 UTC, 0 s "
            "ago: station /etc/radio_ntpd/station.toml, bound 500 ms, kept for 1 d 1 h\n"
            "run 7, 10 min old, since the last one was over; the one before ended with 'status "
            "0'\n",
            "\n\nLINK  LEAP  STRATUM  REFERENCE      ROOT DISPERSION  LASTS      REQUESTS/S  ANSWER"
            "ED\n123   none  1        DCF77 (radio)  5.4 ms           9 h 8 min  3.4         1 s "
            "ago\n",
            "\nDCF77 roof  running  1 s ago  58 of 60      12:05 UTC, 0 s ago  1.3 ms  2.1 ms  "
            "100.0 ms, 1.0/s  0         0\n",
            "\n\nDCF77 roof: 24 hours of reception, an hour a character, up to now\n"
            f"  [{'█' * 24}]\n  last ten minutes: 9 verdict, 1 refused 2 Width\n"
            "  24 hours: refused 96 by rule 2 Width: a width is in no class: interference, the "
            "receiver's threshold, or an output that is the other way round\n",
            "\n192.0.2.17:123  1        400 us  12.0 ms  56       60 s ago\n"
            "  192.0.2.17 declined 2 as Bogus: it isn't the answer to our request: a late one, or "
            "a forged one\n",
            "\nleap second file /l: expires 2026-04-11; the last leap second that it has ended "
            "2017-01-01\n",
        ):
            self.assertIn(due, said)

    def test_what_is_said_where_there_is_more(self) -> None:
        made = made_station(NOW)
        made.radios[0].last_bad, made.radios[0].fault = "12 x", "noise, or another signal"
        made.radios[0].steady, made.radios[0].spread_given = True, 0.0004
        made.radios[0].recent = {"lone": 1, "refused 77": 2}
        made.links[0].leap, made.leap_file = 1, LeapFileState(path="/l", last=1483228800.0)
        said = overview.render(made, NOW)
        for due in (
            "+1 s today", "\n  last minute: noise, or another signal\n", "2.1 ms, steady 400 us",
            "\n  last bad line: 12 x\n", "last ten minutes: 1 lone, 2 refused 77\n",
            "leap second file /l: doesn't say when it expires;",
            "\nlast alarms\n  2026-01-01 05:25:00 UTC radio-unheard: radio 2 (wwvb) has had no "
            "verdict for 3600 s\n  2026-01-01 05:45:00 UTC radio-heard: radio 2 (wwvb) is received "
            "again\n",
        ):
            self.assertIn(due, said)
        made.radios[0].silent_since = NOW - 300
        self.assertRegex(overview.render(made, NOW), r"\nDCF77 roof +silent, running +0 s ago ")
        made.radios[0].silent_since = 0.0
        made.radios[0].source, made.links[0].leap = "stalled", 3
        said = overview.render(made, NOW)
        self.assertTrue(said.startswith(
            "CRITICAL: port 123 has no time (DCF); DCF77 roof: its source is stalled\n"
            "  CRITICAL: port 123 has no time (DCF)\n  WARNING: DCF77 roof: its source is stalled"))

    def test_ages_are_of_the_moment_that_it_names(self) -> None:
        """Ten seconds later they are the same; of a keeper that has ended nothing goes on."""
        state = a_good_station()
        said = overview.render(state, NOW + 9)
        for due in ("2026-01-01 12:05:00 UTC, 9 s ago: station", "kept for 1 d 1 h", "running",
                    "9 h 8 min  3.4         1 s ago", "12:05 UTC, 0 s ago"):
            self.assertIn(due, said)
        state.keeper_pid = 0
        said = overview.render(state, NOW + 4000)
        for due in ("CRITICAL: no keeper runs", "kept for 1 d 1 h", "run 7, 10 min old",
                    "5.4 ms           -      3.4         1 s ago", "ended"):
            self.assertIn(due, said)
        self.assertNotIn("running", said)

    def test_ascii_alone(self) -> None:
        self.assertTrue(overview.render(made_station(NOW), NOW, unicode=False).isascii())

    def test_a_state_without_anything(self) -> None:
        self.assertIn("CRITICAL: no keeper runs", overview.render(State(), NOW))
        said = overview.render(State(written=NOW, keeper_pid=1), NOW)
        self.assertEqual(said, "CRITICAL: no run serves yet\n\n2026-01-01 12:05:00 UTC, 0 s ago: "
                               "station , bound 1000 ms, not kept\n")


class Hours(unittest.TestCase):
    def test_a_character_an_hour(self) -> None:
        bad = Quarter(BEGUN, 0, 0, 0, {"1": 3})
        day = [Quarter(BEGUN - 900, 15), bad, Quarter(BEGUN - 23 * 3600 - 4 * 900, 15)]
        self.assertEqual(hours(day, NOW, DIGITS), "." * 23 + "2")
        self.assertEqual(hours([bad], NOW), "." * 23 + "_")
        odd = [Quarter(BEGUN, -9**15, 3), Quarter(BEGUN - 3600, 9**15)]
        self.assertEqual(hours(odd, NOW, DIGITS), "." * 22 + "8 ")

    def test_nothing_controls_the_terminal(self) -> None:
        """Who may write the state must not reach the terminal of whoever looks at it."""
        state = a_good_station()
        state.notes = ["a\x1b]0;b\x07|\rc"]
        state.radios[0].last_bad = "\x9b2J"
        state.run.cause = "\u202ed"
        shown = overview.render(state, NOW) + summary(state, NOW)
        self.assertTrue(all(one.isprintable() or one == "\n" for one in shown))
        self.assertIn("a?]0;b?", shown)


if __name__ == "__main__":
    unittest.main()
