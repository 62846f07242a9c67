"""A radio's state from lines of `decode` and from pulses."""

import random
import unittest
from unittest import mock

from keeper.reporter import reception as reception_module
from keeper.reporter.reception import Reception, spread_of
from keeper.reporter.state import Quarter, RadioState
from keeper.tests.test_receiver import Pairs, log, upside_down

# 2026-01-01 12:05:00 UTC, as `date -u -d @1767269100` says; docs/FORMATS.md has the line of it.
MINUTE = 1767269100.0
LINE = "0 362003000 verdict 3976257900 0"
UNIX = MINUTE - 362.0  # the counter stood at 362 s at that minute by a good host's clock
BEGUN = 1767268800.0  # a quarter of an hour begins, as 12:00 does


class Minutes(unittest.TestCase):
    def setUp(self) -> None:
        self.radio = RadioState(plan="dcf", delay=0.002)
        self.reception = Reception(self.radio)

    def test_a_verdict_has_its_minute_and_offset(self) -> None:
        self.reception.take(LINE, MINUTE + 1, UNIX)
        self.assertEqual(self.radio.minute, MINUTE)
        self.assertAlmostEqual(self.radio.minute_at, MINUTE + 0.003, places=6)
        # It closed 3 ms late by the counter, of which 2 ms are the radio's delay: its time is 1 ms
        # after the host's.
        self.assertEqual(self.radio.offset, -0.001)

    def take_each_kind(self) -> None:
        for line, after in (
                ("verdict 3976257900 0", 1), ("lone 3976257900", 2),
                ("differs 3976257900 3976257960 60000000", 3), ("refused 2", 4), ("refused 2", 5),
                ("refused 30", 6), ("verdict 3976257900 0", 901)):
            self.reception.take(f"0 {after * 1_000_000} {line}", BEGUN + after + 0.5, BEGUN)

    def test_minutes_of_each_kind_by_quarter(self) -> None:
        self.take_each_kind()
        self.assertEqual(self.radio.reception, [
            Quarter(BEGUN, 1, 1, 1, {"2": 2, "30": 1}), Quarter(BEGUN + 900, 1)])
        for after, due in ((902, (2, 7)), (3601.5, (1, 6)), (3602.5, (1, 5))):
            self.reception.renew(BEGUN + after)
            self.assertEqual((self.radio.verdicts_hour, self.radio.minutes_hour), due)
        self.reception.renew(BEGUN + 86400 + 900)
        self.assertEqual(self.radio.reception, [])

    def test_the_last_ten_minutes_by_kind_and_rule(self) -> None:
        self.take_each_kind()
        for after, due in (
                (600.5, {"refused 2": 2, "verdict": 1, "lone": 1, "differs": 1, "refused 30": 1}),
                (604.5, {"refused 2": 1, "refused 30": 1}), (902, {"verdict": 1}), (1502, {})):
            self.reception.renew(BEGUN + after)
            self.assertEqual(self.radio.recent, due)

    def test_other_lines_are_passed_over(self) -> None:
        for line in ("", "status 0", "status 5 line 0 1", "0 x verdict 1 0", "0 1 verdict -5 0",
                     "0 1 refused", "0 1 refused ²", f"0 {'9' * 5000} verdict 3976257900 0",
                     f"0 1 verdict {'9' * 400} 0", "0 1 sample 1 2 3 4 5 6 7"):
            self.reception.take(line, 1.0, 0.0)
        self.assertEqual(self.radio, RadioState(plan="dcf", delay=0.002))

    def test_minutes_that_come_at_once_belong_to_their_own_quarters(self) -> None:
        for minute in range(30):
            line = f"0 {60_000_000 * minute} verdict {3976257900 + 60 * minute} 0"
            self.reception.take(line, MINUTE + 1800, BEGUN)
        self.assertEqual(self.radio.reception, [Quarter(BEGUN, 15), Quarter(BEGUN + 900, 15)])

    def test_a_moment_that_is_ahead_of_the_clock_counts_as_now(self) -> None:
        self.reception.take("0 900000000000 refused 1", MINUTE, UNIX)
        self.assertEqual(self.radio.reception, [Quarter(BEGUN, 0, 0, 0, {"1": 1})])

    def test_a_day_is_kept(self) -> None:
        for minute in range(2 * 24 * 60):
            self.reception.take(f"0 {60_000_000 * minute} refused 1", MINUTE + 60 * minute, MINUTE)
        self.assertEqual(len(self.radio.reception), 96)
        self.assertEqual({one.refused["1"] for one in self.radio.reception[:-1]}, {15})

    def test_a_clock_that_was_put_back_drops_what_lies_ahead(self) -> None:
        self.reception.take(LINE, MINUTE + 1, UNIX)
        self.radio.reception.append(Quarter(BEGUN + 900, 15))
        self.reception.renew(MINUTE + 2)
        self.assertEqual([one.at for one in self.radio.reception], [BEGUN])

    def test_the_minutes_move_with_the_clock(self) -> None:
        self.reception.take(LINE, MINUTE + 1, UNIX)
        self.reception.move(86400.0)
        self.reception.renew(MINUTE + 86400 + 5)
        self.assertEqual((self.radio.verdicts_hour, self.radio.recent), (1, {"verdict": 1}))

    def test_what_was_counted_moves_with_the_clock(self) -> None:
        """The clock was an hour slow: a minute that is told again is known all the same."""
        self.reception.take(LINE, MINUTE + 1, UNIX)
        later = Reception(self.radio, counted=MINUTE + 5)
        later.move(3600.0)
        later.take(LINE, MINUTE + 3610, UNIX + 3600)
        self.assertEqual(sum(one.verdict for one in self.radio.reception), 1)

    def test_a_reporter_that_begins_anew_goes_on_in_the_same_quarter(self) -> None:
        """It is told again what the one before it has counted."""
        self.reception.take(LINE, MINUTE + 1, UNIX)
        later = Reception(self.radio, counted=MINUTE + 5)
        for line in (LINE, "0 422003000 verdict 3976257960 0"):
            later.take(line, MINUTE + 61, UNIX)
        self.assertEqual([one.verdict for one in self.radio.reception], [2])
        later.renew(MINUTE + 62)
        self.assertEqual(self.radio.verdicts_hour, 2)


class Decoded(unittest.TestCase):
    """What `decode` says of all pulses that are kept, each time anew."""

    def take(self, reception: Reception, *lines: str) -> list[tuple[int, int]]:
        """The pulses that it was given."""
        reception.due = 0.0
        with mock.patch.multiple("keeper.reporter.reception", begun=mock.Mock(), said=lambda _: lines):
            reception.decode(MINUTE + 100)
            reception.decode(MINUTE + 100)
            return list(reception_module.begun.call_args.args[2])  # type: ignore[attr-defined]

    def test_one_that_hangs_is_ended_when_the_next_is_due(self) -> None:
        reception, child = Reception(RadioState(plan="dcf")), mock.Mock()
        reception.pulse(5_000_000, 100_000, 5_000_000)
        child.poll.return_value = None
        begun = mock.patch("keeper.reporter.reception.begun", return_value=child)
        with begun as calls, mock.patch("keeper.reporter.reception.said", return_value=[LINE]):
            for at, kills in ((5.0, 0), (6.0, 0), (24.9, 0), (25.0, 1)):
                with mock.patch("time.monotonic", return_value=at):
                    reception.decode(MINUTE + 100)
                self.assertEqual(child.kill.call_count, kills, at)
        self.assertEqual((calls.call_count, len(reception.minutes)), (1, 1))

    def test_each_minute_counts_once(self) -> None:
        reception = Reception(RadioState(plan="dcf"))
        reception.pulse(360_000_000, 100_000, 360_000_007)
        self.assertEqual(self.take(reception, LINE, "status 0"), [(360_000_007, 100_000)])
        self.take(reception, "0 302003000 refused 2", LINE, "0 422003000 lone 3976257960")
        self.assertEqual([kind for _, kind in reception.minutes], ["verdict", "lone"])

    def test_minutes_of_a_counter_that_begins_anew(self) -> None:
        reception = Reception(RadioState(plan="dcf"))
        reception.pulse(500_000_000, 100_000, 500_000_000)
        self.take(reception, "0 422003000 lone 3976257960")
        reception.pulse(5_000_000, 100_000, 5_000_000)
        self.take(reception, LINE)
        self.assertEqual([kind for _, kind in reception.minutes], ["lone", "verdict"])

    def test_a_quarter_of_an_hour_is_read(self) -> None:
        reception = Reception(RadioState(plan="dcf"))
        for second in range(2000):
            reception.pulse(second * 1_000_000, 1, second * 1_000_000)
        self.assertEqual(self.take(reception)[0], (1_099_000_000, 1))


class Marks(unittest.TestCase):
    """What the marks of the last minute look like, while the service runs."""

    def look(self, marks: Pairs, plan: str = "dcf", age: float = 1.0) -> RadioState:
        radio = RadioState(plan=plan, pulse_at=1000.0)
        reception = Reception(radio)
        for start, width in marks:
            reception.pulse(start, width, start)
        reception.renew(1000.0 + age)
        return radio

    def test_good_ones(self) -> None:
        for name, plan in (("dcf77", "dcf"), ("msf", "msf"), ("wwvb", "wwvb")):
            marks = log(name)[:200]
            radio = self.look(marks, plan)
            last = [width for start, width in marks if start > marks[-1][0] - 60_000_000]
            self.assertEqual(radio.fault, "")
            self.assertAlmostEqual(radio.rate, len(last) / 60, delta=0.006)
            self.assertAlmostEqual(radio.width, sorted(last)[len(last) // 2] / 1e6, delta=0.003)

    def test_an_inverted_output_is_named_within_a_minute(self) -> None:
        for name, plan in (("dcf77", "dcf"), ("msf", "msf"), ("wwvb", "wwvb")):
            good, bad = log(name)[:100], upside_down(log(name))[100:170]
            radio = self.look(good + bad, plan)
            self.assertRegex(radio.fault, r"\A[01]\.\d marks a second, widths \S+ ms to \S+ m?s: "
                                          r"its output is the other way round: ")
        self.assertGreater(self.look(upside_down(log("dcf77"))[:90]).width, 0.75)

    def test_a_line_that_hums(self) -> None:
        for hertz in (50, 60, 100):
            gap = 1_000_000 // hertz
            radio = self.look([(one * gap, gap // 2) for one in range(70 * hertz)])
            half = f"{gap / 2e3:.1f} ms"
            self.assertEqual(radio.fault, f"{hertz}.0 marks a second, widths {half} to {half}: the "
                             "line hums with the mains: look at its wiring, its pull-up and ground")
            self.assertAlmostEqual(radio.rate, hertz, delta=0.1)
            self.assertAlmostEqual(radio.width, gap / 2e6, places=6)

    def test_marks_that_are_too_long(self) -> None:
        radio = self.look([(start, width + 65_000) for start, width in log("dcf77")[:90]])
        self.assertRegex(radio.fault, "too long by some 6[456] ms for DCF77: the receiver's thresh")
        self.assertAlmostEqual(radio.width, 0.165, delta=0.005)

    def test_another_sender(self) -> None:
        self.assertIn("marks of WWVB, and the station says DCF77",
                      self.look(log("wwvb")[:90]).fault)

    def test_what_is_older_than_a_minute_says_nothing(self) -> None:
        bad = upside_down(log("dcf77"))[:90]
        self.assertTrue(self.look(bad, age=59.0).fault)
        radio = self.look(bad, age=61.0)
        self.assertEqual((radio.rate, radio.width, radio.fault), (0.0, 0.0, ""))
        self.assertEqual(self.look(bad + log("dcf77")[100:170]).fault, "")

    def test_few_marks(self) -> None:
        radio = self.look([(one * 1_000_000, 100_000) for one in range(3)])
        self.assertEqual((radio.rate, radio.fault), (1.0, ""))

    def test_a_counter_that_begins_anew(self) -> None:
        marks = [(5_000_000_000 + one * 1_000_000, 900_000) for one in range(60)]
        self.assertEqual(self.look(marks + log("dcf77")[:90]).fault, "")


class Spreads(unittest.TestCase):
    def test_marks_without_jitter_on_a_counter_that_is_off(self) -> None:
        self.assertEqual(spread_of([7_123_456 + 1_000_050 * one for one in range(200)]), 0.0)

    def test_the_jitter_is_shown(self) -> None:
        chance = random.Random(5)
        for sigma in (500, 2_000, 15_000):
            starts = [5_990_000 + 1_000_000 * one + round(chance.gauss(0, sigma))
                      for one in range(300) if one % 60 != 59]
            self.assertAlmostEqual(spread_of(starts), sigma / 1e6, delta=sigma / 1e6 / 8)

    def test_second_parts_and_lost_carriers_are_left_out(self) -> None:
        starts = [9_000_000 + 1_000_000 * one for one in range(200)]
        starts += [one + 200_000 for one in starts[::3]] + [one + 490_000 for one in starts[::11]]
        self.assertEqual(spread_of(sorted(starts)), 0.0)

    def test_few_marks_or_old_ones_show_nothing(self) -> None:
        self.assertEqual(spread_of([one * 1_000_000 for one in range(29)]), 0.0)

    def test_a_new_counter_begins_anew(self) -> None:
        reception = Reception(RadioState())
        for start in [*range(0, 600_000_000, 1_000_000), 5]:
            self.assertLessEqual(len(reception.pulses), 901)
            reception.pulse(start, 100_000, start)
        self.assertEqual(list(reception.pulses), [(5, 100_000, 5)])


if __name__ == "__main__":
    unittest.main()
