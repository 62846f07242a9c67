"""What isn't well, as each way to look at a station says it."""

import unittest

from keeper.reporter.health import GONE, Level, is_kept, judge, summary, title, worst
from keeper.reporter.state import Alarm, RadioState, State
from keeper.tests.made_station import NOW, a_good_station

LEVELS = {"OK": Level.OK, "WARNING": Level.WARNING, "CRITICAL": Level.CRITICAL}
DIED = "the run before ended by itself"
HUMS = "100.0 marks a second, widths 5.0 ms to 5.1 ms: the line hums with the mains: look at it"
REFUSED = [Alarm("file-refused", NOW - 9, "x")] * 3
# What is changed in a good station, the level, and what is said.
CASES: tuple[tuple[dict, str, str], ...] = (
    ({}, "OK", "time from DCF, stratum 1, root dispersion 5.4 ms"),
    ({"written": NOW - 61}, "CRITICAL", "no keeper runs: its state is 61 s old"),
    ({"written": NOW + 60}, "OK", "time from DCF"),
    ({"written": NOW + 61}, "CRITICAL",
     "no keeper runs: its state is of 61 s after the host's clock"),
    ({"written": NOW - 5, "keeper_pid": 0}, "CRITICAL", "the keeper was stopped 5 s ago"),
    ({"written": NOW - 3, "keeper_pid": GONE}, "CRITICAL",
     "no keeper runs: it ended within the last 3 s without a word, as one that is killed does"),
    ({"link.answered_at": NOW - 16}, "CRITICAL", "port 123 doesn't answer"),
    ({"link.answered_at": NOW - 35, "written": NOW - 20}, "OK", "time from DCF"),
    ({"link.answered_at": NOW - 45, "written": NOW - 30}, "WARNING",
     "the keeper has written nothing for 30 s: the disk is full or hangs, or there is no free"),
    ({"written": NOW - 20}, "OK", "time from DCF"),
    ({"written": NOW - 20.1}, "WARNING", "the keeper has written nothing for 20 s: the disk is"),
    ({"link.answered_at": NOW - 46, "written": NOW - 30}, "CRITICAL", "port 123 doesn't answer"),
    ({"link.asked_at": NOW - 25, "link.answered_at": NOW - 25}, "CRITICAL",
     "port 123 wasn't asked for 25 s: the keeper stood still, as where its disk hangs, or no run"),
    ({"link.asked_at": 0.0, "link.answered_at": 0.0}, "CRITICAL", "port 123 doesn't answer"),
    ({"link.leap": 3, "link.reference_id": "INIT"}, "CRITICAL", "port 123 has no time (INIT)"),
    ({"link.stratum": 0, "link.reference_id": "RATE"}, "CRITICAL", "port 123 has no time (RATE)"),
    ({"link.leap": 3, "keeper_since": NOW - 599}, "CRITICAL",
     "port 123 has no time yet: a radio needs four verdicts"),
    ({"link.root_dispersion": 0.25}, "WARNING", "port 123: the root dispersion is 250 ms of 500"),
    ({"link.root_dispersion": 0.249}, "OK", "time from DCF, stratum 1, root dispersion 249.0 ms"),
    ({"radio.source": "waiting"}, "WARNING", "DCF77 roof: its source is waiting"),
    ({"radio.silent_since": NOW - 300, "radio.source": "stalled"}, "WARNING", "DCF77 roof: no pulse "
     "for 5 min, since 2026-01-01 12:00:00 UTC; its source is stalled"),
    ({"radio.silent_since": NOW - 65, "radio.pulse_at": 0.0}, "WARNING",
     "DCF77 roof: no pulse yet, for 65 s, since 2026-01-01 12:03:55 UTC; its source is running"),
    ({"radio.minute_at": NOW - 3600}, "OK", "time from DCF"),
    ({"radio.minute_at": NOW - 3601}, "WARNING", "DCF77 roof: no verdict for 1 h"),
    ({"radio.minute_at": 0.0}, "WARNING", "DCF77 roof: no verdict yet"),
    ({"radio.minute_at": NOW - 3601, "radio.since": NOW - 3000}, "OK", "time from DCF"),
    ({"radio.fault": HUMS}, "OK", "time from DCF"),
    ({"radio.fault": HUMS, "radio.minute_at": NOW - 600}, "OK", "time from DCF"),
    ({"radio.fault": HUMS, "radio.minute_at": NOW - 601}, "WARNING",
     f"DCF77 roof: no verdict for 10 min 1 s: {HUMS}"),
    ({"server.sample_at": NOW - 7201}, "WARNING",
     "server 192.0.2.17 has given no sample for 2 h"),
    ({"server.sample_at": 0.0}, "WARNING", "server 192.0.2.17 has given no sample yet"),
    ({"leap.expires": NOW + 29 * 86400}, "WARNING", "the leap second file expires in 29 d"),
    ({"leap.expires": NOW + 30 * 86400}, "OK", "time from DCF"),
    ({"leap.expires": NOW - 1}, "WARNING", "the leap second file has expired"),
    ({"leap.expires": 0.0}, "OK", "time from DCF"),
    ({"alarms": [Alarm("run-died", NOW - 600, DIED)]}, "WARNING", f"{DIED}, 10 min ago"),
    ({"alarms": [Alarm("run-died", NOW - 600, DIED), *REFUSED]}, "WARNING", f"{DIED}, 10 min ago"),
    ({"alarms": [Alarm("run-died", NOW - 3601, "x"), Alarm("time-lost", NOW - 5, "y")]}, "OK",
     "time from"),
    ({"alarms": [Alarm("run-died", NOW + 1, "x")]}, "OK", "time from"),
    ({"alarms": [Alarm("run-died", NOW - 60, "x")], "keeper_since": NOW - 30}, "OK", "time from"),
    ({"notes": ["the disk | is\nfull"]}, "WARNING", "the disk / is full"),
    ({"links": []}, "OK", "nothing is served"),
    ({"links": [], "run.number": 0}, "CRITICAL", "no run serves yet"),
)


def changed(changes: dict) -> State:
    """A good station with some fields of it, or of its first link and so on, changed."""
    state = a_good_station()
    parts = {"": state, "run": state.run, "link": state.links[0], "radio": state.radios[0],
             "server": state.servers[0], "leap": state.leap_file}
    for name, value in changes.items():
        part, _, field = name.rpartition(".")
        setattr(parts[part], field, value)
    return state


class Sentences(unittest.TestCase):
    def test_each(self) -> None:
        for changes, level, said in CASES:
            with self.subTest(changes=changes):
                state = changed(changes)
                self.assertEqual(worst(judge(state, NOW)), LEVELS[level])
                self.assertTrue(summary(state, NOW).startswith(said), summary(state, NOW))

    def test_the_worst_comes_first(self) -> None:
        state = changed({"radio.source": "stalled", "link.leap": 3})
        self.assertEqual([level for level, _ in judge(state, NOW)],
                         [Level.CRITICAL, Level.WARNING])
        self.assertIn("; DCF77 roof: its source is stalled", summary(state, NOW))

    def test_at_most_three_runs_that_died(self) -> None:
        state = changed({"alarms": [Alarm("run-died", NOW - 9, str(one)) for one in range(5)]})
        self.assertEqual([said for _, said in judge(state, NOW)],
                         ["2, 9 s ago", "3, 9 s ago", "4, 9 s ago"])

    def test_levels_are_those_of_nagios(self) -> None:
        """Exit statuses of a plugin: 0 OK, 1 WARNING, 2 CRITICAL, 3 UNKNOWN."""
        self.assertEqual([(one.name, int(one)) for one in Level],
                         [("OK", 0), ("WARNING", 1), ("CRITICAL", 2), ("UNKNOWN", 3)])

    def test_a_state_that_nobody_keeps(self) -> None:
        for field, value in (("keeper_pid", 0), ("keeper_pid", GONE), ("written", NOW - 61)):
            self.assertFalse(is_kept(changed({field: value}), NOW))
        self.assertTrue(is_kept(changed({"written": NOW - 60}), NOW))

    def test_names_of_radios(self) -> None:
        for name, due in (("roof", "MSF roof"), ("", "MSF (radio 2)"), ("msf", "MSF (radio 2)")):
            self.assertEqual(title(RadioState(number=2, plan="msf", name=name)), due)


if __name__ == "__main__":
    unittest.main()
