"""Which changes raise an alarm, and how its command is run."""

import contextlib
import logging
import os
import tempfile
import time
import unittest
from unittest import mock

from keeper import config
from keeper.reporter.alarms import Alarms
from keeper.reporter.state import Alarm, LinkState, RadioState, RunState, State
from keeper.supervisor.host import Host


def station(run: RunState | None = None, station: str = "") -> State:
    return State(
        keeper_since=1000.0, links=[LinkState(port=123, stratum=1)], run=run or RunState(),
        radios=[RadioState(number=0, plan="dcf", name="roof")], station=station)


class Quiet(unittest.TestCase):
    def setUp(self):
        self.said: list[str] = []
        handler = logging.Handler()
        handler.emit = lambda record: self.said.append(record.getMessage())
        logger = logging.getLogger("keeper")
        logger.addHandler(handler)
        logger.propagate = False
        self.addCleanup(logger.removeHandler, handler)

    def events(self, state):
        return [one.event for one in state.alarms]


class Changes(Quiet):
    def setUp(self):
        super().setUp()
        self.state = station()
        self.alarms = Alarms(Host())
        self.alarms.settings = config.Alarms(unheard=600.0)

    def at(self, now, leap=None, minute_at=None):
        if leap is not None:
            self.state.links[0].leap, self.state.links[0].answered_at = leap, now
        if minute_at is not None:
            self.state.radios[0].minute_at = minute_at
        self.alarms.judge(self.state, now)
        return self.events(self.state)

    def test_time_gained_and_lost(self):
        self.assertEqual(self.at(1001, leap=3), [])
        self.assertEqual(self.at(1002, leap=0), ["time-gained"])
        self.assertEqual(self.at(1003, leap=0), ["time-gained"])
        self.assertEqual(self.at(1010, leap=3), ["time-gained"], "a change of run is no loss")
        self.assertEqual(self.at(1017, leap=3), ["time-gained"])
        self.assertEqual(self.at(1018, leap=3), ["time-gained", "time-lost"])
        self.assertIn("no time", self.state.alarms[-1].text)
        self.assertEqual(self.at(1050, leap=3), ["time-gained", "time-lost"])
        self.assertEqual(self.at(1051, leap=1), ["time-gained", "time-lost", "time-gained"])
        self.assertIn("alarm time-lost: clients get no time", self.said)

    def test_time_that_was_lost_by_a_pause_of_the_host(self):
        self.at(1000, leap=0)
        self.state.run.cause = "paused"
        self.at(1016, leap=3)
        said = "clients get no time, since the host was paused"
        self.assertEqual(self.state.alarms[-1].text, said)

    def test_a_link_that_falls_silent(self):
        self.at(1002, leap=0)
        self.assertEqual(self.at(1016), ["time-gained"])
        self.assertEqual(self.at(1018), ["time-gained"], "it was good at 1016")
        self.assertEqual(self.at(1040), ["time-gained", "time-lost"])
        self.assertIn("no link answers", self.state.alarms[-1].text)

    def test_a_radio_whose_line_is_bad_says_so(self):
        self.alarms.has_time = False
        self.state.radios[0].fault = "its output is the other way round"
        self.at(1600)
        self.assertEqual(self.state.alarms[-1].text, "radio 0 (roof) has had no verdict for 600 s: "
                                                     "its output is the other way round")

    def test_a_dead_line_is_named_before_the_verdicts_are_missed(self):
        self.alarms.has_time, self.alarms.settings = False, config.Alarms(unheard=3600.0)
        radio = self.state.radios[0]
        radio.pulse_at = radio.silent_since = 1150.0
        self.assertEqual(self.at(1749, minute_at=1140.0), [])
        self.assertEqual(self.at(1750), ["radio-unheard"])
        said = self.state.alarms[-1].text
        self.assertEqual(said, "radio 0 (roof) has had no verdict for 610 s: no pulse for 10 min, "
                               "since 1970-01-01 00:19:10 UTC")
        self.assertEqual(self.at(1800), ["radio-unheard"])
        radio.silent_since = 0.0
        self.assertEqual(self.at(1810), ["radio-unheard"], "pulses are no verdict")
        self.assertEqual(self.at(1900, minute_at=1900.0), ["radio-unheard", "radio-heard"])

    def test_a_dead_line_that_another_reporter_has_named(self):
        self.alarms.settings = config.Alarms(unheard=3600.0)
        self.state.radios[0].silent_since, self.state.radios[0].minute_at = 1150.0, 1140.0
        raised = Alarm("radio-unheard", 1750.0, "x", 0)
        self.alarms.recall([raised], 1000.0, 1)
        self.alarms.has_time = False
        self.assertEqual(self.at(1800), [])
        self.state.radios[0].silent_since = 0.0
        self.assertEqual(self.at(1810), [])
        self.alarms.move(100.0)
        self.assertEqual(self.at(1911, minute_at=1850.0), [], "of before, by the clock as it was")
        self.assertEqual(self.at(1912, minute_at=1851.0), ["radio-heard"])

    def test_a_radio_unheard_and_heard(self):
        self.alarms.has_time = False
        self.assertEqual(self.at(1599), [])
        self.assertEqual(self.at(1600), ["radio-unheard"])
        self.assertIn("radio 0 (roof)", self.state.alarms[-1].text)
        self.assertEqual(self.at(1700), ["radio-unheard"])
        self.assertEqual(self.at(1701, minute_at=1701.0), ["radio-unheard", "radio-heard"])
        self.assertEqual(self.at(2300), ["radio-unheard", "radio-heard"])
        self.assertEqual(self.at(2301), ["radio-unheard", "radio-heard", "radio-unheard"])

    def test_a_station_that_never_gets_the_time(self):
        self.assertEqual(self.at(1899, leap=3, minute_at=1890.0), [])
        self.assertEqual(self.at(1900, leap=3), ["time-lost"])
        said = "clients have had no time since the keeper began, 900 s ago"
        self.assertEqual(self.state.alarms[0].text, said)
        for now in range(1910, 2400, 10):
            self.assertEqual(self.at(now, leap=3), ["time-lost"])
        self.assertEqual(self.at(2401, leap=0), ["time-lost", "time-gained"])

    def test_a_station_without_a_link_lacks_no_time(self):
        state = State(keeper_since=1000.0)
        self.alarms.judge(state, 9000.0)
        self.assertEqual(state.alarms, [])

    def run_begins(self, number, cause, now):
        self.state.run = RunState(number=number, cause=cause, last_status="status 9 memory")
        self.alarms.judge(self.state, now)
        return self.events(self.state)

    def test_runs(self):
        self.assertEqual(self.run_begins(1, "start", 1100.0), [])
        self.assertEqual(self.run_begins(2, "cycle", 1101.0), [])
        self.assertEqual(self.run_begins(3, "died", 1102.0), ["run-died"])
        self.assertEqual(self.run_begins(3, "died", 1103.0), ["run-died"])
        self.assertIn("ended by itself (status 9 memory); run 3 follows", self.state.alarms[0].text)

    def test_runs_that_die_again_and_again_are_one_alarm_an_hour(self):
        self.state.radios.clear()
        self.alarms.has_time = False
        self.run_begins(1, "start", 1100.0)
        for number in range(2, 50):
            self.run_begins(number, "silent", 1100.0 + number * 10)
        self.assertEqual(self.events(self.state), ["run-died"])
        self.run_begins(50, "cycle", 1120.0 + 3599)
        self.assertEqual(len(self.state.alarms), 1)
        self.run_begins(51, "cycle", 1120.0 + 3600)
        self.assertEqual(len(self.state.alarms), 2)
        self.assertIn("47 runs died or fell silent since the last alarm", self.state.alarms[1].text)

    def test_a_reporter_that_is_started_again_raises_none_again(self):
        self.state.alarms = [Alarm("time-lost", 900.0, "of a keeper before"),
                             Alarm("time-gained", 1001.0, "a"), Alarm("run-died", 1002.0, "b")]
        before = self.events(self.state)
        self.alarms.recall(self.state.alarms, 1000.0, 7)
        self.assertEqual(self.run_begins(7, "died", 1003.0), before)
        self.assertEqual(self.at(1004, leap=0), before)
        self.assertEqual(self.at(1020, leap=3), [*before, "time-lost"])

    def test_a_clock_that_is_set_back_holds_no_alarm_off(self):
        """A run died an hour and a second before another one; the clock lost a day between."""
        self.assertIn("run-died", self.run_begins(2, "died", 100_000.0))
        self.alarms.move(-86400.0)
        self.state.alarms.clear()
        self.assertIn("run-died", self.run_begins(3, "died", 100_000.0 + 3601 - 86400))

    def test_a_radio_that_was_unheard_before_the_reporter_is_heard_again(self):
        """One that is started again raises neither twice, and misses none."""
        self.alarms.has_time = False
        self.assertEqual(self.at(1600), ["radio-unheard"])
        for again, minute_at, due in ((1700, None, ["radio-unheard"]), (2400, None, ["radio-unheard"]),
                                      (2500, 2500.0, ["radio-unheard", "radio-heard"]),
                                      (2600, None, ["radio-unheard", "radio-heard"])):
            self.alarms = Alarms(Host())
            self.alarms.settings, self.alarms.has_time = config.Alarms(unheard=600.0), False
            self.alarms.recall(self.state.alarms, 1000.0, 1)
            self.assertEqual(self.at(again, minute_at=minute_at), due)

    def test_a_source_that_is_begun_anew_is_no_verdict(self):
        self.alarms.has_time = False
        self.assertEqual(self.at(1600), ["radio-unheard"])
        self.state.radios[0].since = 1650.0
        self.assertEqual(self.at(1660), ["radio-unheard"])
        self.assertEqual(self.at(1670, minute_at=1670.0), ["radio-unheard", "radio-heard"])

    def test_alarms_of_a_keeper_before_hold_nothing_off(self):
        self.state.alarms = [Alarm("run-died", 990.0, "a"), Alarm("time-gained", 995.0, "b")]
        self.alarms.recall(self.state.alarms, 1000.0, 0)
        self.run_begins(1, "start", 1100.0)
        self.assertEqual(self.run_begins(2, "died", 1101.0)[2:], ["run-died"])
        self.assertEqual(self.at(1102, leap=0)[3:], ["time-gained"])

    def test_a_clock_that_was_set_raises_none(self):
        self.at(1002, leap=0, minute_at=1002.0)
        self.alarms.move(3600.0)
        self.state.keeper_since += 3600.0
        self.state.radios[0].minute_at += 3600.0
        self.assertEqual(self.at(1003 + 3600, leap=3), ["time-gained"])
        self.assertEqual(self.at(1010 + 3600, leap=0), ["time-gained"])

    def test_the_state_keeps_twenty(self):
        for number in range(50):
            self.alarms.raise_alarm(self.state, "file-refused", f"number {number}", 1.0)
        self.assertEqual([one.text for one in self.state.alarms],
                         [f"number {number}" for number in range(30, 50)])


class Commands(Quiet):
    def setUp(self):
        super().setUp()
        folder = tempfile.TemporaryDirectory()
        self.addCleanup(folder.cleanup)
        self.folder = folder.name
        self.out = os.path.join(self.folder, "out")

    def alarms(self, command, limit=30.0):
        alarms = Alarms(Host(), os.path.join(self.folder, "state.json"))
        alarms.settings = config.Alarms(command, limit=limit)
        self.addCleanup(alarms.commands.close)
        return alarms

    def turn_until(self, alarms, over, most=5.0):
        end = time.monotonic() + most
        while not over() and time.monotonic() < end:
            alarms.commands.turn()
            time.sleep(0.01)
        self.assertTrue(over())

    def lines(self):
        with contextlib.suppress(FileNotFoundError), open(self.out, encoding="utf-8") as file:
            return file.read().splitlines()
        return []

    def test_its_environment(self):
        alarms = self.alarms('echo "$RADIO_EVENT/$RADIO_TEXT/$RADIO_AT/$RADIO_NUMBER/$RADIO_RUN/'
                             f'$RADIO_LEAP/$RADIO_REFERENCE/$RADIO_STATE" >> {self.out}')
        state = station(run=RunState(number=4))
        state.links[0].leap, state.links[0].reference_id = 0, "DCF"
        alarms.raise_alarm(state, "radio-unheard", "a; b & $(c)", 99.7, 0)
        self.turn_until(alarms, lambda: self.lines())
        self.assertEqual(self.lines(), [
            f"radio-unheard/a; b & $(c)/100/0/4/0/DCF/{self.folder}/state.json"])

    def test_what_it_gets_of_the_first_link(self):
        alarms = self.alarms('echo "$RADIO_LEAP/$RADIO_STRATUM/$RADIO_REFERENCE/'
                             f'$RADIO_ROOT_DISPERSION/$RADIO_STATION" >> {self.out}')
        state = station(station="/etc/radio_ntpd/station.toml")
        link = state.links[0]
        link.leap, link.stratum, link.root_dispersion = 1, 2, 0.0054
        link.reference_id = "127.45.66.1"
        alarms.raise_alarm(state, "time-gained", "a", 1.0)
        self.turn_until(alarms, lambda: self.lines())
        self.assertEqual(self.lines(), ["1/2/127.45.66.1/0.005400//etc/radio_ntpd/station.toml"])

    def test_a_command_that_can_not_be_started(self):
        alarms = self.alarms("true")
        alarms.raise_alarm(State(), "time-lost", "no link answers", 1.0)
        with mock.patch.object(alarms.commands.host, "spawn", side_effect=OSError(11, "too many")):
            alarms.commands.turn()
        self.assertIn("the alarm's command can't be started: too many", self.said)

    def test_a_text_with_a_zero_runs_all_the_same(self):
        alarms = self.alarms(f'printf "%s\\n" "$RADIO_TEXT" >> {self.out}')
        alarms.raise_alarm(State(), "file-refused", "a\0b", 1.0)
        self.turn_until(alarms, self.lines)
        self.assertEqual(self.lines(), ["a\\0b"])

    def test_one_at_a_time_in_order(self):
        alarms = self.alarms(f'echo "begin $RADIO_TEXT" >> {self.out}; sleep 0.1; '
                             f'echo "end $RADIO_TEXT" >> {self.out}')
        for text in "abc":
            alarms.raise_alarm(State(), "time-lost", text, 1.0)
        self.turn_until(alarms, lambda: len(self.lines()) == 6)
        self.assertEqual(self.lines(), [f"{word} {text}" for text in "abc"
                                        for word in ("begin", "end")])

    def test_one_that_hangs_is_ended_with_its_children(self):
        alarms = self.alarms(f"trap '' TERM; sleep 60 & echo $! > {self.out}; "
                             "while :; do sleep 1; done", limit=0.2)
        alarms.raise_alarm(State(), "time-lost", "a", 1.0)
        self.turn_until(alarms, lambda: self.lines())
        began = time.monotonic()
        self.turn_until(alarms, lambda: alarms.commands.child is None)
        self.assertGreater(time.monotonic() - began, 1.5)  # it was asked to end at first
        end = time.monotonic() + 2
        while not _gone(self.lines()[0]) and time.monotonic() < end:
            time.sleep(0.02)
        self.assertTrue(_gone(self.lines()[0]), "what the command started goes on")
        self.assertIn("the alarm's command was killed: it took too long", self.said)

    def test_a_queue_that_is_full_drops_the_oldest(self):
        alarms = self.alarms("true")
        for number in range(30):
            alarms.raise_alarm(State(), "time-lost", str(number), 1.0)
        waiting = [environment["RADIO_TEXT"] for _, _, environment in alarms.commands.waiting]
        self.assertEqual(waiting, [str(number) for number in range(10, 30)])

    def test_a_command_that_fails_is_told(self):
        alarms = self.alarms("exit 3")
        alarms.raise_alarm(State(), "time-lost", "a", 1.0)
        self.turn_until(alarms, lambda: "the alarm's command ended with 3" in self.said)

    def test_the_end(self):
        alarms = self.alarms("sleep 60")
        alarms.raise_alarm(State(), "time-lost", "a", 1.0)
        alarms.commands.turn()
        pid = alarms.commands.child
        alarms.commands.close()
        end = time.monotonic() + 2
        while not _gone(str(pid)) and time.monotonic() < end:
            time.sleep(0.02)
        self.assertTrue(_gone(str(pid)))


def _gone(pid: str) -> bool:
    """Whether a process has ended; it may stand in the table until somebody asks how."""
    try:
        with open(f"/proc/{pid}/stat", encoding="ascii") as file:
            return file.read().split(") ")[1][0] == "Z"
    except FileNotFoundError:
        return True


if __name__ == "__main__":
    unittest.main()
