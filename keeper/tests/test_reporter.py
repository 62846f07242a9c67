"""The reporter itself: whatever goes wrong in one part leaves the others alone."""

import contextlib
import io
import json
import os
import subprocess
import sys
import time
import unittest
from unittest import mock

from keeper import status
from keeper.arguments import parse
from keeper.reporter.__main__ import METRICS, PAGE, SHOWN, STATE, Reporter, last_state
from keeper.reporter.state import Alarm, RunState, State, load, save
from keeper.reporter.station_state import Station
from keeper.supervisor.host import Host
from keeper.tests.made_station import a_good_station
from keeper.tests.test_receiver import log, upside_down
from keeper.tests.test_station_state import Folder, facts


class Reporters(Folder):
    def reporter(self) -> Reporter:
        reporter = Reporter(Host(), self.runtime)
        self.addCleanup(reporter.alarms.commands.close)
        return reporter

    def tell(self, reporter: Reporter, message: dict) -> Station:
        reporter._take(json.dumps(message).encode())
        assert reporter.station
        return reporter.station

    def test_all_is_drawn_and_saved(self) -> None:
        reporter = self.reporter()
        station = self.tell(reporter, {"facts": facts(self.folder)})
        for number in (0, 9):
            self.tell(reporter, {"radio": number, "pulses": [[1_000_000, 100_000, 1_000_001]]})
        reporter._renew(station)
        self.assertEqual(sorted(os.listdir(self.runtime)), sorted([STATE, PAGE, METRICS]))
        reporter.due["save"] = 0.0
        with mock.patch("keeper.reporter.__main__.select.select", return_value=[[]]):
            reporter.turn()
        saved = load(os.path.join(self.folder, STATE))
        self.assertEqual(saved.radios[0].name, "roof")

    def test_what_can_not_be_drawn_leaves_the_rest_alone_and_is_said_once(self) -> None:
        reporter = self.reporter()
        station = self.tell(reporter, {"facts": facts(self.folder)})
        with mock.patch.dict(SHOWN, {PAGE: mock.Mock(side_effect=IndexError("x"))}):
            with self.assertLogs("keeper") as said:
                reporter._renew(station)
                reporter._renew(station)
        self.assertEqual(len(said.output), 1)
        self.assertIn("the reporter: status.html: IndexError('x')", said.output[0])
        self.assertEqual(sorted(os.listdir(self.runtime)), sorted([STATE, METRICS]))

    def test_a_folder_that_takes_nothing(self) -> None:
        reporter = self.reporter()
        station = self.tell(reporter, {"facts": facts(self.folder)})
        os.rmdir(self.runtime)
        with self.assertLogs("keeper") as said:
            reporter._renew(station)
        self.assertIn("the reporter: state.json: No such file or directory", said.output[0])

    def test_nonsense_is_said_once(self) -> None:
        reporter = self.reporter()
        lines = b'{"facts": {}}\nx\n{"facts": 3}\n'
        with mock.patch("keeper.reporter.__main__.os.read", return_value=lines):
            with self.assertLogs("keeper") as said:
                reporter._read()
        self.assertEqual(len(said.output), 1)
        self.assertIn("the reporter: what the supervisor says: KeyError(", said.output[0])

    def test_a_state_that_another_version_can_not_draw_ends_nothing(self) -> None:
        state = a_good_station(time.time())
        state.radios[0].reception[-1].refused["²"] = 3
        save(Host(), state, os.path.join(self.runtime, STATE))
        reporter = self.reporter()
        reporter._renew(self.tell(reporter, {"facts": facts(self.folder)}))
        self.assertEqual(len(os.listdir(self.runtime)), 3)

    def test_the_newest_state_counts(self) -> None:
        paths = [os.path.join(self.folder, name) for name in ("a", "b", "c")]
        for path, written in zip(paths, (5.0, 7.0)):
            save(Host(), State(written=written), path)
        found = last_state(*paths)
        self.assertEqual(found.written if found else 0, 7.0)
        self.assertIsNone(last_state(paths[2]))

    def test_alarms_of_the_one_before_are_not_raised_again(self) -> None:
        said = facts(self.folder)
        save(Host(), State(written=time.time(), alarms=[Alarm("time-gained", time.time(), "x")]),
             os.path.join(self.runtime, STATE))
        reporter = self.reporter()
        station = self.tell(reporter, {"facts": said})
        reporter._judge(station)
        self.assertEqual([one.text for one in station.state.alarms], ["x"])

    def test_a_run_of_another_keeper_is_not_known(self) -> None:
        """Runs are counted from each keeper's begin: its second one isn't that of the one before."""
        said = facts(self.folder)
        for before, due in ((said["pid"], 7), (said["pid"] + 1, 0)):
            state = State(written=time.time(), keeper_pid=before, run=RunState(number=7))
            save(Host(), state, os.path.join(self.runtime, STATE))
            reporter = self.reporter()
            self.tell(reporter, {"facts": said})
            self.assertEqual(reporter.alarms.run, due)

    def test_a_run_that_died_before_the_reporter_was_there_is_raised_once(self) -> None:
        """A reporter takes its time to begin; another one follows it."""
        said = facts(self.folder)
        said["run"] |= {"number": 2, "cause": "died"}
        for turn in range(2):
            reporter = self.reporter()
            station = self.tell(reporter, {"facts": said})
            with contextlib.ExitStack() as stack:
                if turn == 0:
                    stack.enter_context(self.assertLogs("keeper"))
                reporter._judge(station)
            died = [one.text for one in station.state.alarms if one.event == "run-died"]
            self.assertEqual(died, ["the run before ended by itself; run 2 follows"])
            reporter._renew(station)

    def test_what_is_shown_is_renewed_at_once_where_the_clock_was_set(self) -> None:
        """Else its age would be told by another clock."""
        reporter = self.reporter()
        self.tell(reporter, {"facts": facts(self.folder)})
        nothing = mock.patch("keeper.reporter.__main__.select.select", return_value=[[]])
        with nothing, self.assertLogs("keeper"):
            reporter.turn()  # alarms of the start
            reporter.turn()
        os.remove(os.path.join(self.runtime, STATE))
        for step, is_due in ((0.0, False), (86400.0, True)):
            with nothing, mock.patch.object(reporter.clocks, "step", return_value=step):
                reporter.turn()
            self.assertEqual(os.path.exists(os.path.join(self.runtime, STATE)), is_due)

    def test_an_alarm_is_in_the_state_at_once(self) -> None:
        reporter = self.reporter()
        station = self.tell(reporter, {"facts": facts(self.folder)})
        reporter.due["renew"] = time.monotonic() + 99
        with self.assertLogs("keeper"):
            reporter._judge(station)
        self.assertTrue(reporter._is_due("renew", 10.0))
        self.assertFalse(reporter._is_due("renew", 10.0))


class Process(Folder):
    def test_it_ends_with_what_it_reads_and_has_saved(self) -> None:
        given = json.dumps({"facts": facts(self.folder)}) + "\n"
        words = [sys.executable, "-B", "-m", "keeper.reporter", self.runtime]
        done = subprocess.run(words, input=given.encode(), capture_output=True, timeout=30,
                              umask=0o077)
        self.assertEqual(done.returncode, 0, done.stderr)
        self.assertIn(b"alarm time-gained: clients get the time, from DCF", done.stderr)
        self.assertEqual(sorted(os.listdir(self.runtime)), sorted([STATE, PAGE, METRICS]))
        for name in (STATE, PAGE, METRICS):  # whatever the umask is, others read them
            self.assertEqual(os.stat(f"{self.runtime}/{name}").st_mode & 0o777, 0o644)
        saved = load(os.path.join(self.folder, STATE))
        self.assertEqual([one.event for one in saved.alarms], ["time-gained"])

    def test_status_names_an_inverted_output_while_the_service_runs(self) -> None:
        """The example's marks, turned: what the supervisor hands on of them, and a minute later."""
        marks = [[start, width, start] for start, width in upside_down(log("dcf77"))[:90]]
        lines = [{"facts": facts(self.folder, pid=os.getpid())}, {"radio": 0, "pulses": marks}]
        words = [sys.executable, "-B", "-m", "keeper.reporter", self.runtime]
        given = "".join(json.dumps(one) + "\n" for one in lines)
        subprocess.run(words, input=given.encode(), capture_output=True, timeout=30, check=True)
        out = io.StringIO()
        with contextlib.redirect_stdout(out):
            status.main(parse(["status", "--folder", self.runtime]))
        self.assertRegex(out.getvalue(), r"\n  last minute: 1\.0 marks a second, widths \S+ ms to "
                         r"\S+ m?s: its output is the other way round: give edges_to_log.py `--low")
        self.assertRegex(out.getvalue(), r"  8\d\d\.\d ms, 1\.0/s  ")


if __name__ == "__main__":
    unittest.main()
