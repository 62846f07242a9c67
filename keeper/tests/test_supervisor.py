"""What goes on beside the runs: reloads, sleeps, the reporter, what is told."""

import errno
import json
import os
import signal
import unittest
from unittest import mock

from keeper import config
from keeper.supervisor.supervisor import Supervisor
from keeper.tests.test_service import Case
from keeper.errors import Fault


class Reloads(Case):
    def reload(self, found: config.Settings | Exception) -> None:
        """SIGHUP, and what both files have."""
        self.host.came.append(signal.SIGHUP)
        self.turn(0.1)
        self.found(found)
        self.turn(1.5)

    def found(self, found: config.Settings | Exception) -> None:
        if isinstance(found, Exception):
            self.host.judging.set_exception(found)
        else:
            self.host.judging.set_result(found)

    def test_files_that_are_taken(self) -> None:
        self.begin()
        self.turn(1.0)
        feed, first = self.supervisor.feeds[0], self.host.programs()[0]
        self.reload(self.settings(cycle=77.0))
        self.assertEqual(self.supervisor.settings.cycle, 77.0)
        self.assertIs(self.supervisor.feeds[0], feed)
        self.assertEqual(first.status, 0)
        self.assertIn("(reload) serves", " ".join(self.host.said))
        self.assertEqual(self.host.told[-2:-1] + self.host.told[-1:],
                         [self.host.told[-2], "READY=1"])
        self.assertTrue(self.host.told[-2].startswith("RELOADING=1\nMONOTONIC_USEC="))

    def test_files_that_are_refused_leave_all_as_it_was(self) -> None:
        self.begin()
        self.turn(1.0)
        before = self.supervisor.settings, self.supervisor.feeds, self.service.serving
        self.reload(Fault("/k/keeper.toml: cyle: a key that isn't known (line 4)", 78))
        now = self.supervisor.settings, self.supervisor.feeds, self.service.serving
        self.assertEqual(before, now)
        facts = self.facts()
        self.assertEqual((facts["reloads"], facts["refused"]),
                         (1, "/k/keeper.toml: cyle: a key that isn't known (line 4)"))
        self.assertEqual(facts["notes"], [f"not reloaded: {facts['refused']}"])
        self.assertEqual(facts["events"][0]["event"], "file-refused")

    def facts(self) -> dict:
        with open(os.path.join(self.folder.name, "run", "service.json"), encoding="utf-8") as file:
            return json.load(file)

    def test_a_port_that_the_host_refuses(self) -> None:
        self.begin()
        self.host.refuses["bind"] = OSError(errno.EADDRINUSE, "Address already in use")
        other = self.settings(links=[self.port, 9])
        self.reload(other)
        self.assertEqual(self.supervisor.settings.links, [self.port])
        self.assertEqual(self.facts()["refused"], "port 9: Address already in use")

    def test_a_port_of_systemd_s_can_be_left_and_taken_again(self) -> None:
        """systemd has it open all the time, so that it can't be bound; another one is closed."""
        handed = self.host.bind("0.0.0.0", self.port)
        systemds, trial = os.dup(handed), self.host.bind("0.0.0.0", 0)
        self.addCleanup(os.close, systemds)
        other = self.host.port_of(trial)
        self.host.close(trial)
        self.host.handed_over = lambda: [handed]  # type: ignore
        self.begin()
        for ports in ([other], [self.port]):
            self.reload(self.settings(links=ports))
            self.turn(lambda: [one.port for one in self.service.watch.links] == ports)
            self.turn(0.1)
            self.assertEqual(self.facts()["refused"], "")
        self.assertEqual(self.supervisor.links, {self.port: handed})
        self.host.close(self.host.bind("0.0.0.0", other))

    def test_another_folder_needs_a_new_start(self) -> None:
        self.begin()
        for key in ("folder", "runtime"):
            self.reload(self.settings(**{key: "/elsewhere"}))
            self.assertRegex(self.facts()["refused"], f"^{key}: .*started anew")

    def test_a_judge_that_hangs_that_speaks_nonsense_or_that_can_not_be_started(self) -> None:
        self.begin()
        self.turn(1.0)
        self.host.came.append(signal.SIGHUP)
        self.turn(31.0)
        self.assertEqual(self.facts()["reloads"], 0)
        for fault in (KeyError("x"), RecursionError("deep"), MemoryError()):
            self.reload(fault)
            self.assertIs(self.service.serving.number, 1)
            self.assertIn(str(fault), self.facts()["refused"])
        self.host.refuses["settings"] = Fault(
            "the files can't be judged: can't start new thread")
        self.host.came.append(signal.SIGHUP)
        self.turn(1.0)
        self.assertEqual(self.facts()["refused"],
                         "the files can't be judged: can't start new thread")
        self.assertIs(self.service.serving.number, 1)

    def test_a_run_that_a_reload_begins_and_that_dies_leaves_the_one_before(self) -> None:
        self.begin()
        self.turn(1.0)
        first = self.host.programs()[0]
        self.host.came.append(signal.SIGHUP)
        self.turn(0.1)
        self.found(self.settings(cycle=77.0))
        for _ in range(100):
            for one in self.host.programs()[1:]:
                one.end(2)
            self.turn(0.01)
        self.assertIsNone(first.status)
        self.turn(lambda: first.status is not None, 20)
        self.assertFalse(self.service.wants_reload)

    def test_another_radio(self) -> None:
        self.begin()
        self.pulse(3)
        self.turn(1.0)
        other = os.path.join(self.folder.name, "other")
        with open(other, "wb"):
            pass
        self.reload(self.settings(
            radios=[config.Radio("file", other, "", 60.0, "msf", 0.0)]))
        self.assertEqual(self.host.programs()[0].pulses, 0)
        logs = os.listdir(os.path.join(self.folder.name, "s", "logs"))
        self.assertEqual(len(logs), 1)


    def test_a_reload_that_would_lose_the_time_waits_for_it(self) -> None:
        self.host.needs = 3
        self.begin()
        self.pulse(3)
        self.turn(1.0)
        other = os.path.join(self.folder.name, "other")
        with open(other, "wb"):
            pass
        first = self.host.programs()[0]
        radio = config.Radio("file", other, "", 60.0, "msf", 0.0)
        self.reload(self.settings(radios=[radio]))
        self.assertIsNone(first.status)
        self.source = other
        self.pulse(3)
        self.turn(lambda: first.status is not None, 70)
        self.assertIn("(reload) serves", " ".join(self.host.said))

    def test_the_same_source_in_another_way_keeps_its_minutes(self) -> None:
        self.begin()
        self.pulse(5)
        self.turn(1.0)
        radio = config.Radio("file", self.source, "roof", 60.0, "dcf", 0.0, True)
        self.reload(self.settings(radios=[radio]))
        self.assertEqual(self.host.programs()[0].pulses, 5)


    def test_a_port_that_a_reload_takes_away_is_open_until_the_next_run_serves(self) -> None:
        self.begin()
        self.turn(1.0)
        trial = self.host.bind("0.0.0.0", 0)
        other = self.host.port_of(trial)
        self.host.close(trial)
        first = self.host.programs()[0]
        station = {"radio": [{"plan": "dcf", "log": "x"}], "link": [{"port": other}]}
        self.host.came.append(signal.SIGHUP)
        self.turn(0.1)
        self.found(self.settings(links=[other], text=station))
        while first.status is None:
            with self.assertRaises(OSError):
                self.host.bind("0.0.0.0", self.port)
            self.supervisor.turn()
        self.turn(1.0)
        self.host.close(self.host.bind("0.0.0.0", self.port))
        self.assertEqual(list(self.supervisor.links), [other])
        self.assertEqual([one.port for one in self.service.watch.links], [other])


class Beside(Case):
    def test_two_keepers_of_one_folder(self) -> None:
        self.begin()
        second = Supervisor(self.host, self.settings())
        with self.assertRaisesRegex(Fault, "another keeper has"):
            second.begin()

    def test_a_lock_that_only_its_owner_can_open(self) -> None:
        self.begin()
        mode = os.stat(os.path.join(self.folder.name, "s", "keeper.lock")).st_mode & 0o777
        self.assertEqual(mode, 0o600)

    def test_what_is_raised_in_one_part_leaves_the_others_alone(self) -> None:
        self.begin()
        with mock.patch.object(self.supervisor.reports, "turn", side_effect=KeyError("x")):
            with mock.patch.object(self.supervisor.clocks, "step", side_effect=ValueError("y")):
                self.turn(1.0)
                self.host.programs()[0].end(-9)
                self.turn(1.0)
        self.assertEqual(self.service.serving.number, 2)
        self.assertEqual(len([one for one in self.host.said if "in the loop" in one]), 2)

    def test_a_host_that_does_not_say_what_waits_in_a_socket(self) -> None:
        refusal = OSError(errno.ENOPROTOOPT, "Protocol not available")
        with mock.patch.object(self.host, "queue", side_effect=refusal):
            self.begin()
            self.turn(3.0)
            self.host.programs()[0].frozen = True
            self.turn(lambda: self.service.serving.number == 2, 4.0)

    def test_the_reporter_is_told_and_started_again(self) -> None:
        self.begin()
        self.pulse(3)
        self.turn(1.0)
        reporter = next(one for one in self.host.processes if "keeper.reporter" in one.words)
        reporter.end(-9)
        self.turn(2.5)
        reporters = [one for one in self.host.processes if "keeper.reporter" in one.words]
        self.assertEqual(len(reporters), 2)
        self.assertIn("the reporter was ended by signal 9; it is started again in 1 s",
                      self.host.said)

    def test_a_reporter_that_hangs_is_ended_and_costs_no_memory(self) -> None:
        self.begin()
        reporter = next(one for one in self.host.processes if "keeper.reporter" in one.words)
        reporter.frozen = True
        for _ in range(60):
            self.supervisor.reports._tell({"x": "y" * 50_000})
        self.turn(1.0)
        self.assertEqual(reporter.status, -9)
        self.assertIn("the reporter takes nothing", " ".join(self.host.said))

    def test_an_end_does_not_wait_long_for_a_reporter_that_hangs(self) -> None:
        self.begin()
        self.turn(3.0)
        reporter = next(one for one in self.host.processes if "keeper.reporter" in one.words)
        reporter.frozen = True
        self.host.came.append(signal.SIGTERM)
        self.turn(lambda: not self.goes_on, 1.2)
        self.assertEqual(self.supervisor.status, 0)
        self.supervisor.close()
        self.assertEqual(reporter.status, -signal.SIGKILL)

    def test_a_state_that_can_not_be_written_is_said_once(self) -> None:
        self.begin()
        with mock.patch.object(self.host, "rename", side_effect=OSError(28, "No space left")):
            self.turn(40.0)
        said = [one for one in self.host.said if "service.json can't be written" in one]
        self.assertEqual(len(said), 1)

    def test_the_loop_goes_round_often_enough_for_a_watchdog(self) -> None:
        self.host.watchdog = 30.0
        self.begin()
        self.turn(100.0)
        self.assertIn(self.host.told.count("WATCHDOG=1"), (3, 4))

    def test_a_keeper_that_was_killed_begins_with_what_was_logged(self) -> None:
        self.begin()
        self.pulse(5)
        self.turn(3.0)
        self.supervisor.close()
        for one in self.host.programs():
            one.end(-9)
        os.unlink(self.source)
        self.supervisor = Supervisor(self.host, self.settings())
        self.addCleanup(self.supervisor.close)
        self.begin()
        self.turn(1.0)
        self.assertEqual([one.pulses for one in self.host.programs()], [5, 5])

    def test_a_sleep_before_the_port_is_had_and_one_at_the_end(self) -> None:
        self.host.refuses["bind"] = OSError(errno.EADDRINUSE, "Address already in use")
        self.supervisor.begin()
        self.turn(0.5)
        self.host.asleep += 5.0
        self.turn(5.0)
        self.host.refuses.clear()
        self.turn(lambda: self.service.serving is not None, 31)
        self.host.programs()[0].frozen = True
        self.host.came.append(signal.SIGTERM)
        self.turn(0.1)
        self.host.asleep += 5.0
        self.turn(lambda: not self.goes_on, 11)
        self.assertEqual([one for one in self.host.said if "in the loop" in one], [])

    def test_a_sleep_while_the_host_has_no_descriptor(self) -> None:
        self.begin()
        self.pulse(5)
        self.turn(1.0)
        refusal = OSError(errno.EMFILE, "Too many open files")
        with mock.patch.object(self.host, "boot", side_effect=refusal):
            self.host.asleep += 40.0
            self.turn(1.0)
        self.assertEqual([one.pulses for one in self.host.programs()], [0, 0])
        self.pulse()
        self.turn(3.0)
        self.assertEqual([one.pulses for one in self.host.programs()], [1, 1])
        self.assertEqual(len(os.listdir(os.path.join(self.folder.name, "s", "logs"))), 2)

    def test_short_sleeps_add_up(self) -> None:
        self.begin()
        for number in (1, 1, 3, 3, 3, 5):
            self.host.asleep += 0.004
            self.turn(1.0)
            self.assertEqual(self.service.serving.number, number)

    def test_after_a_sleep_nothing_that_was_logged_is_read_back(self) -> None:
        self.begin()
        self.pulse(5)
        self.turn(3.0)
        self.supervisor.close()
        os.unlink(self.source)
        self.host.asleep = 0.3
        self.supervisor = Supervisor(self.host, self.settings())
        self.addCleanup(self.supervisor.close)
        self.begin()
        self.turn(1.0)
        self.assertEqual([one.pulses for one in self.host.programs()], [0, 0])

    def test_a_pause_of_the_host_is_like_a_sleep(self) -> None:
        """Also for a keeper that is started again after it."""
        self.host.paused = 0.0
        self.begin()
        self.pulse(5)
        self.turn(3.0)
        self.host.paused = 31.8
        self.turn(2.5)
        said = [one for one in self.host.said if "stood still" in one]
        self.assertEqual(len(said), 1)
        self.assertRegex(said[0], r"the host stood still for 31\.[6-9] s, as its real-time clock")
        self.assertIn("(paused)", " ".join(self.host.said))
        self.assertEqual([one.pulses for one in self.host.programs()], [0, 0])
        self.pulse(2)
        self.turn(3.0)
        self.supervisor.close()
        os.unlink(self.source)
        self.supervisor = Supervisor(self.host, self.settings())
        self.addCleanup(self.supervisor.close)
        self.begin()
        self.turn(1.0)
        self.assertEqual([one.pulses for one in self.host.programs()], [2, 2])

    def test_where_nobody_knows_of_a_pause_nothing_is_read_back(self) -> None:
        self.begin()
        self.pulse(5)
        self.turn(3.0)
        self.supervisor.close()
        os.unlink(self.source)
        path = os.path.join(self.folder.name, "run", "service.json")
        for text, due in ((b"[]", 0), (b"", 0), (b'{"paused": "x"}', 0), (b"{}", 5)):
            with self.subTest(text=text):
                with open(path, "wb") as file:
                    file.write(text)
                self.supervisor = Supervisor(self.host, self.settings())
                self.begin()
                self.turn(1.0)
                self.assertEqual([one.pulses for one in self.host.programs()], [due, due])
                self.supervisor.close()

    def test_a_step_of_the_clock_changes_no_run(self) -> None:
        self.begin()
        self.host.ahead += 86400
        self.turn(5.0)
        self.assertEqual(self.service.serving.number, 1)
        self.assertIn("the host's clock was set forward by 86400 s", " ".join(self.host.said))

    def test_an_end_that_was_asked_for_twice_is_at_once(self) -> None:
        self.begin()
        self.turn(1.0)
        run = self.host.programs()[0]
        run.frozen = True
        self.host.came += [signal.SIGTERM, signal.SIGINT]
        self.turn(lambda: not self.goes_on, 1.0)
        self.assertEqual(run.status, -9)
        self.assertEqual(self.supervisor.status, 1)


if __name__ == "__main__":
    unittest.main()
