"""Runs that follow one another, over a made-up program."""

import errno
import logging
import os
import signal
import tempfile
import unittest
from collections.abc import Callable

from keeper import config
from keeper.supervisor.supervisor import Supervisor
from keeper.tests.fake_host import FakeHost, Process

STATION = {"bound": 500, "radio": [{"plan": "dcf", "log": "x"}], "link": []}


class Sentences(logging.Handler):
    def __init__(self, said: list[str]) -> None:
        super().__init__()
        self.said = said

    def emit(self, record: logging.LogRecord) -> None:
        self.said.append(self.format(record))


class Case(unittest.TestCase):
    """A supervisor over a made-up host; `turn` lets time pass."""

    cycle = 3600.0
    servers: list[tuple[str, int]] = []

    goes_on = True

    def setUp(self) -> None:
        self.folder = tempfile.TemporaryDirectory()
        self.host = FakeHost()
        handler = Sentences(self.host.said)
        logger = logging.getLogger("keeper")
        logger.addHandler(handler)
        logger.setLevel(logging.INFO)
        logger.propagate = False
        self.addCleanup(self.folder.cleanup)
        self.addCleanup(logger.removeHandler, handler)
        self.addCleanup(self.host.close_all)
        trial = self.host.bind("0.0.0.0", 0)
        self.port = self.host.port_of(trial)
        self.host.close(trial)
        self.source = os.path.join(self.folder.name, "pulses")
        with open(self.source, "wb"):
            pass
        self.supervisor = Supervisor(self.host, self.settings())
        self.addCleanup(self.supervisor.close)

    def settings(self, **more: object) -> config.Settings:
        station: dict[str, object] = {**STATION, "link": [{"port": self.port}]}
        station["server"] = [{"address": one, "port": port} for one, port in self.servers]
        values: dict[str, object] = {
            "path": os.path.join(self.folder.name, "keeper.toml"), "station": "station.toml",
            "text": station, "program": "/program", "folder": os.path.join(self.folder.name, "s"),
            "runtime": os.path.join(self.folder.name, "run"), "cycle": self.cycle, "days": 30,
            "room": 10**9, "pace": 16, "links": [self.port], "servers": self.servers,
            "denied": [], "gap": 0.0, "bound": 0.5, "leap_file": None,
            "radios": [config.Radio("file", self.source, "", 60.0, "dcf", 0.0)]}
        return config.Settings(**{**values, **more})  # type: ignore[arg-type]

    def begin(self) -> None:
        self.supervisor.begin()
        self.turn(lambda: self.service.serving is not None)

    @property
    def service(self):  # type: ignore[no-untyped-def]
        return self.supervisor.service

    def turn(self, until: Callable[[], bool] | float, most: float = 30.0) -> float:
        """Goes on until something is so, or for this many seconds; for how long it went on."""
        began = self.host.now
        if isinstance(until, float):
            span = until
            until, most = lambda: self.host.now >= began + span, span + 1
        while not until():
            self.assertLess(self.host.now - began, most, "it lasts too long")
            self.goes_on = self.supervisor.turn()
        return self.host.now - began

    def pulse(self, count: int = 1) -> None:
        """Pulses that just began, one a second."""
        with open(self.source, "ab") as file:
            for place in range(count):
                start = int((self.host.now - count + place + 0.5) * 1e6)
                file.write(b"%d 100000\n" % start)
        os.utime(self.source, (self.host.realtime(), self.host.realtime()))

    def run_of(self, process: Process) -> int:
        """A process's number among those that were started."""
        return self.host.processes.index(process)


class Changes(Case):
    cycle = 20.0

    def test_the_next_run_is_fed_and_serves_when_the_cycle_is_over(self) -> None:
        self.begin()
        self.turn(1.0)
        serving, waiting = self.host.programs()
        self.assertTrue(serving.told("go"))
        self.assertFalse(waiting.told("go"))
        self.assertFalse(waiting.told("ask"))
        self.pulse(5)
        self.turn(0.5)
        self.assertEqual(serving.lines, waiting.lines)
        self.assertEqual(serving.pulses, 5)
        self.turn(lambda: waiting.told("go"), 25)
        self.turn(0.5)
        self.assertEqual(serving.status, 0)
        self.assertIn("run 2 (cycle) serves", self.host.said)
        self.assertEqual([one.told("go") for one in self.host.programs()], [True, False])

    def test_the_journal_of_each_run_is_kept_with_the_keepers_own_datagrams(self) -> None:
        self.begin()
        self.turn(lambda: self.service.last.name != "", 25)
        names = sorted(os.listdir(os.path.join(self.folder.name, "s", "journals")))
        self.assertEqual([one.rpartition("-")[2] for one in names], ["1.journal", "1.own"])
        path = os.path.join(self.folder.name, "s", "journals", names[0])
        with open(path, encoding="ascii") as file:
            text = file.read()
        self.assertTrue(text.endswith("status 0\n"))
        with open(path.replace(".journal", ".own"), encoding="ascii") as file:
            own = int(file.read().split()[3])
        heard = int(text.split()[3])
        self.assertEqual((own, heard), (10, 10))
        names = os.listdir(os.path.join(self.folder.name, "run"))
        self.assertEqual([one for one in names if one.endswith("-1.out")], [])

    def test_a_station_is_given_its_counter_its_pipes_and_a_link_of_the_keeper(self) -> None:
        self.begin()
        program = self.host.programs()[0]
        self.assertEqual(program.station["start"], 0)
        self.assertEqual([one["port"] for one in program.station["link"]][0], self.port)
        self.assertEqual(len(program.station["link"]), 2)
        self.assertEqual(program.words[-2:], ["--during", "1000000"])
        self.assertIn("pace=16", program.environment["RADIO_NTPD_SERVICE"].split(" "))

    def test_a_next_run_without_time_is_not_taken_where_this_one_has_it(self) -> None:
        self.host.needs = 5
        self.begin()
        self.pulse(5)
        self.turn(3.0)
        serving, waiting = self.host.programs()
        self.assertTrue(self.service.watch.has_time())
        waiting.needs = 100
        self.turn(lambda: waiting.status is not None, 25)
        self.assertIs(self.service.serving.child, 1 + self.run_of(serving))
        self.assertTrue(any("would not have the time" in one for one in self.host.said))
        self.assertLess(waiting.heard.get(self.port, 0), 3)
        # It is tried again after a minute, with one that has it.
        self.turn(lambda: serving.status is not None, 70)
        self.assertGreater(self.host.now, self.service.serving.began - 1)

    def test_a_next_run_that_does_not_answer_is_not_taken(self) -> None:
        self.begin()
        self.turn(1.0)
        serving, waiting = self.host.programs()
        waiting.frozen = True
        self.turn(lambda: waiting.status is not None, 85)
        self.assertTrue(any("run 2 doesn't answer" in one for one in self.host.said))
        self.assertIsNone(serving.status)
        self.turn(lambda: serving.status is not None, 10)
        self.assertIn("run 3 (cycle) serves", self.host.said)

    def test_many_changes_leave_no_descriptor_and_no_file(self) -> None:
        self.begin()
        self.turn(1.0)
        before = len(os.listdir("/proc/self/fd"))
        for number in range(50):
            self.host.programs()[0].end(-9)
            self.turn(11.0)
        self.assertEqual(len(os.listdir("/proc/self/fd")), before)
        self.assertEqual(len(self.host.known), 3)  # two runs and the reporter
        names = os.listdir(os.path.join(self.folder.name, "run"))
        self.assertEqual(len([one for one in names if one.endswith(".out")]), 2)


class Servers(Case):
    cycle = 30.0
    servers = [("192.0.2.1", 123)]

    def test_the_next_run_asks_servers_a_little_before_it_serves(self) -> None:
        self.begin()
        self.turn(25.0)
        serving, waiting = self.host.programs()
        self.assertTrue(serving.told("ask"))
        self.assertFalse(waiting.told("ask"))
        self.assertEqual(waiting.station["server"][0]["polls"], 100_000)
        self.turn(lambda: waiting.told("ask"), 10)
        asked = self.host.now
        self.assertFalse(waiting.told("go"))
        self.turn(lambda: waiting.told("go"), 20)
        self.assertAlmostEqual(self.host.now - asked, 10.0, delta=0.2)

    def test_a_reload_that_was_put_off_has_its_servers_answers(self) -> None:
        self.host.needs = 5
        self.begin()
        self.pulse(5)
        self.turn(3.0)
        hurried = self.host.programs()[1]
        hurried.needs = 100
        self.service.wants_reload = True
        self.assertLess(self.turn(lambda: hurried.status is not None, 5), 2.0)
        self.turn(2.0)
        later = self.host.programs()[1]
        self.turn(lambda: later.told("ask"), 70)
        self.assertAlmostEqual(self.turn(lambda: later.told("go"), 20), 10.0, delta=0.2)

    def test_at_a_death_it_asks_at_once(self) -> None:
        self.begin()
        self.turn(5.0)
        serving, waiting = self.host.programs()
        serving.end(-9)
        self.assertLess(self.turn(lambda: waiting.told("ask") and waiting.told("go")), 0.1)


class Faults(Case):
    def test_a_run_that_dies_is_followed_at_once(self) -> None:
        self.begin()
        self.turn(1.0)
        serving, waiting = self.host.programs()
        serving.end(-signal.SIGKILL)
        self.assertLess(self.turn(lambda: waiting.told("go")), 0.1)
        self.turn(1.0)
        self.assertIn("run 2 (died) serves", self.host.said)
        self.assertTrue(any("it isn't whole" in one for one in self.host.said))

    def test_a_run_that_hangs_is_followed_within_three_seconds(self) -> None:
        self.begin()
        self.turn(5.0)
        serving, waiting = self.host.programs()
        serving.frozen = True
        self.assertLess(self.turn(lambda: waiting.told("go")), 3.0)
        self.turn(1.0)
        self.assertIn("run 1 doesn't answer any more", self.host.said)
        self.assertIn(signal.SIGCONT, serving.signals)
        self.turn(5.0)
        self.assertEqual(serving.status, -signal.SIGKILL)

    def late(self, run: Process, seconds: float) -> None:
        """Neither we nor the run have a processor for so long; we are the first to have one."""
        run.frozen, self.host.now = True, self.host.now + seconds
        self.supervisor.turn()
        run.frozen = False

    def test_a_late_look_is_no_evidence_against_a_run_that_was_told_to_serve(self) -> None:
        self.begin()
        self.turn(5.0)
        serving, waiting = self.host.programs()
        serving.end(-9)
        self.turn(lambda: self.service.looked_at is not None)
        self.late(waiting, 10.0)
        self.turn(1.0)
        self.assertEqual(self.service.serving.number, 2)
        self.assertFalse([one for one in self.host.said if "answer" in one])

    def test_a_late_look_is_no_evidence_against_a_run_that_was_told_to_end(self) -> None:
        self.begin()
        self.turn(5.0)
        serving = self.host.programs()[0]
        self.service.stop()
        self.late(serving, 10.0)
        self.turn(1.0)
        self.assertEqual(serving.status, 0)

    def test_a_hung_run_with_clients_is_found_sooner(self) -> None:
        self.begin()
        self.turn(5.0)
        serving, waiting = self.host.programs()
        serving.frozen = True
        client = self.host.client("127.0.0.1", self.port)
        self.host.write(client, bytes(48))
        self.assertLess(self.turn(lambda: waiting.told("go")), 0.3)
        self.host.close(client)

    def test_one_that_stands_by_and_dies_is_replaced(self) -> None:
        self.begin()
        self.turn(1.0)
        self.host.programs()[1].end(-9)
        self.turn(lambda: len(self.host.programs()) == 2, 2.0)
        self.assertTrue(any(one.startswith("run 2, which stood by, was ended by signal 9")
                            for one in self.host.said))

    def test_one_that_stands_by_and_hangs_is_replaced(self) -> None:
        self.begin()
        self.turn(1.0)
        waiting = self.host.programs()[1]
        waiting.frozen = True
        self.pulse()
        self.turn(lambda: waiting.status is not None, 3.0)
        self.assertTrue(any("run 2, which stood by, takes no pulses" in one
                            for one in self.host.said))

    def test_one_that_stands_by_may_take_long_to_begin(self) -> None:
        """As where the host is busy. One that begins never is replaced."""
        self.begin()
        self.pulse()
        self.turn(lambda: len(self.host.programs()) == 2)
        waiting = self.host.programs()[1]
        waiting.frozen = True
        self.turn(8.0)
        self.assertIsNone(waiting.status)
        self.turn(lambda: waiting.status is not None, 4.0)

    def test_one_that_stands_by_is_not_blamed_where_the_loop_is_late(self) -> None:
        self.begin()
        self.turn(1.0)
        for _ in range(3):
            self.host.now += 3.0
            self.pulse()  # it is handed on in the turn that is late, and read after it
            self.turn(0.2)
        self.assertEqual([self.service.serving.number, self.service.next.number], [1, 2])

    def test_a_program_that_always_dies_is_started_with_pauses(self) -> None:
        self.supervisor.begin()
        for _ in range(100):
            for one in self.host.programs():
                one.end(2)
            self.turn(1.0)
        self.assertLess(len(self.host.processes), 22)

    def test_runs_that_die_soon_again_and_again_have_pauses(self) -> None:
        self.begin()
        served = 0
        for _ in range(60):
            for one in self.host.programs():
                if one.told("go"):
                    served += 1
                    one.end(-9)
            self.turn(1.0)
        self.assertLess(served, 18)
        self.assertGreater(served, 5)

    def test_a_run_that_serves_makes_the_pause_short_again(self) -> None:
        """Also where runs follow one another faster than any of them grows old."""
        self.begin()
        self.supervisor.settings = self.settings(cycle=2.0)
        self.service.use(self.supervisor.settings, self.supervisor.feeds, self.supervisor.links)
        for _ in range(6):
            self.turn(6.0)
            self.host.programs()[-1].end(2)
            self.turn(0.1)
        pauses = [one for one in self.host.said if "another one is started" in one]
        self.assertGreater(len(pauses), 3)
        self.assertEqual({one.rpartition(" in ")[2] for one in pauses}, {"1 s"})

    def test_a_start_that_the_host_refuses_is_said_once_and_tried_again(self) -> None:
        self.begin()
        self.turn(1.0)
        self.host.refuses["spawn"] = OSError(errno.EAGAIN, "try again")
        self.host.programs()[1].end(-9)
        before = len(os.listdir("/proc/self/fd"))
        self.turn(20.0)
        self.assertEqual([one for one in self.host.said if "run can be" in one],
                         ["no run can be started: try again"])
        self.assertLessEqual(len(os.listdir("/proc/self/fd")), before)
        self.assertIsNone(self.host.programs()[0].status)
        self.host.refuses.clear()
        self.turn(lambda: len(self.host.programs()) == 2)
        self.assertIn("runs can be started again", self.host.said)

    def test_a_host_without_sockets_for_the_watchdog_keeps_its_run(self) -> None:
        self.begin()
        self.host.refuses["client"] = OSError(errno.EMFILE, "too many")
        self.turn(30.0)
        self.assertEqual(self.service.serving.number, 1)

    def test_a_port_that_is_taken_is_tried_again(self) -> None:
        self.host.refuses["bind"] = OSError(errno.EADDRINUSE, "Address already in use")
        self.supervisor.begin()
        self.turn(20.0)
        self.assertIn("READY=1", self.host.told)
        self.assertTrue(any(f"port {self.port}: Address already" in one for one in self.host.said))
        self.host.refuses.clear()
        self.turn(lambda: self.service.serving is not None, 31)

    def test_a_sleep_of_the_host_ends_both_runs_before_all_else(self) -> None:
        self.begin()
        self.pulse(5)
        self.turn(1.0)
        runs = self.host.programs()
        self.host.asleep = 0.02
        self.supervisor.turn()
        self.assertEqual([one.status for one in runs], [-9, -9])
        self.turn(lambda: self.service.serving is not None, 2.0)
        self.assertIn("(slept)", " ".join(self.host.said))
        self.assertEqual(self.host.programs()[0].pulses, 0)

    def test_a_run_whose_hearings_will_be_used_up_is_followed(self) -> None:
        self.begin()
        self.turn(3.0)
        self.service.rate = 0.7 * 1_000_000 / 20  # as a journal said
        self.turn(lambda: self.service.serving.number == 2, 25)
        self.assertIn("run 2 (busy) serves", self.host.said)


class Ends(Case):
    def test_a_stop_keeps_the_journal_and_ends_within_a_second(self) -> None:
        self.begin()
        self.turn(2.0)
        self.host.came.append(signal.SIGTERM)
        began = self.host.now
        while self.supervisor.turn():
            self.assertLess(self.host.now, began + 5)
        self.assertLess(self.host.now - began, 1.0)
        self.assertEqual(self.supervisor.status, 0)
        self.assertEqual(self.service.last.status, "status 0")
        self.assertIn("STOPPING=1", self.host.told)

    def test_a_journal_waits_for_the_disk_and_the_next_keeper_takes_it(self) -> None:
        self.begin()
        self.turn(2.0)
        self.host.refuses["sync"] = OSError(errno.ENOSPC, "No space left on device")
        self.host.came.append(signal.SIGTERM)
        self.turn(lambda: not self.goes_on, 5)
        self.assertEqual(self.supervisor.status, 1)
        runtime = os.path.join(self.folder.name, "run")
        self.assertEqual(len([one for one in os.listdir(runtime) if one.endswith(".out")]), 1)
        self.host.refuses.clear()
        self.supervisor.close()
        self.supervisor = second = Supervisor(self.host, self.settings())
        self.addCleanup(second.close)
        second.begin()
        self.turn(3.0)  # the run before had its time to end
        self.assertEqual(len(os.listdir(os.path.join(self.folder.name, "s", "journals"))), 2)


if __name__ == "__main__":
    unittest.main()
