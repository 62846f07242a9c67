"""`status` in each of its forms, from the file that the keeper renews, and where there is none."""

import contextlib
import io
import json
import os
import subprocess
import tempfile
import time
import unittest
from unittest import mock

from keeper import status
from keeper.arguments import parse
from keeper.reporter.state import save
from keeper.supervisor.host import Host
from keeper.tests.made_station import a_good_station
from keeper.tests.test_station_state import facts as said_by_the_supervisor
from keeper.errors import Fault


class Files(unittest.TestCase):
    def setUp(self):
        folder = tempfile.TemporaryDirectory()
        self.addCleanup(folder.cleanup)
        self.folder = folder.name

    def run_status(self, *words):
        out = io.StringIO()
        with contextlib.redirect_stdout(out):
            told = status.main(parse(["status", *words, "--folder", self.folder]))
        return told, out.getvalue()

    def test_where_the_reporter_stands_still_the_supervisors_word_counts(self):
        now = time.time()
        save(Host(), a_good_station(now - 500), os.path.join(self.folder, "state.json"))
        facts = {
            **said_by_the_supervisor(self.folder, radios=[]), "at": now, "since": now - 900,
            "pid": os.getpid()}
        facts["run"]["number"] = 9
        with open(os.path.join(self.folder, "service.json"), "w", encoding="utf-8") as file:
            json.dump(facts, file)
        told, said = self.run_status()
        self.assertEqual(told, 1)
        self.assertRegex(said, r"\AWARNING: the reporter has drawn nothing for 8 min 20 s\n")
        self.assertIn("run 9, ", said)

    def test_a_journal_that_can_not_be_read_hides_nothing(self):
        """Whoever asks need not read the folder of journals."""
        now = time.time()
        facts = said_by_the_supervisor("/nosuch", servers=[["192.0.2.1", 123]], pid=os.getpid())
        facts["run"]["last_journal"] = "a.journal"
        with open(os.path.join(self.folder, "service.json"), "w", encoding="utf-8") as file:
            json.dump({**facts, "at": now}, file)
        self.assertRegex(self.run_status()[1], "the reporter has drawn nothing for ")

    def test_what_is_no_supervisors_word_is_refused_by_a_sentence(self):
        good = {**said_by_the_supervisor(self.folder), "at": time.time()}
        radio = {**good["radios"][0], "name": 3}
        for odd in ([3], {"at": "x"}, {"at": 1e30}, {"at": 2e9}, {**good, "radios": [radio]},
                    {**good, "links": 5}, {**good, "notes": [7]}, {**good, "at": 1e400},
                    {**good, "run": []}, {**good, "servers": [[1]]}):
            with self.subTest(odd=str(odd)[:40]):
                with open(os.path.join(self.folder, "service.json"), "w", encoding="utf-8") as file:
                    json.dump(odd, file)
                with self.assertRaisesRegex(Fault, "service.json isn't of a keeper: "):
                    self.run_status()
                self.assertEqual(self.run_status("--nagios")[0], 3)

    def test_a_number_in_place_of_a_name_is_no_descriptor_of_ours(self):
        mine = os.open(__file__, os.O_RDONLY)
        self.addCleanup(os.close, mine)
        odd = {**said_by_the_supervisor(self.folder), "at": time.time(), "leap_file": mine}
        with open(os.path.join(self.folder, "service.json"), "w", encoding="utf-8") as file:
            json.dump(odd, file)
        with self.assertRaisesRegex(Fault, "service.json isn't of a keeper: "):
            self.run_status()
        os.fstat(mine)  # it is still open

    def test_status_in_each_form(self):
        now = time.time()
        save(Host(), a_good_station(now), os.path.join(self.folder, "state.json"))
        told, said = self.run_status()
        self.assertEqual((told, said.split(":")[0]), (0, "OK"))
        self.assertEqual(json.loads(self.run_status("--json")[1])["run"]["number"], 7)
        self.assertIn("radio_ntpd_runs_total 7\n", self.run_status("--prometheus")[1])
        self.assertEqual(self.run_status("--nagios")[0], 0)
        save(Host(), a_good_station(now - 100), os.path.join(self.folder, "state.json"))
        told, said = self.run_status("--nagios")
        self.assertEqual(told, 2)
        self.assertRegex(said, r"\ARADIO_NTPD CRITICAL: no keeper runs[^\n]*\n\Z")
        self.assertEqual(self.run_status()[0], 2)

    def test_a_keeper_that_was_killed(self):
        """Its process is looked at: that the state grows old shows it a minute later."""
        keeper = subprocess.Popen(["sleep", "60"])
        self.addCleanup(keeper.wait)
        self.addCleanup(keeper.kill)
        state = a_good_station(time.time())
        state.keeper_pid = keeper.pid
        save(Host(), state, os.path.join(self.folder, "state.json"))
        self.assertEqual(self.run_status()[0], 0)
        keeper.kill()
        keeper.wait()
        for words in ((), ("--nagios",)):
            told, said = self.run_status(*words)
            self.assertEqual(told, 2)
            self.assertRegex(said, "CRITICAL: no keeper runs: it ended within the last [0-9] s "
                                   "without a word")
        self.assertIn('radio_ntpd_link_up{port="123"} 0\n', self.run_status("--prometheus")[1])

    def test_how_often_a_state_is_redrawn(self):
        said = io.StringIO()
        with contextlib.redirect_stderr(said), self.assertRaises(SystemExit) as ended:
            parse(["watch", "--every", "0.1"])
        self.assertEqual(ended.exception.code, 64)
        self.assertIn("radio_keeper watch: argument --every: 0.1 isn't 0.2 to 3600\n", said.getvalue())

    def test_nagios(self):
        save(Host(), a_good_station(time.time()), os.path.join(self.folder, "state.json"))
        self.assertEqual(self.run_status("--nagios"), (
            0, "RADIO_NTPD OK: time from DCF, stratum 1, root dispersion 5.4 ms | "
            "root_dispersion_123=0.005400s;;0.5 verdicts_0=58;;;0;60\n"))

    def test_a_bar_begins_nagios_figures_and_stands_nowhere_else(self):
        out = io.StringIO()
        with contextlib.redirect_stdout(out):
            self.assertEqual(status.nagios("/no|such", None), 3)
        self.assertRegex(out.getvalue(), r"\ARADIO_NTPD UNKNOWN: [^\n|]*/no/such[^\n|]*\n\Z")

    def test_a_process(self):
        child = subprocess.Popen(["true"])
        child.wait()
        pids = (os.getpid(), 1, child.pid, 2**52)
        self.assertEqual([status.is_there(one) for one in pids], [True, True, False, False])
        with mock.patch("os.kill", side_effect=PermissionError):
            self.assertTrue(status.is_there(1))

    def test_no_state(self):
        told, said = self.run_status("--nagios")
        self.assertEqual(told, 3)
        self.assertRegex(said, r"\ARADIO_NTPD UNKNOWN: [^\n|]*\n\Z")
        with self.assertRaisesRegex(Exception, "does the keeper run"):
            self.run_status()

    def test_a_file_that_is_refused(self):
        path = os.path.join(self.folder, "odd.toml")
        for odd in (b"\xff", b"x = " + b"9" * 5000, b"x = " + b"[" * 20_000, b"x ="):
            with self.subTest(odd=odd[:9]):
                with open(path, "wb") as file:
                    file.write(odd)
                with self.assertRaisesRegex(Fault, "odd.toml: it "):
                    status.folders_of(path)
                out = io.StringIO()
                with contextlib.redirect_stdout(out):
                    self.assertEqual(status.main(parse(["status", "--nagios", "--config", path])), 3)
                self.assertRegex(out.getvalue(), r"\ARADIO_NTPD UNKNOWN: [^\n|]*\n\Z")

    def test_a_file_that_is_not_for_everybody(self):
        path = os.path.join(self.folder, "keeper.toml")
        with open(path, "w", encoding="utf-8") as file:
            file.write('state = "/x"')
        with mock.patch.object(status, "FILES", (path,)):
            self.assertEqual(status.folders_of(None)[1], "/x")
            with mock.patch.object(status.os, "access", return_value=False):
                installed = ["/run/radio_ntpd", "/var/lib/radio_ntpd"]
                self.assertEqual(status.folders_of(None), installed)

    def test_the_folder_of_a_file(self):
        path = os.path.join(self.folder, "keeper.toml")
        for said, due in (("", f"{self.folder}/state"), ('state = "s"', f"{self.folder}/s"),
                          ('state = "/x"', "/x"), ('state = "s"\nruntime = "/r"', "/r")):
            with open(path, "w", encoding="utf-8") as file:
                file.write(said)
            self.assertEqual(status.folders_of(path)[0], due)


if __name__ == "__main__":
    unittest.main()
