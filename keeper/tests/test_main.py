"""The command line as a person uses it: exit statuses, one sentence, no traceback."""

import contextlib
import functools
import io
import os
import pathlib
import signal
import subprocess
import tempfile
import time
import unittest
from unittest import mock

from keeper import __main__, chosen_file
from keeper.reporter.state import State, save
from keeper.supervisor.host import Host

KEEPER = pathlib.Path(__file__).parent.parent.parent / "radio_keeper"


class CommandLine(unittest.TestCase):
    def setUp(self):
        folder = tempfile.TemporaryDirectory()
        self.addCleanup(folder.cleanup)
        self.folder = folder.name

        self.addCleanup(os.chdir, os.getcwd())
        os.chdir(self.folder)

    def run_keeper(self, *words):
        """Exit status, standard output and standard error of these words, in this process, since a
        start takes its time."""
        out, said = io.StringIO(), io.StringIO()
        with contextlib.redirect_stdout(out), contextlib.redirect_stderr(said):
            try:
                told = __main__.main(list(words))
            except SystemExit as end:
                told = end.code or 0
        return told, out.getvalue(), said.getvalue()

    def started(self, *words, **how):
        """The same by the script itself."""
        # With PYTHONUNBUFFERED nothing would be left for the end.
        env = {name: value for name, value in os.environ.items() if name != "PYTHONUNBUFFERED"}
        done = subprocess.run([KEEPER, *words], cwd=self.folder, stderr=subprocess.PIPE, text=True,
                              timeout=60, env=env, **how)
        self.assertNotIn("Traceback", done.stderr)
        return done

    def test_help_and_version(self):
        self.assertEqual(self.run_keeper("--help")[0], 0)
        for command in ("run", "status", "watch", "check", "install", "calibrate"):
            told, out, said = self.run_keeper(command, "--help")
            self.assertEqual((told, said), (0, ""))
            self.assertIn(f"usage: radio_keeper {command}", out)
        done = self.started("--version", stdout=subprocess.PIPE)
        self.assertRegex(done.stdout, r"\Aradio_keeper \S+\n\Z")

    def test_words_that_are_not_valid(self):
        for words in ((), ("serve",), ("stop",), ("status", "--yaml"), ("status", "--json", "--nagios"),
                      ("watch", "--every", "0"), ("check", "--seconds", "x"),
                      ("calibrate", "--minutes", "0"), ("run", "x")):
            with self.subTest(words=words):
                told, out, said = self.run_keeper(*words)
                self.assertEqual((told, out), (64, ""))
                self.assertTrue(said)

    def test_no_file(self):
        for command in ("run", "check", "calibrate"):
            with mock.patch.object(chosen_file, "INSTALLED", "/nosuch"):
                said = (f"radio_keeper {command}: there is no keeper.toml here and no /nosuch: "
                        "--config names one, and docs/FIRST_EVENING.md writes one\n")
                self.assertEqual(self.run_keeper(command), (78, "", said))

    def test_a_name_does_not_control_the_terminal(self):
        self.assertEqual(self.run_keeper("check", "--config", "\x1b[2Jx"), (
            78, "", "radio_keeper check: ?[2Jx: No such file or directory\n"))

    def test_files_that_are_refused(self):
        path = os.path.join(self.folder, "keeper.toml")
        for text, due in (("station = 3", "station"), ("speed = 1\nstation = 'x'", "speed"),
                          ("[", "TOML"), ("station = 'nosuch'", "nosuch")):
            with open(path, "w", encoding="utf-8") as file:
                file.write(text)
            for command in ("run", "check", "calibrate"):
                with self.subTest(text=text, command=command):
                    told, out, said = self.run_keeper(command)
                    self.assertEqual((told, out), (78, ""))
                    self.assertIn(due, said)
                    self.assertEqual(said.count("\n"), 1)

    def test_no_state(self):
        told, _, said = self.run_keeper("status", "--folder", self.folder)
        self.assertEqual((told, said.count("\n")), (71, 1))

    def test_an_output_that_takes_nothing(self):
        with open("/dev/full", "w", encoding="ascii") as full:
            self.assertEqual(self.started("--help", stdout=full).returncode, 71)
            words = ("status", "--nagios", "--folder", self.folder)
            self.assertEqual(self.started(*words, stdout=full).returncode, 71)

    def test_watch_draws_until_it_is_interrupted(self):
        save(Host(), State(written=time.time(), keeper_pid=1), os.path.join(self.folder, "state.json"))
        # What a shell runs in the background ignores SIGINT, and so does all that it starts.
        words = [KEEPER, "watch", "--every", "0.2", "--folder", self.folder]
        heeds = functools.partial(signal.signal, signal.SIGINT, signal.SIG_DFL)
        with subprocess.Popen(words, stdout=subprocess.PIPE, stderr=subprocess.PIPE, text=True,
                              preexec_fn=heeds) as watch:
            lines = [watch.stdout.readline() for _ in range(8)]
            watch.send_signal(signal.SIGINT)
            rest, said = watch.communicate(timeout=30)
        self.assertEqual((watch.returncode, said), (130, ""))
        self.assertGreaterEqual("".join([*lines, rest]).count("CRITICAL: no run serves yet"), 2)

    def test_streams_that_are_closed(self):
        for closing in (">&-", "2>&-", "<&- >&- 2>&-"):
            words = ["/bin/sh", "-c", f'"$0" --version {closing}', str(KEEPER)]
            done = subprocess.run(words, cwd=self.folder, capture_output=True, text=True,
                                  timeout=60)
            self.assertEqual((done.returncode, done.stderr), (0, ""))


if __name__ == "__main__":
    unittest.main()
