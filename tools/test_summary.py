#!/usr/bin/env python3
"""Tests of summary.sh: how each feed of a journal was received.

    tools/test_summary.py
"""

import os
import pathlib
import pty
import subprocess
import tempfile
import unittest

from test_entry_times import JOURNAL

HERE = pathlib.Path(__file__).resolve().parent


class Summaries(unittest.TestCase):
    def setUp(self):
        held = tempfile.TemporaryDirectory()
        self.addCleanup(held.cleanup)
        self.room = pathlib.Path(held.name)

    def run_it(self, *words, said=""):
        tool = [HERE / "summary.sh", *words]
        done = subprocess.run(
            tool, input=said, capture_output=True, text=True, timeout=60, cwd=self.room
        )
        return done.returncode, done.stdout, done.stderr

    def test_kinds_and_rules_are_counted(self):
        due = (
            "feed 0: 4 entries, 1 lone, 1 verdict, 1 refused by rule 10, 1 refused by rule 2;"
            " 25.0 of a hundred give the time\n"
            "feed 1: 1 entries, 1 declined for reason 3; 0.0 of a hundred give the time\n"
        )
        for words in ((), ("-",)):
            self.assertEqual(self.run_it(*words, said=JOURNAL), (0, due, ""))
        for name in ("a=b", "two words", "+x"):
            with self.subTest(name=name):
                (self.room / name).write_text(JOURNAL)
                self.assertEqual(self.run_it(name), (0, due, ""))

    def test_what_it_is_asked_wrongly(self):
        (self.room / "log").write_text("1000000 100000\n2000000 200000\n")
        (self.room / "other").write_text("text\n")
        for words, status, said in (
            ((), 1, "there is no entry\n"),
            (("--nosuch",), 2, "there is no option --nosuch"),
            (("nosuch",), 1, "nosuch can't be read, or isn't there"),
            ((".",), 1, ". is a folder"),
            (("log",), 1, "this is a log, decode it first"),
            (("other",), 1, "there is no entry\n"),
        ):
            with self.subTest(words=words):
                done = self.run_it(*words)
                self.assertEqual((done[0], done[1]), (status, ""))
                self.assertIn(said, done[2])
                self.assertEqual(done[2].count("\n"), 1)

    def test_help(self):
        status, said, wrong = self.run_it("--help")
        self.assertEqual((status, wrong), (0, ""))
        self.assertTrue(said.startswith("How each feed"))
        self.assertTrue(said.endswith("with 2 for invalid arguments.\n"))

    def test_a_terminal_is_not_waited_for(self):
        near, far = pty.openpty()
        self.addCleanup(os.close, near)
        self.addCleanup(os.close, far)
        done = subprocess.run([HERE / "summary.sh"], stdin=far, capture_output=True, text=True, timeout=60)
        self.assertEqual((done.returncode, done.stdout), (2, ""))
        self.assertIn("say which journal", done.stderr)


if __name__ == "__main__":
    unittest.main()
