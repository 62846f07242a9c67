#!/usr/bin/env python3
"""Tests of build/build_program.py over a toolchain that proves nothing: python3 -B build/test_build_program.py"""

import contextlib
import io
import os
import signal
import subprocess
import time
import unittest
from pathlib import Path
from unittest import mock

HERE = Path(__file__).resolve().parent
import build_program
from made_checkout import Room


class Builds(Room):
    def test_the_program_and_its_crates_are_built_without_tests_and_wrong_bodies(self):
        done = self.run_build()
        self.assertEqual(done.returncode, 0, done.stderr)
        self.assertEqual(self.noted("crates").split(), ["left", "low", "radio_ntpd", "right"])
        self.assertEqual(self.noted("list"), "low:\nleft: low\nright: low itoa\nradio_ntpd: left right   # the program\n")
        self.assertEqual(self.noted("left"), "")
        self.assertTrue(os.access(self.program, os.X_OK))
        self.assertEqual(sorted(file.name for file in self.program.parent.iterdir()), ["radio_ntpd", "radio_ntpd.sources"])

    def test_each_crate_has_its_line_whether_it_is_proved_or_kept(self):
        said = self.run_build(KEPT="left").stderr.splitlines()
        self.assertEqual([line.split()[0] for line in said[4:]], ["low", "left", "right", "radio_ntpd"])
        for number, line in enumerate(said[4:], 1):
            self.assertIn(f"is proved ({number} of 4), 0:", line)
        self.assertIn("left", said[4])
        self.assertNotIn("about", said[-1])

    def test_a_line_of_progress(self):
        below = {"low": [], "left": ["low"], "right": ["low"]}
        estimate = mock.Mock(**{"left.side_effect": [125.4, 0.0]})
        build = build_program.Build(below, estimate)
        build.started = time.monotonic() - 60
        self.assertEqual(build.hear("rt: low proved"), "low")
        self.assertEqual(build.progress("low"), "low (1 of 3), 1:00, about 2:05 left")
        self.assertEqual(build.hear("rt: left is kept: an earlier run proved it"), "left")
        self.assertEqual(build.progress("left"), "left (2 of 3), 1:00")
        self.assertEqual([call.args[0] for call in estimate.end.call_args_list], ["low", "left"])
        self.assertIsNone(build.hear("rt: low: its tests are proved"))
        self.assertIsNone(build.hear("rt: other proved"))

    def test_what_is_in_hand_is_begun(self):
        estimate = mock.Mock()
        with mock.patch.object(build_program, "in_hand", return_value={"low"}):
            self.assertEqual(build_program.Build({"low": []}, estimate).look(7), {"low"})
        self.assertEqual(estimate.begin.call_args.args[0], {"low"})

    def test_a_crate_that_is_not_proved_is_named_with_its_last_lines(self):
        done = self.run_build(BROKEN="right")
        self.assertEqual(done.returncode, 70)
        self.assertIn("right is not proved", done.stderr)
        self.assertIn("fn right::f: not proved", done.stderr)
        self.assertNotIn("== ", done.stderr)
        self.assertFalse(self.program.exists())

    def test_a_build_that_refuses_no_crate_and_fails_shows_how_it_ended(self):
        done = self.run_build(FAILS="1")
        self.assertEqual(done.returncode, 70)
        self.assertIn("radio_ntpd: the build failed; ", done.stderr)
        self.assertEqual([line.strip() for line in done.stderr.splitlines()[-2:]], ["rt: the disk is full", "0 passed, 1 failed"])
        self.assertNotIn("is not proved", done.stderr)
        self.assertFalse(self.program.exists())

    def test_the_crates_in_hand_are_those_of_its_session(self):
        child = subprocess.Popen(["sh", "-c", "sleep 30; exit", "--crate-name", "low"], start_new_session=True)
        self.addCleanup(child.wait)
        self.addCleanup(os.killpg, child.pid, signal.SIGTERM)
        limit = time.monotonic() + 20
        while build_program.in_hand(child.pid) != {"low"}:
            self.assertLess(time.monotonic(), limit)
            time.sleep(0.05)
        self.assertEqual(build_program.in_hand(os.getpid()), set())

    def test_without_a_toolchain_it_says_so(self):
        self.rt.unlink()
        done = subprocess.run(self.words, env={**self.about, "PATH": f"{self.room}/kit/bin"}, capture_output=True, text=True, timeout=60)
        self.assertEqual(done.returncode, 69)
        self.assertEqual(len(done.stderr.splitlines()), 1)
        self.assertIn("`rt` is not on PATH", done.stderr)

    def test_what_it_takes_is_printed_before_the_first_proof(self):
        """Without a terminal too: how many crates, about how long, and the memory and the disk that it takes."""
        said = self.run_build().stderr.splitlines()
        self.assertRegex(said[2], r"^4 crates: about \d+:\d\d on \d+ processors, less where some were proved before\.$")
        self.assertIn("GB of memory", said[3])
        self.assertIn(str(self.room / "cache"), said[3])

    def test_a_line_a_minute_where_there_is_no_terminal(self):
        """The first proof may take minutes."""
        self.assertEqual(build_program.QUIET, 60)
        build = build_program.Build({"low": []}, mock.Mock(**{"left.return_value": 60.0}))
        for quiet, lines in ((0.0, 2), (60.0, 0)):
            ended, out = mock.Mock(**{"wait.side_effect": [False, False, True]}), io.StringIO()
            with mock.patch.object(build_program, "QUIET", quiet), mock.patch.object(build_program, "in_hand", return_value={"low"}):
                with contextlib.redirect_stderr(out):
                    build_program.watch(build, 7, ended, False)
            self.assertEqual(out.getvalue(), "proving low (0 of 1), 0:00, about 1:00 left\n" * lines)

    def test_another_toolchain_is_named_before_the_first_proof(self):
        for version, named in (("rattle-kit-12a logic 0123", "rattle-kit-12a logic 0123"), ("", "")):
            done = self.run_build(VERSION=version)
            self.assertEqual(done.returncode, 0)
            line = done.stderr.splitlines()[2]
            self.assertIn(f"`rt version` prints '{named}'", line)
            self.assertIn(build_program.KIT, line)
        self.assertNotIn("rt version", self.run_build().stderr)

    def test_the_pages_and_the_program_name_the_same_toolchain(self):
        for page in ("README.md", "crates/standard_error/src/texts.rt"):
            self.assertIn(build_program.KIT.split()[0], (HERE.parent / page).read_text(encoding="utf-8"))

    def test_the_announcement_comes_only_where_a_build_begins(self):
        self.assertIn("proving and building", self.run_build().stderr)
        self.rt.unlink()
        self.assertNotIn("proving", self.run_build(PATH=f"{self.room}/kit/bin").stderr)

    def test_who_keeps_nothing_is_told(self):
        # A file in the place of the toolchain's folder for what it keeps.
        (self.room / "rattle-kept").write_text("")
        done = self.run_build()
        self.assertEqual(done.returncode, 0, done.stderr)
        self.assertIn("what is proved is not kept", done.stderr)

    def start_slow(self):
        Path(f"{self.notes}.slow").unlink(missing_ok=True)
        child = subprocess.Popen(self.words, env={**self.about, "SLOW": "left"}, stderr=subprocess.PIPE, text=True)
        self.addCleanup(child.stderr.close)
        limit = time.monotonic() + 20
        while not Path(f"{self.notes}.slow").exists():
            self.assertLess(time.monotonic(), limit)
            time.sleep(0.05)
        return child

    def test_a_stopped_build_leaves_no_child_and_no_program(self):
        for number in (signal.SIGINT, signal.SIGTERM, signal.SIGHUP):
            child = self.start_slow()
            child.send_signal(number)
            said = child.stderr.read()
            self.assertEqual(child.wait(20), 130)
            self.assertIn("what is proved is kept", said)
            left = subprocess.run(["pgrep", "-f", f"{self.room}/kit/bin/rt"], capture_output=True, text=True)
            self.assertEqual(left.stdout, "")
            self.assertFalse(self.program.exists())

    def test_a_second_build_waits_and_says_so(self):
        first = self.start_slow()
        second = subprocess.Popen(self.words, env=self.about, stderr=subprocess.PIPE, text=True)
        self.addCleanup(second.stderr.close)
        self.assertIn("waiting for it", second.stderr.readline())
        first.send_signal(signal.SIGTERM)
        first.wait(20)
        self.assertEqual(second.wait(20), 0)

    def test_who_waited_for_a_build_has_its_program(self):
        """It builds by itself only where the other one gave none."""
        for was_built in (True, False):
            with contextlib.ExitStack() as stack:
                enter = stack.enter_context
                enter(contextlib.redirect_stderr(io.StringIO()))
                enter(mock.patch.dict(os.environ, {"XDG_CACHE_HOME": str(self.room / "cache")}))
                enter(mock.patch.object(build_program.fcntl, "flock", side_effect=[BlockingIOError, None]))
                enter(mock.patch.object(build_program.built_program, "was_put_since", return_value=was_built))
                builds = enter(mock.patch.object(build_program, "build", return_value=70))
                self.assertEqual(build_program.build_alone(self.top, "rt"), 0 if was_built else 70)
                self.assertEqual(builds.call_count, 0 if was_built else 1)

    def test_a_program_that_was_put_there_meanwhile(self):
        since = time.time() - 1
        self.assertFalse(build_program.built_program.was_put_since(self.top, since))
        self.run_build()
        self.assertTrue(build_program.built_program.was_put_since(self.top, since))
        self.assertFalse(build_program.built_program.was_put_since(self.top, time.time() + 1))


if __name__ == "__main__":
    unittest.main()
