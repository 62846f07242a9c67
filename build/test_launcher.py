#!/usr/bin/env python3
"""Tests of the launcher ./radio_ntpd over a build that only notes that it was asked for: python3 -B build/test_launcher.py"""

import os
import shutil
import subprocess
import tempfile
import time
import unittest
from pathlib import Path

TOP = Path(__file__).resolve().parent.parent
# Prints each of its arguments in a line of its own, and ends with 5.
PROGRAM = """#!/bin/sh
for one; do printf '<%s>\\n' "$one"; done
exit 5
"""
# Stands in the place of build/build_program.py: makes the program unless it is to fail. Where a source changes meanwhile the program is
# older, as the real one makes it.
BUILD = """import os, pathlib, shutil, sys, time
top = pathlib.Path(__file__).resolve().parent.parent
with open(top / "builds", "a") as notes:
    notes.write("built\\n")
if os.environ.get("BUILD_FAILS"):
    sys.exit(int(os.environ["BUILD_FAILS"]))
(top / "crates/radio_ntpd/out").mkdir(exist_ok=True)
shutil.copy(top / "made", top / "crates/radio_ntpd/out/radio_ntpd")
if os.environ.get("CHANGES"):
    since = time.time() - 5
    os.utime(top / "crates/radio_ntpd/out/radio_ntpd", (since, since))
    (top / os.environ["CHANGES"]).write_text("//! A crate that was changed meanwhile.\\n")
"""


class Launches(unittest.TestCase):
    def setUp(self):
        self.top = Path(tempfile.mkdtemp()) / "a place"
        self.addCleanup(shutil.rmtree, self.top.parent)
        for name in ("radio_ntpd", "low", "some_tests"):
            (self.top / "crates" / name / "src").mkdir(parents=True)
            (self.top / "crates" / name / "src" / "lib.rt").write_text("//! A crate.\n")
        (self.top / "crates.txt").write_text("low:\nradio_ntpd: low\nsome_tests: low\n")
        (self.top / "README.md").write_text("A page.\n")
        (self.top / "build").mkdir()
        (self.top / "build" / "build_program.py").write_text(BUILD)
        (self.top / "made").write_text(PROGRAM)
        (self.top / "made").chmod(0o755)
        shutil.copy(TOP / "radio_ntpd", self.top)
        for file in self.top.rglob("*"):
            self.is_made(file, 1000)
        self.program = self.top / "crates/radio_ntpd/out/radio_ntpd"

    def is_made(self, file: Path, ago: float) -> None:
        """Has a file as old as this number of seconds."""
        then = time.time() - ago
        os.utime(file, (then, then))

    def run_it(self, *words: str, **more: str) -> tuple[int, str]:
        done = subprocess.run([self.top / "radio_ntpd", *words], env={**os.environ, **more}, stdin=subprocess.DEVNULL, capture_output=True, text=True, timeout=60)
        return done.returncode, done.stdout

    def builds(self) -> int:
        notes = self.top / "builds"
        return len(notes.read_text().splitlines()) if notes.exists() else 0

    def test_arguments_and_status_are_handed_on_as_they_are(self):
        words = ("decode", "--log", "two words", "", "*", "a\nb", "$HOME", "--", "\\n")
        self.assertEqual(self.run_it(*words), (5, "".join(f"<{one}>\n" for one in words)))
        self.assertEqual(self.run_it(), (5, ""))
        self.assertEqual(self.builds(), 1)

    def test_it_is_built_again_where_a_source_is_newer(self):
        self.run_it()
        for file, builds in (("crates/low/src/lib.rt", 1), ("crates.txt", 1), ("crates/radio_ntpd/src/lib.rt", 1), ("crates/some_tests/src/lib.rt", 0), ("README.md", 0)):
            with self.subTest(file=file):
                self.is_made(self.program, 500)
                before = self.builds()
                self.run_it()
                self.assertEqual(self.builds(), before)
                self.is_made(self.top / file, 100)
                self.run_it()
                self.assertEqual(self.builds(), before + builds)
                self.is_made(self.top / file, 1000)

    def test_a_source_that_changes_while_it_is_built(self):
        self.run_it(CHANGES="crates/low/src/lib.rt")
        self.assertEqual(self.builds(), 1)
        self.run_it()
        self.assertEqual(self.builds(), 2)
        self.run_it()
        self.assertEqual(self.builds(), 2)

    def test_by_a_link(self):
        self.run_it()
        (self.top.parent / "bin").mkdir()
        (self.top.parent / "bin" / "ntp").symlink_to("../a place/radio_ntpd")
        done = subprocess.run([self.top.parent / "bin" / "ntp", "drill"], capture_output=True, text=True, timeout=60)
        self.assertEqual((done.returncode, done.stdout, done.stderr), (5, "<drill>\n", ""))

    def test_a_program_is_not_run_that_its_sources_no_longer_give(self):
        self.run_it()
        self.is_made(self.program, 500)
        self.is_made(self.top / "crates/low/src/lib.rt", 100)
        for _ in range(2):
            self.assertEqual(self.run_it("drill", BUILD_FAILS="70"), (70, ""))
        self.assertEqual(self.run_it("drill"), (5, "<drill>\n"))
        self.assertEqual(self.builds(), 4)


class Gates(unittest.TestCase):
    def test_without_a_toolchain_the_gate_says_so(self):
        """Its shell and what it calls are there, and `rt` is not."""
        with tempfile.TemporaryDirectory() as folder:
            for name in ("sh", "dirname", "date", "basename"):
                Path(folder, name).symlink_to(shutil.which(name) or name)
            done = subprocess.run([TOP / ".ci/run"], capture_output=True, text=True, timeout=60, env={"PATH": folder})
        self.assertEqual((done.returncode, done.stdout), (69, ""))
        self.assertEqual(len(done.stderr.splitlines()), 1)
        self.assertIn("rt is not on PATH", done.stderr)


if __name__ == "__main__":
    unittest.main()
