"""Tests of lanes.py over checks that are a few lines of shell.

    python3 -m unittest checks.test_lanes
"""

import contextlib
import io
import os
import re
import tempfile
import threading
import time
import unittest
from pathlib import Path

from checks import lanes


class Checks(unittest.TestCase):
    def setUp(self):
        folder = tempfile.TemporaryDirectory()
        self.addCleanup(folder.cleanup)
        self.top = Path(folder.name)

    def put(self, name: str, text: str) -> None:
        path = self.top / name
        path.write_text(f"#!/bin/sh\n{text}\n")
        path.chmod(0o755)

    def run_lanes(self, *given: tuple[str, ...]) -> tuple[bool, str]:
        out = io.StringIO()
        with contextlib.redirect_stdout(out):
            passed = lanes.Lanes(self.top).run(given)
        return passed, out.getvalue()

    def test_each_is_run_with_its_arguments_and_its_time_is_printed(self):
        self.put("one", "echo one $*")
        self.put("two", "echo two >&2")
        passed, said = self.run_lanes(("./one 3 4", "./two"), ("./one",))
        self.assertTrue(passed)
        self.assertEqual(len(re.findall(r"== step: \./one 3 4\none 3 4\n== step took 0 s: \./one 3 4\n", said)), 1)
        self.assertIn("== step: ./two\ntwo\n== step took", said)
        self.assertEqual(said.count("== step: "), 3)

    def test_a_check_does_not_wait_for_an_input(self):
        """Here the input is a pipe that nobody writes into for ten seconds."""
        reading, writing = os.pipe()
        before = os.dup(0)
        os.dup2(reading, 0)
        close = threading.Timer(10, os.close, (writing,))
        close.start()
        try:
            self.put("reads", "cat; echo ended")
            began = time.monotonic()
            passed, said = self.run_lanes(("./reads",))
            self.assertLess(time.monotonic() - began, 9)
            self.assertTrue(passed)
            self.assertIn("ended", said)
        finally:
            os.dup2(before, 0)
            close.cancel()
            for one in (before, reading, writing):
                with contextlib.suppress(OSError):
                    os.close(one)

    def test_lanes_run_side_by_side(self):
        self.put("first", "mkdir a; while [ ! -e b ]; do sleep 0.05; done")
        self.put("second", "mkdir b; while [ ! -e a ]; do sleep 0.05; done")
        self.assertTrue(self.run_lanes(("./first",), ("./second",))[0])

    def test_the_first_that_fails_ends_all(self):
        self.put("bad", "sleep 0.3; echo no; exit 3")
        self.put("slow", 'trap "touch ended; exit 1" TERM; sleep 30 & wait')
        self.put("next", "touch begun")
        began = time.monotonic()
        passed, said = self.run_lanes(("./bad", "./next"), ("./slow", "./next"))
        self.assertFalse(passed)
        self.assertLess(time.monotonic() - began, 10)
        self.assertEqual(said, "== step: ./bad\nno\n== step failed with status 3 after 0 s: ./bad\n")
        self.assertEqual([(self.top / name).exists() for name in ("ended", "begun")], [True, False])

    def test_the_gate_runs_each_check_of_this_folder_that_is_short(self):
        """What is left out is said on docs/TESTING.md to be outside the gate, or serves other checks."""
        run = {Path(check.split()[0]).name for lane in lanes.LANES for check in lane}
        there = {path.name for path in (lanes.TOP / "checks").glob("*.sh")}
        outside = {"arm64.sh", "attacks.sh", "evening.sh", "faces.sh", "followed.sh", "package.sh", "refuse-allocations.sh", "same_package.sh", "soak.sh",
                   "units.sh"}
        self.assertEqual(there - run, outside | {"booted.sh", "emulation.sh", "serving.sh", "port_123.sh"})
        page = (lanes.TOP / "docs/TESTING.md").read_text()
        for name in outside:
            self.assertIn(name, page)

