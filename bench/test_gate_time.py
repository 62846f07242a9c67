#!/usr/bin/env python3
"""Tests of bench/gate_time.py over a command that is a few lines of shell.

    tools/test_gate_time.py
"""

import signal
import subprocess
import sys
import time
import unittest
from pathlib import Path

TOP = Path(__file__).resolve().parent.parent
PROGRAM = TOP / "bench" / "gate_time.py"


def running(command: str) -> bool:
    """Whether a process with this command line runs."""
    return subprocess.run(["pgrep", "-f", "-x", command], stdout=subprocess.DEVNULL).returncode == 0


class Times(unittest.TestCase):
    def test_the_status_and_the_output_are_the_commands(self):
        done = subprocess.run([sys.executable, "-B", PROGRAM, "sh", "-c", "echo said; exit 3"], capture_output=True, text=True, timeout=30)
        self.assertEqual(done.returncode, 3)
        self.assertTrue(done.stdout.startswith("said\n") or "\nsaid\n" in done.stdout)
        self.assertIn("minutes of processor time", done.stdout)

    def test_a_sigterm_ends_all_that_the_command_has_started(self):
        child = subprocess.Popen([sys.executable, "-B", PROGRAM, "sh", "-c", "sh -c 'sleep 7711 & sleep 7712' & sleep 7713"], stdout=subprocess.PIPE, text=True)
        self.addCleanup(child.stdout.close)
        sleeps = [f"sleep {number}" for number in (7711, 7712, 7713)]
        end = time.monotonic() + 20
        while not all(map(running, sleeps)) and time.monotonic() < end:
            time.sleep(0.05)
        time.sleep(1.5)  # it looks once a second
        child.send_signal(signal.SIGTERM)
        self.assertIn("elapsed: ", child.stdout.read())
        child.wait(20)
        while any(map(running, sleeps)) and time.monotonic() < end + 20:
            time.sleep(0.05)
        self.assertEqual([one for one in sleeps if running(one)], [])


if __name__ == "__main__":
    unittest.main()
