#!/usr/bin/env python3
"""Tests of entry_times.py: the UTC before each entry of a journal.

    tools/test_entry_times.py
"""

import os
import pathlib
import pty
import subprocess
import sys
import tempfile
import unittest

HERE = pathlib.Path(__file__).resolve().parent
from entry_times import with_times

# 2026-01-01 12:00 UTC is 3976257600 s after 1900-01-01 (docs/FORMATS.md counts so; `date` agrees).
NOON = 3_976_257_600
JOURNAL = (
    f"0 2003000 lone {NOON}\n"
    f"j2 2 0 0 62003000 verdict {NOON + 60} 0\n"
    "0 92504000 refused 10\n"
    "0 122003000 refused 2\n"
    "link 0 answered 2\n"
    "1 5 declined 3\n"
    "status 0\n"
)


class Times(unittest.TestCase):
    def test_each_entry_has_its_time(self):
        self.assertEqual(
            with_times(JOURNAL.splitlines(keepends=True)),
            [
                f"2026-01-01 12:00:00.000  0 2003000 lone {NOON}\n",
                f"2026-01-01 12:01:00.000  j2 2 0 0 62003000 verdict {NOON + 60} 0\n",
                "2026-01-01 12:01:30.501  0 92504000 refused 10\n",
                "2026-01-01 12:02:00.000  0 122003000 refused 2\n",
                "link 0 answered 2\n",
                "2026-01-01 11:59:57.997  1 5 declined 3\n",
                "status 0\n",
            ],
        )

    def test_the_second_is_that_of_the_calendar(self):
        line = f"0 5 verdict {NOON} 0\n"
        words = ["date", "-u", "-d", f"@{NOON - 2208988800}", "+%Y-%m-%d %H:%M:%S.000"]
        date = subprocess.run(words, capture_output=True, text=True)
        self.assertEqual(with_times([line]), [f"{date.stdout.strip()}  {line}"])

    def test_without_an_offset_only_a_named_second_has_a_time(self):
        no_time = "-" * 10 + " " + "-" * 12
        lines = ["0 5 refused 3\n", f"0 6 lone {NOON}\n", f"0 7 lone {'9' * 30}\n"]
        found = with_times(lines)
        times = [no_time, "2026-01-01 12:00:00.000", no_time]
        self.assertEqual([line[:23] for line in found], times)
        self.assertEqual([line[25:] for line in found], lines)

    def run_it(self, *words, said=""):
        tool = [sys.executable, "-B", HERE / "entry_times.py", *words]
        return subprocess.run(tool, input=said, capture_output=True, text=True, timeout=60)

    def test_of_a_pipe_and_of_files(self):
        piped = self.run_it(said=JOURNAL)
        self.assertEqual((piped.returncode, piped.stderr), (0, ""))
        self.assertEqual(len(piped.stdout.splitlines()), 7)
        with tempfile.NamedTemporaryFile("w") as file:
            file.write(JOURNAL)
            file.flush()
            self.assertEqual(self.run_it(file.name).stdout, piped.stdout)

    def test_what_is_not_there(self):
        done = self.run_it("/nosuch")
        said = "entry_times.py: /nosuch: No such file or directory\n"
        self.assertEqual((done.returncode, done.stderr), (1, said))

    def test_a_terminal_is_not_waited_for(self):
        near, far = pty.openpty()
        self.addCleanup(os.close, near)
        self.addCleanup(os.close, far)
        tool = [sys.executable, "-B", HERE / "entry_times.py"]
        done = subprocess.run(tool, stdin=far, capture_output=True, text=True, timeout=60)
        self.assertEqual((done.returncode, done.stdout), (2, ""))
        self.assertIn("say which journal", done.stderr)


if __name__ == "__main__":
    unittest.main()
