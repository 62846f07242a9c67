#!/usr/bin/env python3
"""checks/same_bytes.sh over programs and pages that are made here."""

import hashlib
import os
import subprocess
import tempfile
import unittest
from pathlib import Path

CHECK = Path(__file__).resolve().parent / "same_bytes.sh"


class SameBytes(unittest.TestCase):
    def setUp(self):
        folder = tempfile.TemporaryDirectory()
        self.addCleanup(folder.cleanup)
        self.program, self.page = (Path(folder.name, name) for name in ("program", "page"))
        self.program.write_bytes(b"abc")
        # FIPS 180-4's example has these three bytes.
        self.hash = "ba7816bf8f01cfea414140de5dae2223b00361a396177a9cb410ff61f20015ad"
        self.page.write_text(f"Before.\nIt is `{self.hash}`.\nAfter `{'0' * 40}`.\n")

    def run_check(self, *words):
        about = {**os.environ, "RADIO_NTPD": str(self.program), "PAGE": str(self.page)}
        done = subprocess.run([CHECK, *words], env=about, capture_output=True, text=True, check=False)
        return done.returncode, done.stdout + done.stderr

    def test_the_page_has_what_was_built(self):
        status, said = self.run_check()
        self.assertEqual(status, 0)
        self.assertIn(self.hash, said)

    def test_another_program_is_refused_and_written_where_that_is_asked_for(self):
        text = self.page.read_text()
        self.program.write_bytes(b"abd")
        status, said = self.run_check()
        self.assertEqual(status, 1)
        self.assertIn("checks/same_bytes.sh --write", said)
        self.assertEqual(self.page.read_text(), text)
        self.assertEqual(self.run_check("--write")[0], 0)
        self.assertEqual(self.page.read_text(), text.replace(self.hash, hashlib.sha256(b"abd").hexdigest()))
        self.assertEqual(self.run_check()[0], 0)

    def test_a_page_with_no_number_or_with_two_is_refused_and_left(self):
        for text in ("none\n", f"`{'0' * 64}` and `{self.hash}`\n"):
            self.page.write_text(text)
            for words in ((), ("--write",)):
                status, said = self.run_check(*words)
                self.assertEqual((status, self.page.read_text()), (1, text))
                self.assertIn("has to be the only one", said)

    def test_a_program_that_is_not_there(self):
        self.program.unlink()
        self.assertEqual(self.run_check()[0], 1)


if __name__ == "__main__":
    unittest.main()
