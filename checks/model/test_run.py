"""Tests of how the program is compared with the model: programs that are wrong are seen.

    python3 -m unittest checks.model.test_run
"""

import pathlib
import random
import tempfile
import unittest

from checks.model import listed, run
from checks.model.cases import decode_directed, drawn, kinds
from checks.model.cases.case import Case


class Runs(unittest.TestCase):
    def judged(self, text: str, case: Case) -> str | None:
        with tempfile.TemporaryDirectory() as folder:
            program = pathlib.Path(folder, "program")
            program.write_text(f"#!/bin/sh\n{text}\n")
            program.chmod(0o755)
            return run.judge(str(program), pathlib.Path(folder), case)[1]

    def test_programs(self):
        case = decode_directed.of_log("dcf", "an empty log", b"")
        self.assertIsNone(self.judged("echo status 0", case))
        for text in ("echo status 0; exit 1", "echo status 1", "echo; echo status 0", "true", "printf 'status 0'"):
            self.assertIsNotNone(self.judged(text, case), text)
        self.assertIn("line 1", self.judged("echo status 1", case))
        meant = case._replace(meant="dcf: rule 1 Spacing")
        self.assertIn("meant for", self.judged("echo status 0", meant))

    def test_a_case_hangs_on_its_number_alone(self):
        for draw in (drawn.decode_case, drawn.migrate_case):
            one, other = draw(random.Random("5")), draw(random.Random("5"))
            self.assertEqual((one.files, one.words), (other.files, other.words))
        self.assertEqual(sum(kinds.drawn(10000).values()), 10002)

    def test_each_rule_is_listed(self):
        rules = [name for name in listed.LISTED if ": rule " in name]
        self.assertEqual(len(rules), 18 + 16 + 11)
