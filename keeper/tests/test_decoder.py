"""`decode` of a radio's pulses, by programs that stand in for it."""

import os
import tempfile
import unittest

from keeper.reporter.decoder import begun, closed, said

ECHO = """#!/bin/sh
echo "$@" >> "$0.words"
while read -r at width; do echo "0 $at verdict $width"; done
"""


class Decoded(unittest.TestCase):
    def setUp(self) -> None:
        folder = tempfile.TemporaryDirectory()
        self.addCleanup(folder.cleanup)
        self.program = os.path.join(folder.name, "program")

    def write(self, text: str) -> None:
        with open(self.program, "w", encoding="ascii") as file:
            file.write(text)
        os.chmod(self.program, 0o755)

    def test_lines_go_in_and_come_out(self) -> None:
        self.write(ECHO)
        self.assertEqual(said(begun(self.program, "msf", [(1, 2), (3, 4)])),
                         ["0 1 verdict 2", "0 3 verdict 4"])
        with open(self.program + ".words", encoding="ascii") as file:
            self.assertEqual(file.read(), "decode --plan msf --log /dev/stdin\n")

    def test_the_log_is_one_that_is_opened_by_its_name(self) -> None:
        self.write("#!/bin/sh\ncat /dev/stdin\n")
        self.assertEqual(said(begun(self.program, "msf", [(1, 2), (3, 4)])), ["1 2", "3 4"])

    def test_one_that_reads_nothing(self) -> None:
        self.write("#!/bin/sh\nexit 2\n")
        self.assertEqual(said(begun(self.program, "dcf", [(1, 2)] * 100_000)), [])

    def test_half_a_line_of_one_that_was_ended_is_none(self) -> None:
        self.write("#!/bin/sh\nprintf '0 1 lone 5\\n0 1 verd'\nexec sleep 60\n")
        child = begun(self.program, "dcf", [])
        assert child.stdout
        self.assertEqual(child.stdout.read(11), b"0 1 lone 5\n")
        child.kill()
        self.assertEqual(said(child), [])

    def test_one_that_is_not_there(self) -> None:
        with self.assertRaises(OSError):
            begun("/nosuch", "dcf", [(1, 2)])


class Closed(unittest.TestCase):
    def test_lines_of_minutes(self) -> None:
        """As docs/FORMATS.md has them."""
        for line, due in (("0 362003000 verdict 3976257900 0", (362003000, "verdict", 3976257900)),
                          ("0 2 lone 3976257900", (2, "lone", 3976257900)),
                          ("0 3 differs 3976257900 3976257960 60000000", (3, "differs", 3976257900)),
                          ("0 4 refused 2", (4, "refused", 2))):
            self.assertEqual(closed(line), due)

    def test_others(self) -> None:
        for line in ("", "status 0", "0 x verdict 1 0", "0 1 verdict -5 0", "0 1 refused",
                     "0 1 refused ²", f"0 {'9' * 20} refused 1", "0 1 sample 1 2", "0 1 verdict 1 x"):
            self.assertIsNone(closed(line))


if __name__ == "__main__":
    unittest.main()
