"""Sentences on what the program or the host says."""

import unittest

from keeper.errors import Fault, reason, sentence


class Sentences(unittest.TestCase):
    def test_what_the_program_says_last(self) -> None:
        for said, due in ((b"a note\nradio_ntpd: cannot open feed 0\n", "cannot open feed 0"),
                          (b"", ""), (b"\xff\n", "\ufffd")):
            self.assertEqual(reason(said), due)

    def test_what_the_host_refuses(self) -> None:
        self.assertEqual(sentence(FileNotFoundError(2, "No such file or directory", "/a")),
                         "/a: No such file or directory")
        self.assertEqual(sentence(OSError(12, "Cannot allocate memory")), "Cannot allocate memory")
        self.assertEqual(sentence(TimeoutError("timed out")), "timed out")

    def test_a_fault_has_the_status_of_a_host_that_refuses(self) -> None:
        self.assertEqual((Fault("x").status, Fault("x", 78).status), (71, 78))


if __name__ == "__main__":
    unittest.main()
