"""The pipe to a child: it never waits, and is cut off after whole lines alone."""

import os
import unittest

from keeper.supervisor.pipes import PIECE, Outlet
from keeper.tests.fake_host import FakeHost

LINE = b"50000000 100000\n"


class Outlets(unittest.TestCase):
    def setUp(self) -> None:
        self.reading, writing = os.pipe2(os.O_NONBLOCK | os.O_CLOEXEC)
        self.addCleanup(self.end, self.reading)
        self.outlet = Outlet(FakeHost(), writing, 1 << 18)
        self.addCleanup(self.close)

    def end(self, descriptor: int) -> None:
        if descriptor == self.reading:
            os.close(descriptor)
            self.reading = -1

    def close(self) -> None:
        if self.outlet.descriptor >= 0:
            self.outlet.close()

    def taken(self) -> bytes:
        """All that the pipe has."""
        pieces = []
        try:
            while piece := os.read(self.reading, 1 << 16):
                pieces.append(piece)
        except BlockingIOError:
            pass
        return b"".join(pieces)

    def test_lines_are_handed_on_at_once(self) -> None:
        self.outlet.give(LINE)
        self.outlet.give(LINE + LINE)
        self.assertEqual(self.taken(), LINE * 3)
        self.assertEqual(self.outlet.pending, b"")

    def test_a_full_pipe_has_whole_lines_and_the_rest_waits(self) -> None:
        given = LINE * 10_000
        self.outlet.give(given)
        first = self.taken()
        self.assertTrue(0 < len(first) < len(given))
        self.assertEqual(len(first) % len(LINE), 0)
        self.assertFalse(self.outlet.is_broken)
        parts = [first]
        while self.outlet.pending:
            self.outlet.push()
            parts.append(self.taken())
        self.assertEqual(b"".join(parts), given)

    def test_a_reader_that_takes_nothing_is_broken_once_too_much_waits(self) -> None:
        self.outlet.give(LINE * 10_000)
        self.assertFalse(self.outlet.is_broken)
        self.outlet.give(LINE * 20_000)
        self.assertTrue(self.outlet.is_broken)
        waits = len(self.outlet.pending)
        self.outlet.give(LINE)
        self.assertEqual(len(self.outlet.pending), waits)

    def test_a_reader_that_has_gone_is_broken(self) -> None:
        self.end(self.reading)
        self.outlet.give(LINE)
        self.assertTrue(self.outlet.is_broken)

    def test_a_line_that_no_pipe_takes_whole_is_cut(self) -> None:
        line = b"x" * (PIECE + 5) + b"\n"
        self.outlet.give(line)
        self.assertEqual(self.taken(), line)

    def test_a_closed_one_takes_nothing(self) -> None:
        self.outlet.close()
        self.outlet.give(LINE)
        self.assertEqual((self.outlet.pending, self.outlet.is_broken), (b"", False))
        self.assertEqual(os.read(self.reading, 1), b"")


if __name__ == "__main__":
    unittest.main()
