"""What the watchdog makes of answers that a server gives it, and of those that are missing."""

import struct
import unittest

from keeper.supervisor.host import Host
from keeper.supervisor.watchdog import Link, Watch

# A server's answer by RFC 5905, figure 8: no warning, version 4, mode 4; stratum 1; poll 6;
# precision -20; root delay 0, root dispersion 1/64 s, reference ID DCF.
HEAD = struct.pack(">BBBbII4s", 0x24, 1, 6, -20, 0, 1024, b"DCF\0")
NOW = 1_700_000_000.0
STAMP = int((NOW + 2208988800) * 2**32)


class Socket(Host):
    """One socket, on which `gives` comes to whatever is asked."""

    def __init__(self) -> None:
        self.asked, self.gives = b"", b""

    def client(self, own: str, port: int) -> int:
        return 5

    def write(self, descriptor: int, data: bytes) -> int:
        self.asked = data
        return len(data)

    def read(self, descriptor: int, most: int) -> bytes:
        if not self.gives:
            raise BlockingIOError
        return self.gives

    def close(self, descriptor: int) -> None:
        """It is none."""

    def realtime(self) -> float:
        return NOW


class Answers(unittest.TestCase):
    def setUp(self) -> None:
        self.host, self.link = Socket(), Link(123)
        self.watch = Watch(self.host, [self.link], ["127.0.0.1"])
        self.watch.turn(set(), 100.0)

    def answer(self, origin: bytes) -> None:
        """An answer with this origin timestamp comes a tenth of a second after the question."""
        self.host.gives = HEAD + bytes(8) + origin + struct.pack(">QQ", STAMP, STAMP)
        self.watch.turn({5}, 100.1)

    def test_the_answer_to_its_question_counts(self) -> None:
        self.answer(self.host.asked[40:48])
        self.assertEqual(self.link.answered_at, 100.1)
        self.assertTrue(self.watch.has_time())
        assert self.link.last is not None
        self.assertEqual(self.link.last.root_dispersion, 1 / 64)
        # Its time is that of the middle of the way, 0.05 s before it came.
        self.assertAlmostEqual(self.link.offset, 0.05, places=6)

    def test_an_answer_to_another_question_is_passed_over(self) -> None:
        for origin in (bytes(8), b"\xff" * 8, self.host.asked[40:47] + b"\0"):
            if origin != self.host.asked[40:48]:
                self.answer(origin)
                self.assertEqual((self.link.answered_at, self.link.last), (0.0, None))

    def test_three_questions_without_an_answer_and_it_is_deaf(self) -> None:
        now = 100.0
        for silent in range(1, 4):
            self.assertFalse(self.watch.is_deaf())
            for _ in range(15):  # of looks that aren't late
                now += 0.02
                self.watch.turn(set(), now)
            self.assertEqual(self.link.silent, silent)
        self.assertTrue(self.watch.is_deaf())

    def test_in_a_crowd_it_takes_ten(self) -> None:
        """A crowd: a hundred datagrams found no room within the last second."""
        for dropped, due in ((99, 3), (100, 10)):
            self.watch.dropped = [(100.0, 0), (100.5, dropped)]
            for silent in range(1, 12):
                self.link.silent = silent
                self.assertEqual(self.watch.is_deaf(), silent >= due, (dropped, silent))

    def test_patience_doubles_up_to_eight_times_and_is_gone_after_a_calm_minute(self) -> None:
        found = []
        for now in (200.0, 210.0, 220.0, 230.0, 240.0):
            self.watch.begin(now, was_deaf=True)
            found.append(self.watch.patience)
        self.assertEqual(found, [2.0, 4.0, 8.0, 8.0, 8.0])
        self.watch.turn(set(), 300.0)
        self.assertEqual(self.watch.patience, 8.0)
        self.watch.turn(set(), 300.1)
        self.assertEqual(self.watch.patience, 1.0)


if __name__ == "__main__":
    unittest.main()
