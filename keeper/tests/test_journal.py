"""What a journal says of servers and of the leap second file."""

import os
import tempfile
import unittest

from keeper.reporter.journal import expiry, read_journal
from keeper.reporter.state import LeapFileState, ServerState, State

JOURNAL = """\
j2 1 0 1 1010000 sample 17077897383243199545 40802189 8837 2 7f000001 256 512
j2 2 0 1 1010001 declined 3
j2 3 0 0 362003000 verdict 3976257900 0
j2 4 0 2 1000000 notice 3644697600
j2 5 0 2 1000000 notice 3692217600
j2 6 0 1 x sample
j2 7 0 9 1000000 notice 1
j2 8 0 1 5 sample 1
j2 9 0 1 1010002 sample 1 {huge} 8837 2
j2 10 0 2 1 notice {huge}
link 0 answered 2 dropped 0 again 0 kissed 0 unkept 0 end count
status 0
""".format(huge="9" * 400)


class Folder(unittest.TestCase):
    def setUp(self) -> None:
        folder = tempfile.TemporaryDirectory()
        self.addCleanup(folder.cleanup)
        self.path = os.path.join(folder.name, "one")

    def write(self, text: str) -> str:
        with open(self.path, "w", encoding="ascii") as file:
            file.write(text)
        return self.path


class Journals(Folder):
    def test_servers_and_notices(self) -> None:
        server = ServerState(number=1, address="127.0.0.1", samples=9, declined={"1": 1})
        leap = LeapFileState(number=2, notices=5)
        # docs/PROTOCOL.md: the counter began about 2026-01-01 12:04:00, Unix second 1767269040.
        read_journal(self.write(JOURNAL), State(servers=[server], leap_file=leap), 1767269040.0)
        self.assertEqual((server.samples, server.declined, server.stratum, server.sample_at),
                         (1, {"3": 1}, 2, 1767269041.01))
        # 17077897383243199545 / 2^32 - 2208988800 is 1767269039.99625 s.
        self.assertAlmostEqual(server.offset, 17077897383243199545 / 2**32 - 3976257840, places=6)
        self.assertAlmostEqual(server.delay, 0.0095, places=6)
        # The list's second row is 2017-01-01, Unix second 1483228800.
        self.assertEqual((leap.notices, leap.last), (2, 1483228800.0))

    def test_of_a_long_one_the_end_is_read(self) -> None:
        server = ServerState(number=1)
        entry = "j2 {} 0 1 1000000 declined {}\n"
        lines = [entry.format(number, 4 if number else 5) for number in range(60_000)]
        read_journal(self.write("".join(lines)), State(servers=[server]), 0.0)
        (kind, count), = server.declined.items()
        self.assertEqual(kind, "4")
        self.assertLess(abs(count - (1 << 20) / 30), 3000)


class Lists(Folder):
    def test_the_end_of_a_list(self) -> None:
        path = self.write("#$ 3676924800\n#@\t3928521600\n3692217600 37 # 1 Jan 2017\n")
        self.assertEqual(expiry(path), 1719532800.0)  # 2024-06-28
        self.assertEqual(expiry(path + "x"), 0.0)
        for odd in ("#@\n", "#@ x\n", "#@ 99999999999\n", "", "#@" * 99_999):
            self.assertEqual(expiry(self.write(odd)), 0.0)

    def test_a_fifo_is_not_waited_for(self) -> None:
        os.mkfifo(self.path)
        self.assertEqual(expiry(self.path), 0.0)
        both = os.open(self.path, os.O_RDWR)
        self.addCleanup(os.close, both)
        self.assertEqual(expiry(self.path), 0.0)


if __name__ == "__main__":
    unittest.main()
