"""Tests of lab/unread.py.

    python3 -m unittest lab.test_unread
"""

import socket
import subprocess
import sys
import time
import unittest

from lab.unread import longest, taken


class Looks(unittest.TestCase):
    def test_the_longest_span_in_which_none_is_read(self) -> None:
        looks = [(0.0, 5, 0), (0.001, 5, 0), (0.002, 9, 0), (0.003, 9, 4), (0.004, 9, 8), (0.005, 9, 9), (0.006, 10, 9)]
        most, count = longest(iter(looks))
        self.assertAlmostEqual(most, 0.003)
        self.assertEqual(count, 9)

    def test_where_none_is_dropped_nothing_waits(self) -> None:
        self.assertEqual(longest(iter([(0.0, 5, 7), (0.004, 5, 7), (0.008, 5, 7)])), (0.0, 0))

    def test_a_late_look_says_nothing(self) -> None:
        self.assertEqual(longest(iter([(0.0, 5, 0), (1.0, 5, 9), (1.001, 6, 9)])), (0.0, 9))


class Read(unittest.TestCase):
    def test_what_is_read_is_counted(self) -> None:
        with socket.socket(socket.AF_INET, socket.SOCK_DGRAM) as one:
            one.bind(("127.0.0.1", 0))
            one.sendto(b"x", one.getsockname())
            before = taken()
            one.recv(9)
            self.assertGreater(taken(), before)

    def test_a_socket_that_nobody_reads(self) -> None:
        with socket.socket(socket.AF_INET, socket.SOCK_DGRAM) as one, socket.socket(socket.AF_INET, socket.SOCK_DGRAM) as out:
            one.bind(("127.0.0.1", 0))
            port = one.getsockname()[1]
            words = [sys.executable, "-B", "-m", "lab.unread", str(port)]
            with subprocess.Popen(words, stdin=subprocess.PIPE, stdout=subprocess.PIPE, text=True) as looks:
                time.sleep(0.5)
                for _ in range(5000):
                    out.sendto(bytes(48), ("127.0.0.1", port))
                said, _ = looks.communicate()
            self.assertRegex(said, r'^\{"unread": [\d.]+, "dropped": [1-9]\d*\}$')


if __name__ == "__main__":
    unittest.main()
