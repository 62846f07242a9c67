"""Tests of lab/client.py over a server in a thread.

    python3 -m unittest lab.test_client
"""

import threading
import time
import unittest

from lab import client
from lab.packets import reply, stamp

BASE = 1767268800.25  # UTC less the monotonic clock of the server


class Asking(unittest.TestCase):
    def serve(self, count: int, make) -> int:
        """Answers as many requests; the port."""
        link = client.socket_on()
        link.settimeout(5)
        self.addCleanup(link.close)

        def run() -> None:
            for _ in range(count):
                datagram, who = link.recvfrom(100)
                link.sendto(make(datagram), who)

        threading.Thread(target=run, daemon=True).start()
        return link.getsockname()[1]

    def test_an_answer(self):
        now = stamp(BASE)
        answer = client.ask(self.serve(1, lambda asked: reply(asked, now, now, b"DCF")), 5)
        assert answer
        self.assertEqual((answer.what, answer.has_time, answer.dispersion), ((0, 1, "DCF"), True, 64 / 65536))
        self.assertLess(answer.left, answer.came)

    def test_none_and_one_to_another_request(self):
        self.assertIsNone(client.ask(client.free_port(), 0.1))
        self.assertIsNone(client.ask(self.serve(1, lambda asked: reply(asked, 0, 0, origin=7)), 5))

    def test_the_offset(self):
        def make(asked: bytes) -> bytes:
            now = stamp(BASE + time.monotonic() + 0.125)
            return reply(asked, now, now)

        self.assertAlmostEqual(client.offset(self.serve(50, make), BASE, 50), 0.125, delta=0.02)

    def test_ports(self):
        port = client.free_port()
        self.assertTrue(20000 <= port < 32000)
        with client.socket_on(port=port):
            self.assertFalse(client.is_free(port))
        self.assertTrue(client.is_free(port))
