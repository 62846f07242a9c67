"""What a radio is compared with, by made-up servers."""

import contextlib
import socket
import struct
import threading
import time
import unittest
from unittest import mock

from keeper.reference import Exchange, Server

EPOCH = 2208988800


class FakeServer:
    """A server whose clock is a number of seconds ahead. Every second answer isn't ours."""

    def __init__(self, ahead: float, first: int = 0x24) -> None:
        self.ahead, self.first = ahead, first
        self.socket = socket.socket(socket.AF_INET, socket.SOCK_DGRAM)
        self.socket.bind(("127.0.0.1", 0))
        self.socket.settimeout(5)
        self.port = self.socket.getsockname()[1]
        self.thread = threading.Thread(target=self.serve, daemon=True)
        self.thread.start()

    def serve(self) -> None:
        with contextlib.suppress(OSError):
            while True:
                question, whom = self.socket.recvfrom(1024)
                now = int((time.time() + EPOCH + self.ahead) * 2**32) % 2**64
                (origin,) = struct.unpack(">Q", question[40:48])
                for word, now in ((origin ^ 1, now + 2**36), (origin, now)):
                    said = struct.pack(">BBBbII4sQQQQ", self.first, 1, 6, -20, 0, 0, b"DCF\0", now,
                                       word, now, now)
                    self.socket.sendto(said, whom)

    def close(self) -> None:
        self.socket.close()
        self.thread.join()


class Servers(unittest.TestCase):
    def test_its_offset(self):
        fake = FakeServer(0.25)
        server = Server("127.0.0.1", fake.port, 0.01)
        try:
            end = time.monotonic() + 5
            while len(server.found) < 3 and time.monotonic() < end:
                server.turn(time.monotonic())
                time.sleep(0.001)
            self.assertAlmostEqual(server.offset_at(time.time()), 0.25, delta=0.05)
            self.assertTrue(all(abs(one.offset - 0.25) < 1.0 for one in server.found))
            self.assertRegex(server.words(), "[0-9]+ exchanges, the best of [0-9.]+ ms there and")
        finally:
            server.socket.close()
            fake.socket.sendto(b"", ("127.0.0.1", fake.port))
            fake.close()

    def test_what_a_server_takes_to_answer_is_no_delay(self):
        """By RFC 5905, section 8: T1 = 0, T2 = 3.2, T3 = 3.7, T4 = 1.1 by the two clocks."""
        began, stamps = 1_700_000_000.0, []

        class Answering:
            def send(self, data):
                stamps.append(data[40:48])

            def settimeout(self, seconds):
                pass

            def recv(self, most):
                times = [int((began + EPOCH + one) * 2**32) for one in (3.2, 3.7)]
                return struct.pack(">BBBbII4sQ8sQQ", 0x24, 1, 6, -20, 0, 0, b"DCF\0", 0, stamps[0],
                                   *times)

        server = Server.__new__(Server)
        server.socket = Answering()
        with mock.patch("time.time", side_effect=[began, began + 1.1]):
            found = server._ask()
        self.assertAlmostEqual(found.delay, 0.6, places=5)
        self.assertAlmostEqual(found.offset, 2.9, places=5)
        self.assertEqual(found.at, began + 1.1)

    def test_one_without_a_time(self):
        """RFC 5905: leap indicator 3 says that it isn't synchronised."""
        fake = FakeServer(0.25, 0xE4)
        server = Server("127.0.0.1", fake.port, 0.01)
        server.turn(1.0)
        server.turn(1.005)
        self.assertEqual((server.words(), server.offset_at(0.0)),
                         ("it never answered with a time (1 refusals)", None))
        server.socket.close()
        fake.socket.sendto(b"", ("127.0.0.1", fake.port))
        fake.close()

    def test_a_silent_one_is_waited_for_a_second(self):
        with socket.socket(socket.AF_INET, socket.SOCK_DGRAM) as other:
            other.bind(("127.0.0.1", 0))
            server = Server("127.0.0.1", other.getsockname()[1], 16)
            began = time.monotonic()
            server.turn(began)
            self.assertAlmostEqual(time.monotonic() - began, 1.0, delta=0.5)
            server.turn(began + 15.9)
            self.assertEqual(server.refused, 1)
            server.socket.close()

    def test_the_best_of_the_nearest_counts(self):
        """Of the five nearest exchanges the one that took least."""
        server = Server("127.0.0.1", 9, 16)
        server.found = [Exchange(60.0 * one, float(one), 0.1 - 0.01 * one) for one in range(8)]
        self.assertEqual([server.offset_at(at) for at in (0.0, 240.0, 9e9)], [4.0, 6.0, 7.0])
        self.assertEqual(server.words(), "8 exchanges, the best of 30.00 ms there and back: its "
                                         "time is known within 15.00 ms")
        server.socket.close()

    def test_one_that_is_not_there(self):
        with socket.socket(socket.AF_INET, socket.SOCK_DGRAM) as other:
            other.bind(("127.0.0.1", 0))
            port = other.getsockname()[1]
        server = Server("127.0.0.1", port, 0.01)
        for _ in range(5):
            server.turn(time.monotonic())
            time.sleep(0.02)
        self.assertIsNone(server.offset_at(0.0))
        self.assertIn("never answered", server.words())
        server.socket.close()


if __name__ == "__main__":
    unittest.main()
