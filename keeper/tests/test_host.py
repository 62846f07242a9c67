"""The host itself: what a child is given, and what a socket lost."""

import os
import socket
import unittest
from unittest import mock

from keeper.supervisor.host import Host


class Hosts(unittest.TestCase):
    def setUp(self) -> None:
        self.host = Host()

    def test_a_childs_environment_goes_before_ours(self) -> None:
        ours, theirs = self.host.inlet()
        self.addCleanup(self.host.close, ours)
        with mock.patch.dict(os.environ, {"RADIO_EVENT": "ours", "RADIO_TEXT": "kept"}):
            child = self.host.spawn(["/bin/sh", "-c", 'echo "$RADIO_EVENT $RADIO_TEXT"'],
                                    standard=(-1, theirs, 2), environment={"RADIO_EVENT": "its"})
        self.host.close(theirs)
        self.addCleanup(self.host.release, child)
        while ours not in self.host.wait([ours], 10.0):
            pass
        self.assertEqual(self.host.read(ours, 100), b"its kept\n")

    def test_datagrams_that_find_no_room_are_counted(self) -> None:
        link = self.host.bind("127.0.0.1", 0)
        self.addCleanup(self.host.close, link)
        port = self.host.port_of(link)
        self.assertEqual(self.host.queue(link), (0, 0))
        with socket.socket(fileno=os.dup(link)) as own:
            own.setsockopt(socket.SOL_SOCKET, socket.SO_RCVBUF, 4096)
        with socket.socket(socket.AF_INET, socket.SOCK_DGRAM) as sender:
            for _ in range(200):
                sender.sendto(bytes(48), ("127.0.0.1", port))
        waits, dropped = self.host.queue(link)
        self.assertGreater(waits, 0)
        os.set_blocking(link, False)
        received = 0
        try:
            while os.read(link, 100):
                received += 1
        except BlockingIOError:
            pass
        self.assertEqual(received + dropped, 200)
        self.assertGreater(dropped, 0)


if __name__ == "__main__":
    unittest.main()
