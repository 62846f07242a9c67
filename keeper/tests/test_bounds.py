"""What has a bound: how much a disk takes, and what is waited for."""

import pathlib
import subprocess
import sys
import tempfile
import unittest
from unittest import mock

from keeper.supervisor import logs
from keeper.supervisor.logs import PulseLog
from keeper.supervisor.pulses import Pulse
from keeper.tests.fake_host import FakeHost

TERMINAL = """
import os, pty, signal, sys, time
pid, master = pty.fork()
if pid == 0:
    from keeper.supervisor.host import Host, take_signals
    host = Host()
    take_signals(host)
    os.write(1, b"begun")
    end = time.monotonic() + 10
    while time.monotonic() < end:
        host.wait([], 0.1)
        for number in host.signals():
            os._exit(number)
    os._exit(0)
while b"begun" not in os.read(master, 100):
    pass
if sys.argv[1] == "reload":
    os.kill(pid, signal.SIGHUP)
    time.sleep(0.5)
os.close(master)
print(os.waitstatus_to_exitcode(os.waitpid(pid, 0)[1]))
"""


class Made(unittest.TestCase):
    def setUp(self) -> None:
        folder = tempfile.TemporaryDirectory()
        self.addCleanup(folder.cleanup)
        self.folder = pathlib.Path(folder.name)
        self.host = FakeHost()
        self.addCleanup(self.host.close_all)


class OfDisks(Made):
    def test_a_log_of_a_day_has_a_bound(self) -> None:
        """Lines of the next day aren't held up by those that find no room."""
        log = PulseLog(self.host, str(self.folder), 0, "dcf", "b0070000")
        path = self.folder / log.name(self.host.realtime())
        with mock.patch.object(logs, "MOST", 40):
            for second in range(10):
                log.add([Pulse(second * 1_000_000 + 1, 100_000)])
                self.host.now += 2
                log.turn(self.host.now)
                log.turn(self.host.now)
            self.assertEqual(path.stat().st_size, 9 + 2 * 15)
            self.assertEqual(log.note.text, "the log of radio 0 can't be written: it has 0 MB of this "
                                       "day already, which is noise")
            log.add([Pulse(30_000_000, 100_000)])
            self.host.ahead += 86400
            log.add([Pulse(40_000_000, 100_000)])
            for _ in range(2):
                self.host.now += 2
                log.turn(self.host.now)
                log.turn(self.host.now)
        next_day = self.folder / log.name(self.host.realtime())
        self.assertEqual(next_day.read_bytes(), b"40000000 100000\n")
        self.assertEqual(path.stat().st_size, 9 + 2 * 15)
        self.assertEqual(logs.MOST, 32 << 20)


class OfTerminals(unittest.TestCase):
    def test_the_end_of_a_terminal_is_the_end_of_its_keeper(self) -> None:
        top = pathlib.Path(__file__).parent.parent.parent
        for how, due in (("close", "15"), ("reload", "1")):
            words = [sys.executable, "-B", "-c", TERMINAL, how]
            done = subprocess.run(words, cwd=top, capture_output=True, text=True, timeout=30)
            self.assertEqual((done.stdout.strip(), done.stderr), (due, ""), how)


if __name__ == "__main__":
    unittest.main()
