#!/usr/bin/env python3
"""Tests of chrony_sock.py: over a socket of our own, and with a chronyd that touches no clock where one is installed.

    feeders/test_chrony_sock.py
"""

import os
import pathlib
import shutil
import signal
import socket
import struct
import subprocess
import tempfile
import time
import unittest

HERE = pathlib.Path(__file__).parent
os.environ["PATH"] += ":/usr/sbin:/sbin"

from chrony_sock import SAMPLES, Bridge, Clocks, Verdict, read_verdict

# 2026-01-01 12:00 UTC, in seconds since 1900 and since 1970.
NOON = 3_976_257_600
NOON_UNIX = 1_767_268_800
CONF = """\
refclock SOCK {folder}/radio.sock refid DCF poll 0 filter 1 precision 1e-3 delay 0.01
port 0
cmdport 0
bindcmdaddress {folder}/cmd
pidfile {folder}/pid
"""


class Lines(unittest.TestCase):
    def test_verdicts_alone(self):
        self.assertEqual(read_verdict("0 62000000 verdict 3976257660 0\n"), Verdict(62_000_000, 3_976_257_660, 0))
        for line in ("0 62000000 lone 3976257660\n", "0 62000000 refused 3\n", "0 62000000 differs 1 2 60000000\n", "status 0\n", "0 62000000 verdict 39762", "j2 1 0 0 62000000 verdict 3976257660 0\n", "\n"):
            with self.subTest(line=line):
                self.assertIsNone(read_verdict(line))


class Samples(unittest.TestCase):
    """What goes to the socket, on clocks of our own: the system's one shows 12:00:00.75 when the monotonic one shows 100.2 s."""

    def setUp(self):
        self.folder = tempfile.TemporaryDirectory()
        self.addCleanup(self.folder.cleanup)
        self.path = os.path.join(self.folder.name, "radio.sock")
        self.said = []
        self.chrony = None
        self.asleep = 7_000_000_000  # for how long the host has slept before

    def listen(self):
        self.chrony = socket.socket(socket.AF_UNIX, socket.SOCK_DGRAM)
        self.addCleanup(self.chrony.close)
        self.chrony.bind(self.path)
        self.chrony.settimeout(5)

    def bridge(self, delay=0, fresh=5.0):
        clocks = Clocks(lambda: 100_200_000_000, lambda: NOON_UNIX * 10**9 + 750_000_000, lambda: 100_200_000_000 + self.asleep)
        return Bridge(self.path, delay, fresh, clocks, self.said.append)

    def received(self):
        """A sample by chrony's description of it: seconds and microseconds, a double, and four ints of 4 bytes, 40 bytes in all."""
        text = self.chrony.recv(100)
        self.assertEqual(len(text), 40)
        return struct.unpack("<qqdiiii", text)

    def test_a_host_of_32_bits(self):
        """Its timeval has 8 bytes, and 16 where its time_t has 64 bits; chronyd takes no sample of another length than its own."""
        self.assertEqual([SAMPLES[size].size for size in (4, 8)], [4 + 4 + 8 + 4 * 4, 8 + 8 + 8 + 4 * 4])

    def test_a_sample(self):
        """The minute began 200 ms ago by the counter, when the system showed 12:00:00.55: that is 0.55 s fast."""
        self.listen()
        self.assertTrue(self.bridge().line(f"0 100000000 verdict {NOON} 0\n"))
        seconds, part, offset, pulse, leap, _, magic = self.received()
        self.assertEqual((seconds, part, pulse, leap, magic), (NOON_UNIX, 550_000, 0, 0, 0x534F434B))
        self.assertAlmostEqual(offset, -0.55, places=9)

    def test_a_delay(self):
        self.listen()
        self.bridge(delay=50_000).line(f"0 100000000 verdict {NOON} 0\n")
        seconds, part, offset, *_ = self.received()
        self.assertEqual((seconds, part), (NOON_UNIX, 500_000))
        self.assertAlmostEqual(offset, -0.5, places=9)

    def test_a_leap_second(self):
        """It is announced from a day before it on."""
        self.listen()
        for ahead, leap in ((60, 1), (86_400, 1), (86_460, 0), (0, 0), (-60, 0)):
            with self.subTest(ahead=ahead):
                self.bridge().line(f"0 100000000 verdict {NOON} {NOON + ahead}\n")
                self.assertEqual(self.received()[4], leap)

    def test_what_is_old_or_to_come(self):
        self.listen()
        self.chrony.settimeout(0.1)
        bridge = self.bridge()
        for at in (95_199_000, 0, 100_200_001):
            self.assertFalse(bridge.line(f"0 {at} verdict {NOON} 0\n"))
        self.assertRaises(TimeoutError, self.chrony.recv, 100)
        self.assertEqual(len(self.said), 1)
        self.assertTrue(bridge.line(f"0 95200000 verdict {NOON} 0\n"))

    def test_a_host_that_slept(self):
        """The monotonic clock stood still and the system's went on, so a sample would be off by as long as the host slept."""
        self.listen()
        bridge = self.bridge()
        line = f"0 100000000 verdict {NOON} 0\n"
        self.assertTrue(bridge.line(line))
        self.received()
        self.asleep += 10_000_000
        self.chrony.settimeout(0.1)
        self.assertFalse(bridge.line(line))
        self.assertRaises(TimeoutError, self.chrony.recv, 100)
        self.assertEqual(self.said, ["the host slept: a verdict is passed over"])
        # The next one is of after that, and two clocks are never read at quite the same moment.
        self.asleep += 9_999_999
        self.assertTrue(bridge.line(line))
        self.assertEqual(self.said[1:], [f"{self.path} takes samples"])

    def test_a_host_that_slept_before_the_first_verdict(self):
        bridge = self.bridge()
        self.asleep += 10_000_000
        self.assertFalse(bridge.line(f"0 100000000 verdict {NOON} 0\n"))
        self.assertEqual(self.said, ["the host slept: a verdict is passed over"])

    def test_a_chronyd_that_comes_and_goes(self):
        bridge = self.bridge()
        line = f"0 100000000 verdict {NOON} 0\n"
        self.assertEqual([bridge.line(line), bridge.line(line)], [False, False])
        self.assertEqual(self.said, [f"{self.path} takes no sample: No such file or directory"])
        self.listen()
        self.assertTrue(bridge.line(line))
        self.assertEqual(self.said[1:], [f"{self.path} takes samples"])
        self.chrony.close()
        self.assertFalse(bridge.line(line))
        self.assertEqual(self.said[2:], [f"{self.path} takes no sample: Connection refused"])

    def test_a_socket_that_is_full(self):
        """A chronyd that is stopped takes no samples, and the bridge doesn't wait for it."""
        self.listen()
        bridge = self.bridge()
        for _ in range(1000):
            if not bridge.line(f"0 100000000 verdict {NOON} 0\n"):
                break
        self.assertEqual(len(self.said), 1)


class Ends(unittest.TestCase):
    def run_it(self, text, *words):
        done = subprocess.run([HERE / "chrony_sock.py", *words], input=text, capture_output=True, timeout=60)
        return done.returncode, done.stderr.decode()

    def test_statuses(self):
        self.assertEqual(self.run_it(b"status 0\n", "/nosuch"), (0, ""))
        self.assertEqual(self.run_it(b"status 5 line 0 7\n", "/nosuch"), (5, "decode ended with status 5 line 0 7\n"))
        self.assertEqual(self.run_it(b"0 5 lone 7\n\xff\n", "/nosuch"), (1, "decode ended without its status line\n"))
        log = "this is a pulse log: put `radio_ntpd decode --plan PLAN --log /dev/stdin |` before this program\n"
        self.assertEqual(self.run_it(b"1000000 100000\n2000000 200000\n", "/nosuch"), (1, log))
        self.assertEqual(self.run_it(b"")[0], 2)

    def test_the_delay_that_was_asked_for(self):
        """A minute that began a second ago by its log began 50 ms before that, where the signal was 50 ms under way."""
        with tempfile.TemporaryDirectory() as folder, socket.socket(socket.AF_UNIX, socket.SOCK_DGRAM) as chrony:
            path = os.path.join(folder, "radio.sock")
            chrony.bind(path)
            chrony.settimeout(5)
            for words, delay in (((), 0), (("--delay", "50000"), 50_000)):
                with self.subTest(delay=delay):
                    unix, monotonic = time.time_ns() // 1000, time.monotonic_ns() // 1000
                    line = f"0 {monotonic - 1_000_000} verdict {NOON} 0\nstatus 0\n"
                    self.assertEqual(self.run_it(line.encode(), path, "--fresh", "60", *words), (0, ""))
                    seconds, part, *_ = struct.unpack("<qqdiiii", chrony.recv(100))
                    self.assertAlmostEqual(seconds * 1_000_000 + part, unix - 1_000_000 - delay, delta=20_000)

    def test_a_line_without_an_end(self):
        """It takes no memory, and its tail is no line."""
        with subprocess.Popen(["head", "-c", "300M", "/dev/zero"], stdout=subprocess.PIPE) as zeros:
            words = ["sh", "-c", 'ulimit -v 200000; exec "$0" /nosuch', HERE / "chrony_sock.py"]
            done = subprocess.run(words, stdin=zeros.stdout, stdout=subprocess.PIPE, stderr=subprocess.PIPE, timeout=60)
        self.assertEqual((done.returncode, done.stderr), (1, b"decode ended without its status line\n"))
        self.assertEqual(self.run_it(b"x" * 4096 + b"status 0\n", "/nosuch"), (1, "decode ended without its status line\n"))

    def test_signals(self):
        # A test that a shell put into the background has SIGINT ignored, and what it starts would too.
        self.addCleanup(signal.signal, signal.SIGINT, signal.signal(signal.SIGINT, signal.default_int_handler))
        for ending in (signal.SIGTERM, signal.SIGINT):
            child = subprocess.Popen([HERE / "chrony_sock.py", "/nosuch"], stdin=subprocess.PIPE, stderr=subprocess.PIPE)
            self.addCleanup(child.stdin.close)
            self.addCleanup(child.stderr.close)
            child.stdin.write(b"0 5 verdict 7 0\n")
            child.stdin.flush()
            self.assertIn(b"passed over", child.stderr.readline())
            child.send_signal(ending)
            self.assertEqual(child.wait(20), 0)
            self.assertEqual(child.stderr.read(), b"")


@unittest.skipUnless(shutil.which("chronyd", path=os.environ["PATH"]), "chronyd isn't installed")
@unittest.skipUnless(os.geteuid() == 0, "chronyd wants to be started as root")
class Chronyd(unittest.TestCase):
    """A chronyd with -x, which touches no clock, without a port, in a folder of its own."""

    def chronyc(self, folder, word):
        done = subprocess.run(["chronyc", "-n", "-h", f"{folder}/cmd", word], capture_output=True, text=True, timeout=10)
        return done.stdout

    def test_it_selects_the_radio_and_sees_its_offset(self):
        ahead = 0.125
        with tempfile.TemporaryDirectory() as folder:
            pathlib.Path(folder, "conf").write_text(CONF.format(folder=folder))
            chrony = subprocess.Popen(["chronyd", "-x", "-u", "root", "-d", "-f", f"{folder}/conf"], stderr=subprocess.DEVNULL)
            bridge = subprocess.Popen([HERE / "chrony_sock.py", f"{folder}/radio.sock"], stdin=subprocess.PIPE, text=True)
            try:
                deadline = time.monotonic() + 90
                sources = ""
                while "#*" not in sources and time.monotonic() < deadline:
                    # By the radio each second begins an eighth of a second before it does on the host.
                    unix, monotonic = time.time_ns() // 1000, time.monotonic_ns() // 1000
                    at = monotonic - unix % 10**6 - round(ahead * 10**6)
                    bridge.stdin.write(f"0 {at} verdict {unix // 10**6 + 2_208_988_800} 0\n")
                    bridge.stdin.flush()
                    time.sleep(0.4)
                    sources = self.chronyc(folder, "sources")
                tracking = self.chronyc(folder, "tracking")
            finally:
                bridge.terminate()
                bridge.wait(20)
                bridge.stdin.close()
                chrony.terminate()
                chrony.wait(20)
        self.assertRegex(sources, r"#\* DCF ")
        self.assertRegex(tracking, r"Reference ID +: 44434600 \(DCF\)\nStratum +: 1\n")
        size, sense = tracking.split("System time     : ")[1].split(" seconds ")
        self.assertTrue(sense.startswith("slow"))
        self.assertAlmostEqual(float(size), ahead, delta=0.005)


if __name__ == "__main__":
    unittest.main()
