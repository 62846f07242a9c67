#!/usr/bin/env python3
"""How edges_to_log.py and serial_edges.py end: in one sentence and with a status of their own.

    feeders/test_feeder_ends.py
"""

import errno
import os
import pathlib
import shutil
import signal
import subprocess
import unittest

HERE = pathlib.Path(__file__).resolve().parent
import chrony_sock
import serial_edges
from test_edges_to_log import RADIOS, ours, ran


class Ends(unittest.TestCase):
    """How a feeder ends, in one sentence and with a status of its own."""

    def test_an_error_of_gpiomon_on_the_input(self):
        """As both versions print it, where standard error goes into the pipe."""
        for error in ("gpiomon: error waiting for events: No such file or directory", "gpiomon: cannot find GPIO chip character device 'rising 1.5'"):
            with self.subTest(error=error):
                self.assertEqual(ran(text=f"{error}\n"), ("", f"{error}\n", 1))

    def test_a_command(self):
        text = ours(10**6, True) + ours(1_100_000, False)
        for script, status, said in (("", 0, ""), ("exit 3", 3, "sh ended with 3\n"), ("kill -9 $$", 137, "sh ended with 137\n")):
            with self.subTest(script=script):
                self.assertEqual(ran("--low", "--", "sh", "-c", f"printf '%s' '{text}'; {script}"), ("", said, status))
                self.assertEqual(ran("sh", "-c", f"printf '%s' '{text}'; {script}"), ("1000000 100000\n", said, status))

    def test_no_command(self):
        self.assertEqual(ran("./nosuch"), ("", "./nosuch: No such file or directory\n", 127))

    def test_a_file_in_the_place_of_a_command(self):
        log = RADIOS / "dcf77.log"
        self.assertEqual(ran(str(log)), ("", f"{log}: Permission denied (to read it: edges_to_log.py < {log})\n", 127))
        self.assertEqual(ran(str(RADIOS)), ("", f"{RADIOS}: Permission denied\n", 127))

    def test_a_serial_port_as_the_command(self):
        """A pipe would lose the status with which the port's feeder ends."""
        feeder = HERE / "serial_edges.py"
        due = ("", f"/nosuch: No such file or directory\n{feeder} ended with 1\n", 1)
        self.assertEqual(ran("--low", str(feeder), "/nosuch", "--line", "cts", "--dtr", "on"), due)

    def test_gpiomon_itself(self):
        """It has no chip here; of which version it is doesn't matter."""
        if not shutil.which("gpiomon"):
            self.skipTest("gpiomon isn't installed")
        written, said, status = ran("gpiomon", "nosuch", "1")
        self.assertEqual((written, status), ("", 1))
        self.assertRegex(said, r"^gpiomon: .*\ngpiomon ended with 1\n$")

    def test_a_command_ends_with_its_feeder(self):
        # A test that a shell put into the background has SIGINT ignored, and what it starts would too.
        self.addCleanup(signal.signal, signal.SIGINT, signal.signal(signal.SIGINT, signal.default_int_handler))
        for ending in (signal.SIGTERM, signal.SIGINT):
            with self.subTest(ending=ending):
                words = [HERE / "edges_to_log.py", "sh", "-c", "echo 1.0 rising; echo 1.1 falling; echo $$ >&2; exec sleep 60"]
                feeder = subprocess.Popen(words, stdout=subprocess.PIPE, stderr=subprocess.PIPE, text=True)
                self.addCleanup(feeder.stdout.close)
                self.addCleanup(feeder.stderr.close)
                command = int(feeder.stderr.readline())
                self.assertEqual(feeder.stdout.readline(), "1000000 100000\n")
                feeder.send_signal(ending)
                self.assertEqual(feeder.wait(20), 0)
                self.assertRaises(ProcessLookupError, os.kill, command, 0)

    def test_a_signal_where_the_reader_has_ended(self):
        """The reduction that just ended has nowhere to go."""
        feeder = subprocess.Popen([HERE / "edges_to_log.py"], stdin=subprocess.PIPE, stdout=subprocess.PIPE, stderr=subprocess.PIPE, bufsize=0)
        self.addCleanup(feeder.stdin.close)
        self.addCleanup(feeder.stderr.close)
        feeder.stdin.write(b"x\n")
        self.assertEqual(feeder.stderr.readline(), b"no edge: x\n")
        feeder.stdout.close()
        feeder.stdin.write(b"1.0 rising\n1.1 falling\n")
        feeder.send_signal(signal.SIGTERM)
        self.assertIn(feeder.wait(20), (0, 1))
        self.assertEqual(feeder.stderr.read(), b"")

    def test_no_serial_port(self):
        for device, said in (("/nosuch", "No such file or directory"), ("/dev/null", "it is no serial port with modem lines")):
            with self.subTest(device=device):
                self.assertEqual(ran(device, program="serial_edges.py"), ("", f"{device}: {said}\n", 1))

    def test_a_terminal_without_modem_lines(self):
        ours, theirs = os.openpty()
        self.addCleanup(os.close, ours)
        self.addCleanup(os.close, theirs)
        name = os.ttyname(theirs)
        self.assertEqual(ran(name, program="serial_edges.py"), ("", f"{name}: it is no serial port with modem lines\n", 1))

    def test_a_serial_port_that_is_unplugged(self):
        for number in (errno.EIO, errno.ENODEV, errno.ENXIO):
            self.assertEqual(serial_edges.cause(OSError(number, os.strerror(number))), f"it was unplugged or doesn't answer ({os.strerror(number)})")


class Sentences(unittest.TestCase):
    """Sentences that no other test looks at."""

    def test_streams_that_are_closed(self):
        for words, closed, said in (
            ("edges_to_log.py", "<&-", "edges_to_log.py: its input or its output is closed"),
            ("edges_to_log.py true", ">&-", "edges_to_log.py: its input or its output is closed"),
            ("steady.py", "<&-", "steady.py: its input or its output is closed"),
            ("steady.py", ">&-", "steady.py: its input or its output is closed"),
            ("chrony_sock.py /nosuch", "<&-", "chrony_sock.py: its input is closed"),
            ("serial_edges.py /nosuch", ">&-", "serial_edges.py: its output is closed"),
        ):
            with self.subTest(words=words, closed=closed):
                done = subprocess.run(["sh", "-c", f"exec {HERE}/{words} {closed}"], stdin=subprocess.DEVNULL, capture_output=True, text=True, timeout=20)
                self.assertEqual((done.stderr, done.returncode), (f"{said}\n", 1))

    def test_a_disk_that_is_full(self):
        """One sentence, and no more from the interpreter as it ends."""
        edges = "1.0 rising\n1.1 falling\n2.0 rising\n2.1 falling\n"
        for program, text in (("edges_to_log.py", edges), ("steady.py", "1000000 100000\n")):
            with self.subTest(program=program), open("/dev/full", "w", encoding="ascii") as full:
                done = subprocess.run([HERE / program], input=text, stdout=full, stderr=subprocess.PIPE, text=True, timeout=20)
                self.assertEqual((done.stderr, done.returncode), (f"{program}: No space left on device\n", 1))

    def test_how_far_a_start_may_be_moved(self):
        written, said, status = ran("--most", "91", program="steady.py")
        self.assertEqual((written, status), ("", 2))
        self.assertTrue(said.endswith("--most is 1 to 90 milliseconds\n"), said)

    def test_a_verdict_that_is_old(self):
        said = []
        bridge = chrony_sock.Bridge("/nosuch", 0, 5.0, chrony_sock.Clocks(lambda: 10 * 10**9, lambda: 10**18, lambda: 10 * 10**9), said.append)
        self.assertFalse(bridge.line("0 4000000 verdict 4004773260 0\n"))
        self.assertEqual(said, ["a verdict of a moment 6.0 s ago is passed over"])


if __name__ == "__main__":
    unittest.main()
