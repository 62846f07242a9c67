#!/usr/bin/env python3
"""Tests of serial_edges.py over a port that is none: which bits of Linux's modem lines it puts and looks at, and by which clock it stamps.

    feeders/test_serial_edges.py

The numbers are those of Linux for x86 (asm-generic/ioctls.h and termios.h). A port's own hardware isn't run here.
"""

import contextlib
import errno
import io
import os
import pathlib
import subprocess
import sys
import tempfile
import time
import unittest
from unittest import mock

HERE = pathlib.Path(__file__).resolve().parent
import serial_edges

GET, PUT_ON, PUT_OFF, WAIT = 0x5415, 0x5416, 0x5417, 0x545C
DTR, RTS = 0x002, 0x004
INPUTS = {"dcd": 0x040, "cts": 0x020, "dsr": 0x100, "ri": 0x080}
ALL_INPUTS = sum(INPUTS.values())


class Port:
    """A port as the kernel has it: `outputs` are the bits of its output lines, `inputs` those of its input lines, of which each edge that is
    waited for brings the next."""

    def __init__(self, outputs: int, inputs: list[int]) -> None:
        self.outputs, self.inputs = outputs, inputs
        self.waited: set[int] = set()

    def ioctl(self, _port: int, request: int, given) -> None:
        if request == PUT_ON:
            self.outputs |= given[0]
        elif request == PUT_OFF:
            self.outputs &= ~given[0]
        elif request == WAIT:
            self.waited.add(given)
            self.change()
        elif request == GET:
            given[0] = self.inputs[0] | self.outputs
        else:
            raise AssertionError(f"request {request:#x}")

    def change(self) -> None:
        """An edge comes; after the last it is unplugged."""
        if len(self.inputs) == 1:
            raise OSError(errno.EIO, "Input/output error")
        self.inputs.pop(0)


class Ports(unittest.TestCase):
    def watch(self, port: Port, *words: str) -> list[str]:
        """What is printed of a port until it is unplugged."""
        out, said = io.StringIO(), io.StringIO()
        fakes: tuple[contextlib.AbstractContextManager, ...] = (
            mock.patch("serial_edges.fcntl.ioctl", port.ioctl),
            mock.patch("serial_edges.signal.signal"),
            mock.patch.object(sys, "argv", ["serial_edges.py", "/dev/null", *words]),
            contextlib.redirect_stdout(out),
            contextlib.redirect_stderr(said),
        )
        with contextlib.ExitStack() as stack:
            for one in fakes:
                stack.enter_context(one)
            self.assertEqual(serial_edges.main(), 1)
        self.assertIn("it was unplugged", said.getvalue())
        return out.getvalue().splitlines()

    def test_output_lines_are_put_on_and_off(self):
        """A receiver has its power from them."""
        for words, before, after in (
            ((), RTS, RTS), (("--dtr", "on"), 0, DTR), (("--dtr", "off"), DTR | RTS, RTS), (("--rts", "on"), DTR, DTR | RTS), (("--rts", "off"), DTR | RTS, DTR),
            (("--dtr", "on", "--rts", "off"), RTS, DTR),
        ):
            with self.subTest(words=words):
                port = Port(before, [0])
                self.assertEqual(self.watch(port, *words), [])
                self.assertEqual(port.outputs, after)

    def test_the_line_that_was_asked_for_is_watched(self):
        for name, bit in INPUTS.items():
            with self.subTest(name=name):
                # The others change too, and nothing is said of them.
                port = Port(0, [0, ALL_INPUTS & ~bit, bit, ALL_INPUTS, 0])
                edges = [line.split()[1] for line in self.watch(port, "--line", name)]
                self.assertEqual((edges, port.waited), (["rising", "falling"], {bit}))
        self.assertEqual(len(self.watch(Port(0, [0, INPUTS["dcd"]]))), 1)

    def test_an_edge_that_comes_while_the_last_is_written(self):
        """The kernel waits only for edges that come after it was asked to."""
        port = Port(0, [0, INPUTS["dcd"], 0])
        written = []

        def slow(_at: int, high: bool) -> None:
            written.append(high)
            if len(written) == 1:
                port.change()

        with mock.patch("serial_edges.write", slow):
            self.watch(port)
        self.assertEqual(written, [True, False])

    def test_an_edge_has_the_moment_when_the_kernel_woke_us(self):
        """The kernel waits for seconds, and the moments of before that are none of the edge's."""
        port = Port(0, [0, INPUTS["dcd"], 0])
        clock = iter(range(1_000_000_000, 100_000_000_000, 1_000_000_000))
        now = [0]

        def ioctl(given_port: int, request: int, given) -> None:
            if request == WAIT:
                now[0] = next(clock)
            port.ioctl(given_port, request, given)

        with (
            mock.patch("serial_edges.time.monotonic_ns", lambda: now[0]),
            mock.patch("serial_edges.fcntl.ioctl", ioctl),
            mock.patch("serial_edges.write") as written,
            self.assertRaises(OSError),
        ):
            serial_edges.watch(3, "dcd")
        self.assertEqual([one.args for one in written.call_args_list], [(1_000_000_000, True), (2_000_000_000, False)])

    def test_a_device_is_opened_without_a_wait(self):
        """A port whose carrier is off is waited for by an open that blocks, and so is a FIFO without a writer."""
        with tempfile.TemporaryDirectory() as folder:
            device = os.path.join(folder, "port")
            os.mkfifo(device)
            done = subprocess.run([HERE / "serial_edges.py", device], capture_output=True, text=True, timeout=20)
        self.assertEqual((done.returncode, done.stderr), (1, f"{device}: it is no serial port with modem lines\n"))

    def test_what_is_not_served_is_said(self):
        said = " ".join(subprocess.run([HERE / "serial_edges.py", "--help"], capture_output=True, text=True, timeout=20).stdout.split())
        self.assertIn("A receiver on RxD is not served", said)

    def test_an_output_that_takes_no_more(self):
        """It isn't the port's fault, and the interpreter adds no sentence of its own."""
        for fault, said in ((BrokenPipeError(errno.EPIPE, "Broken pipe"), ""), (OSError(errno.ENOSPC, "No space left on device"), "serial_edges.py: No space left on device\n")):
            port = Port(0, [0, INPUTS["dcd"]])
            told = io.StringIO()
            with (
                self.subTest(fault=fault),
                mock.patch("serial_edges.fcntl.ioctl", port.ioctl),
                mock.patch("serial_edges.signal.signal"),
                mock.patch("serial_edges.os.dup2") as moved,
                mock.patch.object(sys, "argv", ["serial_edges.py", "/dev/null"]),
                mock.patch.object(sys, "stdout") as output,
                contextlib.redirect_stderr(told),
            ):
                output.write.side_effect = fault
                self.assertEqual(serial_edges.main(), 1)
                self.assertEqual(moved.call_count, 1)
            self.assertEqual(told.getvalue(), said)

    def test_an_edge_has_its_moment_by_the_monotonic_clock(self):
        began = time.monotonic_ns()
        (line,) = self.watch(Port(0, [0, INPUTS["dcd"]]))
        whole, part = line.split()[0].split(".")
        self.assertEqual(len(part), 9)
        self.assertTrue(began <= int(whole) * 10**9 + int(part) <= time.monotonic_ns(), line)


if __name__ == "__main__":
    unittest.main()
