#!/usr/bin/env python3
"""Prints the edges of a serial port's input line as they come: the seconds of the monotonic clock, and `rising` or `falling`.

    feeders/serial_edges.py DEVICE [--line dcd|cts|dsr|ri] [--dtr on|off] [--rts on|off]

A receiver's output lies on DCD where nothing else is said. Many receivers take their power from DTR and RTS: `--dtr on --rts off` is what
most want. An edge's time is read when the kernel wakes us. How late that is depends on the port's driver, above all with an adapter on USB;
`radio_keeper calibrate` measures it together with the receiver's own delay.

A receiver on RxD is not served (clocks that are read at 50 baud are such ones): the kernel reports no edges of that line.

This makes a log, and ends with the status of this program. A TTL adapter's lines are low where a modem's are on: there it takes `--low`.

    feeders/edges_to_log.py [--low] feeders/serial_edges.py DEVICE --line cts > LOG

It exits with 1 where the device isn't there, may not be read, is no serial port, or is unplugged, and where its reader has ended or takes no
more; with 2 for invalid arguments; with 0 where SIGINT or SIGTERM ended it.
"""

import argparse
import array
import errno
import fcntl
import os
import signal
import sys
import termios
import time
from typing import NoReturn

INPUTS = {"dcd": termios.TIOCM_CD, "cts": termios.TIOCM_CTS, "dsr": termios.TIOCM_DSR, "ri": termios.TIOCM_RI}
OUTPUTS = {"dtr": termios.TIOCM_DTR, "rts": termios.TIOCM_RTS}


def put(port: int, line: str, state: str) -> None:
    """Puts an output line on or off."""
    request = termios.TIOCMBIS if state == "on" else termios.TIOCMBIC
    fcntl.ioctl(port, request, array.array("i", [OUTPUTS[line]]))


def is_high(port: int, line: str) -> bool:
    bits = array.array("i", [0])
    fcntl.ioctl(port, termios.TIOCMGET, bits)
    return bool(bits[0] & INPUTS[line])


class Unwritten(Exception):
    """An edge could not be written; its argument is the `OSError`."""


def write(at: int, high: bool) -> None:
    """Writes an edge at a moment of the monotonic clock, in nanoseconds. Raises `Unwritten`."""
    try:
        print(f"{at // 10**9}.{at % 10**9:09} {'rising' if high else 'falling'}", flush=True)
    except OSError as fault:
        raise Unwritten(fault) from fault


def watch(port: int, line: str) -> NoReturn:
    """Prints the edges of an input line, without end. Raises `OSError` where the port fails, and `Unwritten`."""
    was_high = is_high(port, line)
    while True:
        # The kernel waits for an edge from now on. One that came while the last was printed shows in the level.
        at, high = time.monotonic_ns(), is_high(port, line)
        if high == was_high:
            fcntl.ioctl(port, termios.TIOCMIWAIT, INPUTS[line])
            at, high = time.monotonic_ns(), is_high(port, line)
        # Two edges between two looks are noise.
        if high != was_high:
            write(at, high)
        was_high = high


def cause(fault: OSError) -> str:
    """What went wrong with the device, in words."""
    if fault.errno in (errno.ENOTTY, errno.EINVAL):
        return "it is no serial port with modem lines"
    if fault.errno in (errno.EIO, errno.ENODEV, errno.ENXIO):
        return f"it was unplugged or doesn't answer ({fault.strerror})"
    return fault.strerror or str(fault)


def main() -> int:
    words = argparse.ArgumentParser(description=__doc__, formatter_class=argparse.RawDescriptionHelpFormatter)
    words.add_argument("device")
    words.add_argument("--line", choices=INPUTS, default="dcd")
    words.add_argument("--dtr", choices=("on", "off"))
    words.add_argument("--rts", choices=("on", "off"))
    asked = words.parse_args()
    if not sys.stdout:
        print("serial_edges.py: its output is closed", file=sys.stderr)
        return 1
    signal.signal(signal.SIGTERM, signal.default_int_handler)
    try:
        port = os.open(asked.device, os.O_RDONLY | os.O_NOCTTY | os.O_NONBLOCK)
        for line in OUTPUTS:
            state = getattr(asked, line)
            if state:
                put(port, line, state)
        watch(port, asked.line)
    except Unwritten as unwritten:
        # What stands in the buffer has nowhere to go: whoever read the edges has ended, or their disk is full.
        os.dup2(os.open(os.devnull, os.O_WRONLY), sys.stdout.fileno())
        if not isinstance(unwritten.args[0], BrokenPipeError):
            print(f"serial_edges.py: {unwritten.args[0].strerror}", file=sys.stderr)
        return 1
    except OSError as fault:
        print(f"{asked.device}: {cause(fault)}", file=sys.stderr)
        return 1
    except KeyboardInterrupt:
        return 0


if __name__ == "__main__":
    sys.exit(main())
