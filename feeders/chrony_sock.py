#!/usr/bin/env python3
"""Gives what `radio_ntpd decode` believes to chronyd, live: each verdict is a sample for its reference clock SOCK.

    feeders/edges_to_log.py .. | feeders/steady.py | radio_ntpd decode --plan dcf --log /dev/stdin | feeders/chrony_sock.py SOCKET [--delay US]

chronyd makes the socket; its configuration names the same file:

    refclock SOCK SOCKET refid DCF poll 4 filter 1 precision 1e-3 delay 0.01

The log's moments are of the host's monotonic clock. A verdict that is older than --fresh seconds (5 where it isn't given), as those of
a recorded log are, is passed over: chronyd compares with the time of now. So is the first after the host slept, since that clock stood
still. --delay is how long the signal is under way, the receiver's
own lag included, in microseconds. A leap second is announced from a day before it on, where two frames announced it.

While chronyd doesn't take samples, as when it is started again, the bridge says so once and goes on. It exits as `decode` did, by its
status line, with 1 where that is missing, and with 2 for invalid arguments.
"""

import argparse
import re
import signal
import socket
import struct
import sys
import sysconfig
import time
from typing import Callable, NamedTuple

UNIX_EPOCH = 2_208_988_800  # in seconds since 1900-01-01 00:00 UTC, as `decode` counts
SLEPT = 10_000_000  # a clock that goes on while the host sleeps is ahead by so much more, in nanoseconds: it slept
DAY = 86_400
LONGEST = 4096  # what is read at a time, in bytes; a longer line has no verdict
# A sample of chrony's SOCK driver: the system's time when it was taken (a timeval), by how many seconds the true time is ahead of it,
# whether it is of a pulse alone, the leap status (0 none, 1 a second is inserted), padding, and the driver's own number. The timeval has two
# numbers of the size of the host's time_t, which is 8 bytes on a host of 32 bits too where that is new enough.
SAMPLES = {4: struct.Struct("@iidiiii"), 8: struct.Struct("@qqdiiii")}
SAMPLE = SAMPLES[sysconfig.get_config_var("SIZEOF_TIME_T") or struct.calcsize("@l")]
MAGIC = 0x534F434B
VERDICT = re.compile(r"0 (\d{1,16}) verdict (\d{1,11}) (\d{1,11})\n")
STATUS = re.compile(r"status (\d{1,3})\b.*\n?")
PULSE = re.compile(r"\d{1,16} \d{1,7}\r?\n?")


class Verdict(NamedTuple):
    """A minute that is believed: when it began on the host's counter, in microseconds, and the second that began, since 1900."""

    at: int
    second: int
    leap_at: int


class Clocks(NamedTuple):
    """The host's clocks, in nanoseconds."""

    monotonic: Callable[[], int] = time.monotonic_ns
    system: Callable[[], int] = time.time_ns
    # It goes on while the host sleeps.
    boot: Callable[[], int] = lambda: time.clock_gettime_ns(time.CLOCK_BOOTTIME)

    def asleep(self) -> int:
        """For how long the host has slept since it started."""
        return self.boot() - self.monotonic()


def read_verdict(line: str) -> Verdict | None:
    """The verdict that a line of `decode` reports, or None."""
    parts = VERDICT.fullmatch(line)
    return Verdict(*map(int, parts.groups())) if parts else None


def sample(verdict: Verdict, system_us: int) -> bytes:
    """The sample of a verdict whose minute began when the system's clock showed this, in microseconds since 1970."""
    offset = ((verdict.second - UNIX_EPOCH) * 1_000_000 - system_us) / 1e6
    leap = 1 if 0 < verdict.leap_at - verdict.second <= DAY else 0
    return SAMPLE.pack(*divmod(system_us, 1_000_000), offset, 0, leap, 0, MAGIC)


class Bridge:
    """Sends samples to chronyd's socket."""

    def __init__(self, path: str, delay: int, fresh: float, clocks: Clocks = Clocks(), say: Callable[[str], None] = lambda text: print(text, file=sys.stderr, flush=True)) -> None:
        """`delay` is in microseconds, `fresh` in seconds."""
        self.path, self.delay, self.fresh, self.clocks, self.say = path, delay, fresh, clocks, say
        self.failing = ""  # what was said of the socket last, nothing while it takes samples
        self.asleep = clocks.asleep()  # as of the last verdict
        self.status: int | None = None  # what `decode` ended with
        self.missing = "decode ended without its status line"  # what is said where it is None at the end

    def line(self, line: str) -> bool:
        """Takes a line of `decode`; whether a sample went out."""
        status = STATUS.fullmatch(line)
        if status:
            self.status = int(status[1])
            if self.status:
                self.say(f"decode ended with {line.strip()}")
        elif PULSE.fullmatch(line):
            self.missing = "this is a pulse log: put `radio_ntpd decode --plan PLAN --log /dev/stdin |` before this program"
        verdict = read_verdict(line)
        return verdict is not None and self.give(verdict)

    def give(self, verdict: Verdict) -> bool:
        """Sends a verdict's sample, if it is fresh; whether it went out."""
        before, self.asleep = self.asleep, self.clocks.asleep()
        if self.asleep - before >= SLEPT:
            self.trouble("the host slept: a verdict is passed over")
            return False
        monotonic, system = self.clocks.monotonic(), self.clocks.system()
        age = monotonic // 1000 - (verdict.at - self.delay)
        if not 0 <= age <= self.fresh * 1e6:
            self.trouble(f"a verdict of a moment {age / 1e6:.1f} s ago is passed over")
            return False
        try:
            with socket.socket(socket.AF_UNIX, socket.SOCK_DGRAM | socket.SOCK_NONBLOCK) as to:
                to.connect(self.path)
                to.send(sample(verdict, system // 1000 - age))
        except OSError as fault:
            self.trouble(f"{self.path} takes no sample: {fault.strerror or fault}")
            return False
        if self.failing:
            self.say(f"{self.path} takes samples")
        self.failing = ""
        return True

    def trouble(self, text: str) -> None:
        """Says why a sample didn't go out, once for each reason."""
        kind = text.split(" ")[0]
        if kind != self.failing:
            self.failing = kind
            self.say(text)


def main() -> int:
    words = argparse.ArgumentParser(description=__doc__, formatter_class=argparse.RawDescriptionHelpFormatter)
    words.add_argument("socket")
    words.add_argument("--delay", type=int, default=0, metavar="US")
    words.add_argument("--fresh", type=float, default=5.0, metavar="SECONDS")
    asked = words.parse_args()
    if not sys.stdin:
        print("chrony_sock.py: its input is closed", file=sys.stderr)
        return 1
    bridge = Bridge(asked.socket, asked.delay, asked.fresh)
    signal.signal(signal.SIGTERM, signal.default_int_handler)
    try:
        begins = True
        while piece := sys.stdin.buffer.readline(LONGEST):
            if begins:
                bridge.line(piece.decode("ascii", "replace"))
            begins = piece.endswith(b"\n")
    except OSError as fault:
        print(f"chrony_sock.py: {fault.strerror}", file=sys.stderr)
        return 1
    except KeyboardInterrupt:
        return 0
    if bridge.status is None:
        print(bridge.missing, file=sys.stderr)
        return 1
    return bridge.status


if __name__ == "__main__":
    sys.exit(main())
