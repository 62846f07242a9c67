"""Pulses as lines of a log: whole ones alone, their form, their order and their number checked."""

import collections
import re
from dataclasses import dataclass

FORM = re.compile(rb"(0|[1-9][0-9]{0,15}) ([1-9][0-9]{0,6})")
WIDEST = 2_000_000  # the greatest width of a log, in microseconds
LONGEST = 32  # a line that reaches this many bytes is bad
AHEAD = 1_000_000  # a start so far ahead of the host's counter isn't of that counter (us)
OLDEST = 900_000_000  # what is older than 15 minutes isn't handed on (us)
MOST = 100  # pulses that begin within a second; the feeders leave out what is shorter than 5 ms
HISTORY = 2_000_000  # so long after its first bytes a source may say what is old (us)


@dataclass(frozen=True)
class Pulse:
    """A reduction of the carrier: its start on the host's monotonic clock and its width (us)."""

    start: int
    width: int

    def line(self) -> bytes:
        return b"%d %d\n" % (self.start, self.width)


def reading(line: bytes) -> Pulse | str:
    """The pulse of a line without its line feed, or why it is bad."""
    found = FORM.fullmatch(line)
    if not found:
        return "it isn't a start and a width"
    start, width = int(found[1]), int(found[2])
    if width > WIDEST:
        return "its width is above 2 s"
    return Pulse(start, width) if start < 2**50 else "its start is out of range"


class Lines:
    """Takes the bytes of one radio's source and gives its pulses. `bad` counts lines left out;
    `last_bad` says the last and why."""

    def __init__(self) -> None:
        self.half = b""
        self.spilt = False  # the line that goes on is longer than a line may be
        self.last = -1
        self.starts: collections.deque[int] = collections.deque(maxlen=MOST)  # of the last pulses
        self.history = -1  # until when what is old isn't bad; -1 before the source's first bytes
        self.bad = 0
        self.last_bad = ""

    def begin(self) -> None:
        """The source begins anew. Half a line that it left is bad."""
        if self.half or self.spilt:
            self._refuse(self.half, "it was cut off")
        self.half, self.spilt, self.history = b"", False, -1

    def take(self, piece: bytes, now: int) -> list[Pulse]:
        """The pulses that these bytes end, at this microsecond of the monotonic clock."""
        if self.history < 0:
            self.history = now + HISTORY
        *lines, self.half = (self.half + piece).split(b"\n")
        if lines and self.spilt:
            self.spilt, lines = False, lines[1:]
        pulses = [pulse for line in lines if (pulse := self._judge(line, now))]
        if len(self.half) >= LONGEST:
            if not self.spilt:
                self._refuse(self.half, "it is too long")
            self.half, self.spilt = b"", True
        return pulses

    def _judge(self, line: bytes, now: int) -> Pulse | None:
        pulse = reading(line)
        if isinstance(pulse, str):
            self._refuse(line, pulse)
            return None
        late = (now - pulse.start) / 1e6
        is_noise = len(self.starts) == MOST and pulse.start - self.starts[0] < 1_000_000
        if pulse.start > now + AHEAD:
            self._refuse(line, f"its start is {-late:.0f} s ahead of the host's counter")
        elif pulse.start <= self.last:
            self._pass_over(line, "its start isn't after the one before", now)
        elif pulse.start < now - OLDEST:
            self._pass_over(line, f"its start is {late:.0f} s old", now)
        elif is_noise:
            self._refuse(line, f"it is noise: more than {MOST} pulses begin within a second")
        else:
            self.last = pulse.start
            self.starts.append(pulse.start)
            return pulse
        return None

    def _pass_over(self, line: bytes, why: str, now: int) -> None:
        """A source that has just begun may say again what is known."""
        if now > self.history:
            self._refuse(line, why)

    def _refuse(self, line: bytes, why: str) -> None:
        self.bad += 1
        self.last_bad = f"{line[:LONGEST].decode('ascii', 'backslashreplace')!r}: {why}"
