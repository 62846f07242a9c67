#!/usr/bin/env python3
"""Steadies the starts of a pulse log, live: each mark is moved to where the marks of the last ten minutes say that it should be.

    feeders/serial_edges.py DEVICE | feeders/edges_to_log.py | feeders/steady.py [--most MILLISECONDS] > LOG

A cheap receiver reports each mark some milliseconds early or late, and `radio_ntpd` takes a minute's time from one mark alone. Marks come
a second apart, so all of them together say more exactly where each should be: a straight line is laid through their phases, which follows
the drift of the host's counter, and a few marks that are far off hardly bend it. After two minutes it is settled.

- A start is moved by at most --most milliseconds (80 where it isn't given). One that is farther from the line is left.
- Widths stay as they are. No mark is made and none is dropped. Starts rise as strictly as they did.
- The distance of two neighbouring starts stays on the same side of each border that a code plan has: what is too near, too far or the
  gap before a minute is so afterwards too. So a minute says, and is refused for, what it was before.
- A minute without a mark near the line starts it anew, with the next eight marks. So do marks that agree on another phase: six of the last
  eight where they are farther than --most, else as soon as the last 16 or 64 show more than chance explains.

A line that is no line of a log is handed on as it is; the first one is shown on standard error. It exits with 1 where its reader has ended or a read
fails, with 2 for invalid arguments, and with 0 at the end of its input and where SIGINT or SIGTERM ended it.
"""

import argparse
import bisect
import collections
import os
import re
import signal
import sys

END = 2**50  # the moments of a log are below it
SECOND = 1_000_000  # moments are microseconds of the host's counter
HALF = SECOND // 2
MOST = 80_000  # the farthest that a start is moved where nothing else is asked for
GREATEST_MOST = 90_000  # a second is 100 ms long or short before its minute is refused
WINDOW = 600 * SECOND  # how long a mark counts
GAP = 60 * SECOND  # how long a line holds without a mark near it
FIRST = 8  # the marks from which a phase is known, if three quarters of them agree on it
ROUNDS = 3  # how often a line is laid again by the distances of the marks from it
USUAL = 50e-6  # how far a counter typically drifts of which no mark has said more yet
STEEPEST = 500e-6  # the greatest drift of a counter that NTP follows
# Within this much of its head a reduction belongs to the same second: MSF's second parts, and noise.
NEXT = 900_000
# Where the code plans change their mind on two starts that are so far apart: parts of MSF that join (150 to 250 ms), neighbouring marks
# (900 to 1100 ms) and the gap before a DCF77 minute (1900 to 2100 ms). The last border is beyond all logs.
BORDERS = (1, 150_000, 250_001, NEXT, 1_100_001, 1_900_000, 2_100_001, 2 * END)
LONGEST = 4096  # what is read at a time, in bytes; a longer line is none of a log
SHOWN = 60  # what is shown of a line that is none of a log, in bytes
LINE = re.compile(rb"(0|[1-9][0-9]{0,15}) ([0-9]{1,7})\n")


def around(span: float) -> float:
    """What is left of a span without its whole seconds, from -half a second up to half a second."""
    return (span + HALF) % SECOND - HALF


def median(values: list[float]) -> float:
    """The median of some values; of an even number of them, the upper one of the two in the middle."""
    return sorted(values)[len(values) // 2]


class PhaseLine:
    """The line through the phases of the last marks: where in a second a mark is due, for each moment."""

    def __init__(self, most: int) -> None:
        self.most = most
        self.marks: collections.deque[tuple[int, float]] = collections.deque()  # moments and phases of the marks near the line
        self.last: collections.deque[int] = collections.deque(maxlen=FIRST)  # the last marks, near or far
        self.level = self.slope = 0.0  # the phase at `origin`, and by how much it grows in a microsecond
        self.origin = 0
        self.drift = 0.0  # the slope that is expected of the counter where the marks don't say more
        self.due = 0  # how many marks are awaited before the line is laid anew
        self.spread = 0.0  # the median distance of a mark from the line, in microseconds

    def phase(self, at: float) -> float:
        """The phase that a mark has at this moment, by the line."""
        return self.level + self.slope * (at - self.origin)

    def early(self, at: int) -> float | None:
        """By how much a mark at this moment is early, in microseconds; negative where it is late, None where no phase is known."""
        if not self.marks or at - self.marks[-1][0] > GAP:
            return None
        return -around(at - self.phase(at))

    def hear(self, at: int, early: float | None) -> None:
        """Takes a mark into account; `early` says what `early` said of it."""
        if early is None and self.marks:
            self.marks.clear()
            self.last.clear()
        self.last.append(at)
        if early is None:
            self.begin()
        elif abs(early) > self.most:
            self.begin()
        else:
            self.marks.append((at, self.phase(at) - early))
            while at - self.marks[0][0] > WINDOW:
                self.marks.popleft()
            self.due -= 1
            if len(self.marks) % FIRST == 0 or self.due <= 0:
                self.look_for_step()
            if self.due <= 0:
                self.lay()

    def begin(self) -> None:
        """Starts anew where the last marks agree on a phase that isn't the line's."""
        centre = min(self.last, key=lambda one: sum(abs(around(other - one)) for other in self.last))
        agreed = [at for at in self.last if abs(around(at - centre)) <= self.most]
        if len(self.last) < FIRST or len(agreed) < FIRST * 3 // 4:
            return
        early = self.early(centre)
        if early is not None and abs(early) <= self.most:
            return
        self.restart([(at, centre % SECOND + around(at - centre)) for at in agreed])

    def restart(self, marks: list[tuple[int, float]]) -> None:
        """Starts anew with these marks. What was known of the counter's drift stays known."""
        self.marks = collections.deque(marks)
        self.drift = self.slope
        self.origin = marks[-1][0]
        self.level = median([phase + self.slope * (self.origin - at) for at, phase in marks])
        self.lay()

    def look_for_step(self) -> None:
        """Starts anew where the last 16 or 64 marks lie farther off the line than chance explains."""
        for count in (16, 64):
            if len(self.marks) < 2 * count:
                return
            last = [self.marks[place] for place in range(-count, 0)]
            off = [phase - self.phase(at) for at, phase in last]
            step = median(off)
            spread = max(self.spread, median([abs(one - step) for one in off]))
            # The median of some marks has a standard deviation of about twice their spread over the root of their number.
            if abs(step) > max(1000.0, 10 * spread / count**0.5):
                self.restart(last[count // 2 :])
                return

    def lay(self) -> None:
        """Lays the line through the marks by least squares, where one farther off than twice the median counts as if it were just so far."""
        marks = list(self.marks)
        for _ in range(ROUNDS):
            off = [abs(phase - self.phase(at)) for at, phase in marks]
            far = max(1.0, 2 * median(off))
            self.lay_weighted(marks, [far / max(far, one) for one in off], 0.75 * far)
        self.spread = median([abs(phase - self.phase(at)) for at, phase in marks])
        self.due = len(marks) // 20

    def lay_weighted(self, marks: list[tuple[int, float]], weights: list[float], jitter: float) -> None:
        """Lays the line by weighted least squares. `jitter` is about the standard deviation of a mark, in microseconds: the expected drift
        counts as one more measurement of the slope, good to USUAL."""
        self.origin = marks[-1][0]
        total = sum(weights)
        centre = sum(weight * (at - self.origin) for weight, (at, _) in zip(weights, marks)) / total
        mean = sum(weight * phase for weight, (_, phase) in zip(weights, marks)) / total
        length, rise = (jitter / USUAL) ** 2, (jitter / USUAL) ** 2 * self.drift
        for weight, (at, phase) in zip(weights, marks):
            away = at - self.origin - centre
            length += weight * away * away
            rise += weight * away * (phase - mean)
        self.slope = max(-STEEPEST, min(STEEPEST, rise / length))
        self.level = mean - self.slope * centre


class Steady:
    """Moves the starts of one radio's log: `line` takes each line of it in turn and gives the line in its place."""

    def __init__(self, most: int = MOST) -> None:
        """`most` is the farthest that a start is moved, in microseconds, 0 to 90000."""
        self.most = most
        self.phases = PhaseLine(most)
        self.second: list[int] = []  # the starts of this second, its head first, as they came
        self.shift = 0  # by how much those were moved

    @property
    def spread(self) -> float:
        """How far a mark typically was off the line, in microseconds: half the marks were farther."""
        return self.phases.spread

    def line(self, line: bytes) -> bytes:
        """The line of a steadied log in place of this one."""
        parts = LINE.fullmatch(line)
        if not parts or int(parts[1]) >= END:
            return line
        return b"%d %s\n" % (self.start(int(parts[1])), parts[2])

    def start(self, at: int) -> int:
        """Where a reduction that came at this moment is put. Moments are expected to rise."""
        if self.second and at - self.second[0] < NEXT:
            if at > self.second[-1]:
                self.second.append(at)
            return at + self.shift
        early = self.phases.early(at)
        wanted = round(early) if early is not None and abs(early) <= self.most else 0
        least, greatest = self.room(at)
        self.shift = min(max(wanted, least), greatest)
        self.second = [at]
        self.phases.hear(at, early)
        return at + self.shift

    def room(self, at: int) -> tuple[int, int]:
        """How far a start may be moved: up to `most` either way, and across no border of its distance from those before it."""
        least, greatest = max(-self.most, -at), self.most
        for other in self.second:
            apart = at - other
            place = bisect.bisect(BORDERS, apart)
            # As far as the others were moved is always possible.
            least = max(least, self.shift + BORDERS[place - 1] - apart)
            greatest = min(greatest, self.shift + BORDERS[place] - 1 - apart)
        return least, greatest


def main() -> None:
    words = argparse.ArgumentParser(description=__doc__, formatter_class=argparse.RawDescriptionHelpFormatter)
    words.add_argument("--most", type=int, default=MOST // 1000, metavar="MILLISECONDS", help="the farthest that a start is moved, 1 to 90")
    most = words.parse_args().most * 1000
    if not 0 < most <= GREATEST_MOST:
        words.error("--most is 1 to 90 milliseconds")
    if not sys.stdin or not sys.stdout:
        sys.exit("steady.py: its input or its output is closed")
    steady = Steady(most)
    shown = False
    signal.signal(signal.SIGTERM, signal.default_int_handler)
    try:
        begins = True
        while piece := sys.stdin.buffer.readline(LONGEST):
            if begins and not shown and piece.endswith(b"\n") and not LINE.fullmatch(piece):
                shown = True
                print(f"steady.py: no line of a pulse log is steadied: {piece[:SHOWN]!r}", file=sys.stderr, flush=True)
            sys.stdout.buffer.write(steady.line(piece) if begins else piece)
            sys.stdout.buffer.flush()
            begins = piece.endswith(b"\n")
    except OSError as fault:
        # What stands in the buffer has nowhere to go: whoever read the log has ended, or its disk is full.
        os.dup2(os.open(os.devnull, os.O_WRONLY), sys.stdout.fileno())
        sys.exit(1 if isinstance(fault, BrokenPipeError) else f"steady.py: {fault.strerror}")
    except KeyboardInterrupt:
        pass


if __name__ == "__main__":
    main()
