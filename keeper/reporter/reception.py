"""What a radio's log comes to, minute by minute: pulses and what `decode` says of them go in, a
RadioState comes out."""

import collections
import statistics
import time
from collections.abc import Sequence

from keeper.ntp import EPOCH
from keeper.receiver import Level, judge, marks_of
from keeper.reporter.decoder import Child, begun, closed, said
from keeper.reporter.state import QUARTER, QUARTERS, Quarter, RadioState

WINDOW = 300_000_000  # the marks whose spread is shown are those of the last five minutes (us)
KEPT = 900_000_000  # what a reporter that begins is told, and `decode` reads each time (us)
MOST = 20_000  # pulses: of noise there are more
DECODED = 20.0  # how often `decode` reads them, and what it has for that (s)
WILD = 100_000  # a mark so far off the others is none of a whole second, as MSF's second parts (us)
LEAST = 30  # with fewer marks no spread is shown
SECOND = 1_000_000
LOOKED_AT = 60  # the marks of this many seconds are looked at
RECENT = 600.0  # minutes of so long are counted by kind and rule (s)
HOUR = 3600


def spread_of(starts: Sequence[int]) -> float:
    """How far starts lie off a straight line of whole seconds: the standard deviation (s), 0.0
    where there are too few marks."""
    if len(starts) < LEAST:
        return 0.0
    phases = [_wrapped(start - starts[0]) for start in starts]
    # The phase of the first mark may be wild, so that of most is found before what is near it.
    some, few = phases[::max(1, len(phases) // 60)], phases[::max(1, len(phases) // 20)]
    middle = max(few, key=lambda one: sum(abs(_wrapped(other - one)) < WILD // 4
                                          for other in some))
    near = [(start - starts[0], off) for start, phase in zip(starts, phases)
            if abs(off := _wrapped(phase - middle)) < WILD]
    if len(near) < LEAST or near[0][0] == near[-1][0]:
        return 0.0
    slope, base = statistics.linear_regression(*zip(*near))
    return statistics.pstdev([off - base - slope * at for at, off in near]) / 1e6


def _wrapped(phase: int) -> int:
    return (phase + SECOND // 2) % SECOND - SECOND // 2


class Reception:
    """Keeps one radio's state. `minutes` are those of the last hour, with their kinds; `pulses`
    those of the last quarter: start, width, start as it is handed on (us of the counter); `closed`
    is when the last minute did. Minutes up to `counted` (Unix s) are in the picture of the day
    already: a reporter that begins is told the last ones again."""

    def __init__(self, radio: RadioState, counted: float = 0.0, program: str = "") -> None:
        self.radio, self.counted, self.program = radio, counted, program
        self.minutes: collections.deque[tuple[float, str]] = collections.deque()
        self.pulses: collections.deque[tuple[int, int, int]] = collections.deque(maxlen=MOST)
        self.closed = 0
        self.child: Child | None = None
        self.due = 0.0

    def pulse(self, start: int, width: int, given: int) -> None:
        """A pulse. One that begins before the last one begins a new counter."""
        if self.pulses and start <= self.pulses[-1][0]:
            self.pulses.clear()
            self.closed = 0
        self.pulses.append((start, width, given))
        while self.pulses[0][0] < start - KEPT:
            self.pulses.popleft()

    def decode(self, now: float) -> None:
        """Has `decode` read the pulses from time to time, and takes the minutes that have closed
        since (`now` in Unix s): it judges each one by itself and the one before it. Call it once a
        second or more often. Raises OSError."""
        is_due = time.monotonic() >= self.due
        if self.child and (is_due or self.child.poll() is not None):
            self.child.kill()
            for line in said(self.child):
                if (found := closed(line)) and found[0] > self.closed:
                    self.closed = found[0]
                    self.take(line, now)
            self.child = None
        elif is_due and self.pulses:
            self.due = time.monotonic() + DECODED
            given = ((given, width) for _, width, given in self.pulses)
            self.child = begun(self.program, self.radio.plan, given)

    def take(self, line: str, now: float, unix: float | None = None) -> None:
        """A line of `decode` (`now` in Unix s). `unix` is what is to be added to the counter's
        seconds to have Unix seconds, by the host's clock as it stands. A line that is none of a
        minute is passed over."""
        if (found := closed(line)) is None:
            return
        counter, kind, number = found
        close = counter / 1e6 + (time.time() - time.monotonic() if unix is None else unix)
        # What a source says of the time before it was read comes at once, and belongs to when it
        # was.
        at, radio = min(now, close), self.radio
        quarter = self._quarter(at) if at > self.counted else Quarter()
        if kind == "refused":
            quarter.refused[str(number)] = quarter.refused.get(str(number), 0) + 1
            kind = f"refused {number}"
        else:
            setattr(quarter, kind, getattr(quarter, kind) + 1)
        self.minutes.append((at, kind))
        if kind == "verdict":
            radio.minute, radio.minute_at = float(number - EPOCH), at
            radio.offset = round(radio.minute - close + radio.delay, 6)

    def move(self, step: float) -> None:
        """The host's clock was set forward by this number of seconds."""
        self.minutes = collections.deque((at + step, kind) for at, kind in self.minutes)
        self.counted += step
        self.radio.since += step
        self.radio.minute_at += step if self.radio.minute_at else 0.0
        self.radio.pulse_at += step if self.radio.pulse_at else 0.0

    def _quarter(self, at: float) -> Quarter:
        """The quarter of an hour of a moment."""
        quarters, begun = self.radio.reception, at // QUARTER * QUARTER
        if not any(one.at == begun for one in quarters):
            quarters.append(Quarter(begun))
            quarters.sort(key=lambda one: one.at)
            del quarters[:-QUARTERS]
        return next((one for one in quarters if one.at == begun), Quarter(begun))

    def renew(self, now: float) -> None:
        """Puts in what only time changes; call it before the state is written."""
        radio = self.radio
        while self.minutes and not now - HOUR < self.minutes[0][0] <= now:
            self.minutes.popleft()
        kinds = [kind for _, kind in self.minutes]
        radio.minutes_hour, radio.verdicts_hour = len(kinds), kinds.count("verdict")
        kinds = [kind for at, kind in self.minutes if now - RECENT < at <= now]
        radio.recent = dict(collections.Counter(kinds).most_common())
        recent = [one for one in self.pulses if one[0] >= self.pulses[-1][0] - WINDOW]
        radio.spread = spread_of([start for start, _, _ in recent])
        radio.spread_given = spread_of([given for _, _, given in recent])
        self._look(now)
        oldest = now - QUARTER * QUARTERS
        # What is ahead of now was written before the host's clock was put back.
        radio.reception[:] = [one for one in radio.reception if oldest < one.at <= now]

    def _look(self, now: float) -> None:
        """What the marks of the last minute look like."""
        radio = self.radio
        marks = [(float(start), float(width)) for start, width, _ in self.pulses
                 if start > self.pulses[-1][0] - LOOKED_AT * SECOND]
        radio.rate, radio.width, radio.fault = 0.0, 0.0, ""
        if not marks or now - radio.pulse_at > LOOKED_AT:
            return
        seconds = min(LOOKED_AT, (marks[-1][0] - marks[0][0]) / SECOND + 1)
        seen = marks_of(marks, seconds)
        radio.rate = round(seen.rate, 2)
        radio.width = round(statistics.median(seen.widths) / 1e6, 6)
        level, said = judge(seen, radio.plan)
        radio.fault = said if level is Level.BAD else ""
