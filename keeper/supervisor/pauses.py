"""Whether the host stood still and its kernel counted nothing: a virtual machine that its host
paused, or a sleep of less than a second. The real-time clock went on meanwhile.

That clock gives whole seconds. Each reading says between which bounds it is ahead of the seconds
since the boot; readings one after the other narrow them down to the time between two looks. They
are moved only by a pause, or by who sets the real-time clock. That is done by the system's clock
as it was before, with which it agrees afterwards.
"""

from collections import deque
from dataclasses import dataclass

from keeper.supervisor.host import Host

LOOKS = 0.1  # how often the real-time clock is read (s)
BEFORE = 16  # a jump shows when its clock ticks, so within this many looks
RATE = 1e-3  # by how much the two may go apart (s/s): a clock is slewed by 500 ppm at most
LEAST = 0.2  # what the real-time clock jumps by less is no pause (s)
KNOWN = 0.3  # a jump is judged once the bounds are this narrow (s)
AGREES = 0.3  # a clock that was set by another one is off by this at most, with the bounds (s)
AT_ONCE = 0.005  # a reading that took longer says too little (s)


@dataclass
class Bounds:
    """Between which bounds the real-time clock is ahead of the seconds since the boot (s); `at` is
    when that was so (s since the boot)."""

    least: float
    most: float
    at: float

    def narrowed(self, other: "Bounds") -> "Bounds":
        """These, later and by another reading too. Its `least` is above `most` where no time fits
        both."""
        drift = RATE * (other.at - self.at)
        return Bounds(max(self.least - drift, other.least), min(self.most + drift, other.most),
                      other.at)

    def middle(self) -> float:
        return (self.least + self.most) / 2


class Pauses:
    """Looks at the real-time clock. A host without one sees no pause."""

    def __init__(self, host: Host) -> None:
        self.host = host
        self.due = 0.0
        self.known: Bounds | None = None  # before a jump
        self.new: Bounds | None = None  # since a jump that isn't judged yet
        # The system's clock at the last looks, less the seconds since the boot.
        self.ahead: deque[float] = deque(maxlen=BEFORE)

    def forget(self) -> None:
        """The host slept: its kernel measures that by whole seconds of the real-time clock."""
        self.known = self.new = None

    def look(self) -> float:
        """For how long the host stood still (s), once that is certain; else 0.0."""
        before = self.host.boottime()
        if before < self.due:
            return 0.0
        self.due = before + LOOKS
        second, after = self.host.rtc(), self.host.boottime()
        if second is None or after - before > AT_ONCE:
            return 0.0
        read = Bounds(second - after, second + 1 - before, after)
        if self.known is not None and self.new is not None:
            narrowed = self.new.narrowed(read)
            self.new = narrowed if narrowed.least <= narrowed.most else read
            return self._judged(self.known, self.new)
        narrowed = self.known.narrowed(read) if self.known else read
        if narrowed.least <= narrowed.most:
            self.known = narrowed
            self.ahead.append(self.host.realtime() - self.host.boottime())
        else:
            self.new = read
        return 0.0

    def _judged(self, known: Bounds, new: Bounds) -> float:
        """How long a pause was whose jump led to these new bounds (s)."""
        if new.most - new.least > KNOWN:
            return 0.0
        span = new.middle() - known.middle()
        self.known, self.new = new, None
        before, after = (abs(one.middle() - self.ahead[0]) for one in (known, new))
        self.ahead.clear()
        was_set = after < AGREES and after < before
        return 0.0 if span < LEAST or was_set else span
