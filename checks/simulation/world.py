"""Virtual time: what is due when, and the clocks of a host that sleeps and is booted anew.

`now` counts the seconds that the host has run. The true time goes on in sleeps and while the power
is off. All processes stand still then, so what is due is kept by `now`.
"""

import heapq
import random
from collections.abc import Callable
from typing import Any

UNIX = 1_800_000_000  # the true time at the start, in Unix seconds
UPTIME = 40.0  # a boot takes so long before the service starts (s)
SEEN = 0.01  # a sleep from this length on ends what was received before (s)


class Killed(BaseException):
    """The supervisor is gone: nothing that it still does has an effect."""


class World:
    """Time, and who is told that something changed."""

    def __init__(self, seed: int) -> None:
        self.random = random.Random(seed)
        self.now = 0.0
        self.serial = 0
        self.due: list[tuple[float, int, Callable[..., None], tuple[Any, ...]]] = []
        self.booted = -UPTIME  # `now` at the last boot
        self.boots = 0
        self.slept = 0.0  # since the boot, as CLOCK_BOOTTIME counts it
        self.lost = 0.0  # true seconds that `now` doesn't have
        self.set_by = 0.0  # what the host's clock is ahead of the true time
        self.epoch = 0  # counts boots and sleeps that can be seen
        self.changed = True  # something that the supervisor may wait for
        self.served = True  # something that changes what clients are answered
        self.disturbed = 0.0  # when something last happened that isn't of each day
        self.late = 0.0  # until when the supervisor gets no processor
        self.wakes: list[Callable[[], None]] = []  # told after a sleep or a boot

    def at(self, delay: float, do: Callable[..., None], *given: Any) -> None:
        """Has something done in this many seconds."""
        self.serial += 1
        heapq.heappush(self.due, (self.now + delay, self.serial, do, given))

    def next_due(self) -> float:
        return self.due[0][0] if self.due else float("inf")

    def step(self) -> None:
        """Does what is due next."""
        when, _, do, given = heapq.heappop(self.due)
        if when > self.now:
            self.now = when
        do(*given)

    def run_to(self, when: float) -> None:
        """Lets time pass to a moment."""
        while self.due and self.due[0][0] <= when:
            self.step()
        self.now = max(self.now, when)

    def disturb(self) -> None:
        """Something happened after which time isn't passed over."""
        self.disturbed = self.now
        self.changed = self.served = True

    # Clocks

    def true(self) -> float:
        """True seconds since the start."""
        return self.now + self.lost

    def monotonic(self) -> float:
        return self.now - self.booted

    def boottime(self) -> float:
        return self.now - self.booted + self.slept

    def realtime(self) -> float:
        return UNIX + self.now + self.lost + self.set_by

    def rtc(self) -> int:
        """The real-time clock, which goes on whatever the host does."""
        return int(UNIX + self.now + self.lost)

    def boot(self) -> str:
        return f"{self.boots:08x}-0000-4000-8000-000000000000"

    def offset(self) -> float:
        """The true time less the monotonic clock, which a right answer is made by."""
        return self.lost + self.booted

    def sleep(self, seconds: float, is_counted: bool) -> None:
        """The host stands still. Where it isn't counted no clock of the host says so."""
        self.lost += seconds
        if is_counted:
            self.slept += seconds
            if seconds >= SEEN:
                self.epoch += 1
        self._woken()

    def reboot(self, off: float) -> None:
        """The power was off for so long; the service starts after the boot."""
        self.lost += off + UPTIME
        self.booted = self.now - UPTIME
        self.slept = 0.0
        self.boots += 1
        self.epoch += 1
        self._woken()

    def _woken(self) -> None:
        self.disturb()
        for one in self.wakes:
            one()
