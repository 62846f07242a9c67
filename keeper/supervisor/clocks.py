"""Whether the host slept, whether its clock was set, which counter a log is of; and pauses."""

import hashlib

from keeper.supervisor.host import Host

AWAKE = 0.01  # sleeps that are shorter together are none (s)
LEAST = 2.0  # what the clock is set by less than this moves nothing (s); a slew is none
READINGS = 5
INSTALLED, PACKAGED = "/usr/local/lib/radio_ntpd/", "/usr/lib/radio_ntpd/"


def slept(host: Host) -> float:
    """For how long the host has slept since its boot (s): its monotonic clock, by which all count,
    stood still meanwhile. A reading is too small where this process was interrupted between the
    clocks, so the greatest of some counts."""
    return max(host.boottime() - host.monotonic() for _ in range(READINGS))


def counter(host: Host, boot: str) -> str:
    """What tells this boot's counter, since the host's last sleep, from every other one. The boot
    is asked for once, since the host may refuse it."""
    return f"{boot} {round(slept(host) * 100)}"


def tag_of(counter: str, source: str) -> str:
    """Eight digits for the name of a log: its counter and its source, and so what it may be used
    for. The package's feeders are those of `install`."""
    source = source.replace(INSTALLED, PACKAGED)
    return hashlib.sha256(f"{counter} {source}".encode(errors="surrogateescape")).hexdigest()[:8]


class Clocks:
    """Looks at the clocks. `ahead` is what the host's clock is ahead of the seconds since the boot,
    sleep among them (s)."""

    def __init__(self, host: Host) -> None:
        self.host = host
        self.slept = slept(host)
        self.ahead = host.realtime() - host.boottime()

    def sleep(self) -> float:
        """For how long the host slept (s), once that is long enough, as short sleeps add up; else
        0.0."""
        span = slept(self.host) - self.slept
        if span < AWAKE:
            return 0.0
        self.slept += span
        return span

    def step(self) -> float:
        """By how much the clock was set forward since the last call (s), 0.0 where it wasn't."""
        before, self.ahead = self.ahead, self.host.realtime() - self.host.boottime()
        return self.ahead - before if abs(self.ahead - before) >= LEAST else 0.0


class Pause:
    """A pause that doubles each time, from its least to its greatest length (s). `until` is its end
    (monotonic s)."""

    span = until = 0.0

    def __init__(self, least: float, most: float) -> None:
        self.bounds = least, most

    def begin(self, now: float) -> float:
        """Begins it; its length (s)."""
        self.span = min(max(self.span * 2, self.bounds[0]), self.bounds[1])
        self.until = now + self.span
        return self.span

    def reset(self) -> None:
        self.span = self.until = 0.0
