"""How late a radio's marks come: minutes that `decode` believed, and what delay follows."""

import bisect
import statistics
from collections.abc import Iterable
from dataclasses import dataclass, replace

from keeper.ntp import EPOCH
from keeper.reporter.decoder import closed
from keeper.reporter.rules import PLANS
from keeper.supervisor.pulses import Pulse

MINUTE = 60_000_000  # (us)
WILD = 0.1  # a mark that lies so far off its second is none of it (s)
LEAST = 5  # with fewer minutes nothing is said
# The first minute is cut, and the next one has none before it to agree with; a minute of a sender
# may have begun, too.
FEWEST = LEAST + 3
MOST_DELAY = 0.1  # the greatest delay of a station (s)


@dataclass(frozen=True)
class Minute:
    """A minute that was believed. `at`: when it closed, by the host's clock (Unix s). `late`: how
    late its marks came by that clock, their median (s). `closing`: the same of the closing mark
    alone (s)."""

    at: float
    late: float
    closing: float

    def moved(self, offset: float) -> "Minute":
        """The same by a clock that is ahead of the host's by this (s)."""
        return replace(self, late=self.late + offset, closing=self.closing + offset)


@dataclass(frozen=True)
class Result:
    """`late`: how late the marks come, the median of the minutes (s); `error`: its standard error
    (s). `spread`: of closing marks, robust standard deviation (s)."""

    minutes: int
    late: float
    error: float
    spread: float


def minutes_of(pulses: list[Pulse], lines: Iterable[str], shift: float) -> list[Minute]:
    """The minutes of these pulses that these lines of `decode` believe. `shift` is what is to be
    added to the counter to have Unix seconds."""
    found = [_minute(pulses, minute[0], minute[2] - EPOCH, shift) for minute in map(closed, lines)
             if minute and minute[1] == "verdict"]
    return [one for one in found if one]


def _minute(pulses: list[Pulse], close: int, second: int, shift: float) -> Minute | None:
    """The minute that closed with this second at this moment of the counter (us)."""
    first = bisect.bisect_left(pulses, close - MINUTE - 500_000, key=lambda one: one.start)
    last = bisect.bisect_right(pulses, close, key=lambda one: one.start)
    marks = pulses[first:last]

    def lateness(start: int) -> float:
        return start / 1e6 + shift - (second + round((start - close) / 1e6))

    closing = lateness(close)
    late = [one for mark in marks if abs((one := lateness(mark.start)) - closing) < WILD]
    return Minute(close / 1e6 + shift, statistics.median(late), closing) if late else None


def deviation(values: list[float]) -> float:
    """A standard deviation that single outliers don't move: 1.4826 times the median distance from
    the median."""
    middle = statistics.median(values)
    return 1.4826 * statistics.median(abs(one - middle) for one in values)


def error_of(values: list[float]) -> float:
    """The standard error of the median of values (s)."""
    return 1.2533 * deviation(values) / len(values) ** 0.5


def result(minutes: list[Minute]) -> Result | None:
    """What follows, or None where there are too few minutes."""
    if len(minutes) < LEAST:
        return None
    late = [one.late for one in minutes]
    spread = deviation([one.closing for one in minutes])
    return Result(len(late), statistics.median(late), error_of(late), spread)


def sentences(found: Result, plan: str, now: int) -> list[str]:
    """The result for a person; `now` is the delay that the station has (us)."""
    late, error, spread = (f"{one * 1e3:.2f} ms" for one in (found.late, found.error, found.spread))
    said = [f"the marks of {PLANS.get(plan, plan)} come {late} late, within {error}; a closing "
            f"mark scatters by {spread}"]
    if 0 <= found.late <= MOST_DELAY:
        return [*said, f"set in the station file: delay = {round(found.late * 1e6)} (it is {now})"]
    why = "the reference is off, or the receiver's output is the other way round"
    return [*said, f"no delay fits, which is 0 to 100 ms: {why}"]
