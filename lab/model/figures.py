"""The figures of a source from its held samples (docs/PAGE.md sections 3 to 5; RFC 5905 section 10)."""

import math
from typing import NamedTuple, Sequence

from .notes import met
from .units import LEAST_DISPERSION, MICROSECONDS, MOST_DISPERSION, MOST_RATE, SECOND, ceiling, phi

STAGES = 8
# How far a sample may be from the first and still count by its whole distance: 256 s.
MOST_DIFFERENCE = 2**40
# The least time over which a rate is taken, in microseconds.
LEAST_APART = 30_000_000
MOST_STRATUM = 15


class Sample(NamedTuple):
    """A sample: its moment, spans in units of 2^-32 s, and shorts in units of 2^-16 s."""

    at: int
    offset: int
    delay: int
    dispersion: int
    stratum: int
    address: int
    root_delay: int
    root_dispersion: int


class Figures(NamedTuple):
    """A source's estimate."""

    feed: int
    offset: int
    delay: int
    dispersion: int
    jitter2: int
    jitter: int
    taken_at: int
    newest: int
    stratum: int
    address: int
    root_delay: int
    root_dispersion: int
    rate: int

    def distance(self, now: int) -> int:
        delay = max(LEAST_DISPERSION, self.root_delay * 2**16 + self.delay)
        root = ceiling(delay, 2) + self.root_dispersion * 2**16
        return root + self.dispersion + phi(now - self.taken_at) + self.jitter

    def is_fit(self, now: int) -> bool:
        if self.stratum >= MOST_STRATUM:
            met("page: a stratum that is too great")
        if self.distance(now) > SECOND:
            met("page: a distance that is too great")
        return self.distance(now) <= SECOND and self.stratum < MOST_STRATUM


def square(difference: int) -> int:
    """The square of a difference of offsets, counted as 256 s at most."""
    if abs(difference) > MOST_DIFFERENCE:
        met("page: a difference above 256 s")
    return min(MOST_DIFFERENCE, abs(difference)) ** 2


def rate_of(held: Sequence[Sample]) -> int:
    """The growth of the offset in a second, from the first sample of the least moment to the last of the greatest."""
    first = min(held, key=lambda one: one.at)
    last = max(reversed(held), key=lambda one: one.at)
    apart = last.at - first.at
    if apart < LEAST_APART:
        met("page: a rate over less than 30 s")
        return 0
    rate = (last.offset - first.offset) * MICROSECONDS // apart
    if abs(rate) > MOST_RATE:
        met(f"page: a rate that is too {'great' if rate > 0 else 'low'}")
    met(f"page: a rate {'below' if rate < 0 else 'from'} 0")
    return max(-MOST_RATE, min(MOST_RATE, rate))


def figures_of(feed: int, held: Sequence[Sample]) -> Figures:
    """The figures of a feed; its held samples are in the order of the journal."""
    # A sort keeps the order of equals, so of equal delays the later comes first.
    ordered = sorted(reversed(held), key=lambda one: one.delay)
    newest = max(one.at for one in held)
    if len({one.delay for one in held}) < len(held):
        met("page: two samples of one delay")
    dispersion = 0
    for stage in range(STAGES):
        aged = MOST_DISPERSION
        if stage < len(ordered):
            aged = min(aged, ordered[stage].dispersion + phi(newest - ordered[stage].at))
            if aged == MOST_DISPERSION:
                met("page: a dispersion of 16 s")
        dispersion += ceiling(aged, 2 ** (stage + 1))
    best, others = ordered[0], ordered[1:]
    jitter2 = sum(square(one.offset - best.offset) for one in others) // len(others) if others else 0
    return Figures(
        feed,
        best.offset,
        best.delay,
        dispersion,
        jitter2,
        math.isqrt(jitter2),
        best.at,
        newest,
        best.stratum,
        best.address,
        best.root_delay,
        best.root_dispersion,
        rate_of(held),
    )
