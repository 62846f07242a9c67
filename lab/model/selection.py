"""Selection, clustering and combining (docs/PAGE.md sections 6 to 8; RFC 5905 sections 11.2.1 to 11.2.3 in this
project's profile).
"""

from typing import Sequence

from .figures import Figures, square
from .notes import met

LEAST_LEFT = 3
WEIGHT = 2**62


def interval(fit: Sequence[Figures], now: int) -> tuple[int, int] | None:
    """The interval on which all but the least number of falsetickers agree."""
    ends = [(one.offset - one.distance(now), one.offset + one.distance(now)) for one in fit]

    def cover(point: int) -> int:
        return sum(low <= point <= high for low, high in ends)

    for false in range((len(fit) + 1) // 2):
        enough = len(fit) - false
        lows = [low for low, _ in ends if cover(low) >= enough]
        highs = [high for _, high in ends if cover(high) >= enough]
        if not lows or not highs:
            continue
        low, high = min(lows), max(highs)
        if low == high:
            met("page: intervals that touch")
        if low < high and sum(not low <= one.offset <= high for one in fit) <= false:
            met(f"page: {'some' if false else 'no'} falsetickers")
            return low, high
        if low < high:
            met("page: too many offsets outside")
    met(f"page: {'no interval' if fit else 'no source is fit'}")
    return None


def _spread(one: Figures, of: Sequence[Figures]) -> int:
    """The selection jitter: the mean square of the differences to the others, rounded down."""
    return sum(square(other.offset - one.offset) for other in of) // (len(of) - 1)


def clustered(survivors: Sequence[Figures], now: int) -> list[Figures]:
    """Those that are left, by stratum, distance and feed."""
    rest = sorted(survivors, key=lambda one: (one.stratum, one.distance(now), one.feed))
    while len(rest) > LEAST_LEFT:
        spreads = [_spread(one, rest) for one in rest]
        if max(spreads) < min(one.jitter2 for one in rest):
            met("page: more than three are left")
            break
        met("page: a source is discarded")
        if spreads.count(max(spreads)) > 1:
            met("page: of equal spreads the later is discarded")
        # Of equal ones the later is discarded.
        del rest[max(place for place, spread in enumerate(spreads) if spread == max(spreads))]
    return rest


def rest_of(sources: Sequence[Figures], now: int) -> list[Figures]:
    """The sources that give the time, the system peer first."""
    fit = [one for one in sources if one.is_fit(now)]
    agreed = interval(fit, now)
    if agreed is None:
        return []
    low, high = agreed
    return clustered([one for one in fit if low <= one.offset <= high], now)


def mean(rest: Sequence[Figures], now: int) -> int:
    """The offsets' mean, weighted by the inverse of the distances, rounded down."""
    weights = [WEIGHT // one.distance(now) for one in rest]
    return sum(weight * one.offset for weight, one in zip(weights, rest)) // sum(weights)
