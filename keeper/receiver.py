"""What the marks of a receiver look like: which way round its output is, of which sender they may
be, and whether they are too long or too short. `check` and the reporter say the same of them."""

import statistics
from dataclasses import dataclass, field
from enum import Enum

from keeper.durations import length
from keeper.reporter.rules import PLANS

SECOND = 1_000_000
BORDER = 40_000  # beside a second a mark may be so far off (us)
LEAST = 5  # with fewer marks nothing is said of them
MOST = 3.0  # more marks a second are noise
HUMS = (50.0, 60.0, 100.0, 120.0)  # what mains makes of a line, in pulses a second
# Of each plan's symbols the widths as docs/FORMATS.md has them, from and to, and the width that the
# sender sends (us).
CLASSES = {
    "dcf": ((40_000, 149_999, 100_000), (150_000, 260_000, 200_000)),
    "msf": ((40_000, 149_999, 100_000), (150_000, 249_999, 200_000), (250_000, 399_999, 300_000),
            (400_000, 600_000, 500_000)),
    "wwvb": ((100_000, 349_999, 200_000), (350_000, 649_999, 500_000), (650_000, 900_000, 800_000)),
}
FIT = 0.9  # the part of the marks that has to be of a class
SCATTER = 25_000  # a mark may be so far from what is sent, once all are moved by one number (us)
SHIFTS = range(-90_000, 200_001, 5_000)  # by so much all marks may be longer than sent (us)

Mark = tuple[float, float]  # its start and its width (us)


class Level(Enum):
    """How a finding is meant."""

    WELL = "well"
    NOTE = "note"
    BAD = "BAD"


Finding = tuple[Level, str]


@dataclass
class Marks:
    """`rate` is marks a second. `inverted` is None where they begin anywhere. `plans` are those
    that they may be of. `is_sure` is False where MSF or WWVB is among them for the widths alone:
    none was a marker of WWVB or the minute mark of MSF, and no second had two."""

    rate: float = 0.0
    widths: list[int] = field(default_factory=list)
    inverted: bool | None = None
    plans: list[str] = field(default_factory=list)
    is_sure: bool = True


def marks_of(marks: list[Mark], seconds: float) -> Marks:
    """What marks of a number of seconds look like."""
    seen = Marks(len(marks) / seconds, [round(width) for _, width in marks])
    if len(marks) >= LEAST and seen.rate <= MOST:
        seen.inverted = is_inverted(marks)
        turned = [(start + width, SECOND - width % SECOND) for start, width in marks]
        seen.plans, seen.is_sure = plans_of(turned if seen.inverted else marks)
    return seen


def scatter(moments: list[float]) -> float:
    """How far moments lie off whole seconds from one another (us): the mean distance of the nearest
    three quarters from the phase of one of them, at its best."""
    best = SECOND / 2
    for base in moments:
        away = sorted(abs((one - base + SECOND / 2) % SECOND - SECOND / 2) for one in moments)
        best = min(best, statistics.fmean(away[: -(-3 * len(away) // 4)]))
    return best


def is_inverted(marks: list[Mark]) -> bool | None:
    """A sender's marks begin on the second. Where their ends lie on it and their starts don't, the
    output is the other way round."""
    starts = scatter([start for start, _ in marks])
    ends = scatter([start + width for start, width in marks])
    if min(starts, ends) > BORDER:
        return None
    if abs(starts - ends) > 10_000:
        return ends < starts
    # All are equally wide, so both are as steady: a mark is seldom longer than half a second.
    return statistics.median(width for _, width in marks) > SECOND * 0.6


def symbol(plan: str, width: float) -> int:
    """The width that is sent for what a plan reads of this one, 0 for none (us)."""
    classes = CLASSES[plan]
    return next((sent for least, most, sent in classes if least <= int(width) <= most), 0)


def fits(plan: str, widths: list[float]) -> bool:
    """Whether a plan reads nine of ten."""
    return sum(symbol(plan, width) > 0 for width in widths) >= FIT * len(widths)


def plans_of(marks: list[Mark]) -> tuple[list[str], bool]:
    """The plans of which these marks may be, and whether that is sure. DCF77 and MSF can't always
    be distinguished in some seconds."""
    widths = [width for _, width in marks]
    found = [plan for plan in CLASSES if fits(plan, widths)]
    if "wwvb" in found and any(width >= 650_000 for width in widths):
        return ["wwvb"], True  # a marker, every ten seconds
    if sum(width < 150_000 for width in widths) > (1 - FIT) * len(widths):
        found = [plan for plan in found if plan != "wwvb"]  # its shortest mark has 0.2 s
    minutes = [start for start, width in marks if 400_000 <= width <= 600_000]
    # Of sixty seconds MSF's minute mark begins one, and one alone.
    is_minute = bool(minutes) or marks[-1][0] - marks[0][0] <= 58.5 * SECOND
    if not is_minute or any(b - a < 50 * SECOND for a, b in zip(minutes, minutes[1:])):
        found = [plan for plan in found if plan != "msf"]
    # Two short parts in one second, and a mark of 0.5 s, are none of DCF77.
    pairs = any(150_000 <= other[0] - one[0] <= 250_000 and max(one[1], other[1]) < 150_000
                for one, other in zip(marks, marks[1:]))
    if "msf" in found and (pairs or minutes):
        return [plan for plan in found if plan != "dcf"], True
    return found, "dcf" in found or (found == ["wwvb"] and len(minutes) > 1)


def shift_of(plan: str, widths: list[int]) -> int:
    """By how much all marks are longer than this plan's sender sends them, where they are not read
    as they are meant; 0 where they are, or where no number fits (us)."""
    sent = [one for *_, one in CLASSES[plan]]
    # Ten seconds of each sender have its shortest mark, so of two widths the shorter one is that.
    begins = len(widths) >= 10 and max(widths) - min(widths) > 2 * SCATTER

    def rate(shift: int) -> tuple[int, bool, int]:
        near = [one for one in widths if min(abs(one - shift - other) for other in sent) <= SCATTER]
        is_first = begins and any(abs(one - shift - sent[0]) <= SCATTER for one in near)
        return len(near), is_first, -abs(shift)

    shift = max(SHIFTS, key=rate)
    meant = [min(sent, key=lambda other: abs(one - shift - other)) for one in widths]
    as_meant = sum(symbol(plan, width) == one for width, one in zip(widths, meant))
    if rate(shift)[0] < FIT * len(widths) or as_meant >= FIT * len(widths):
        return 0
    return round(statistics.median(width - one for width, one in zip(widths, meant)))


def judge(seen: Marks, plan: str) -> Finding:
    """A sentence on the marks of a radio of this plan, of which there is one at least."""
    least, most = (length(one / 1e6) for one in (min(seen.widths), max(seen.widths)))
    level, said = _judged(seen, plan)
    return level, f"{seen.rate:.1f} marks a second, widths {least} to {most}: {said}"


def _judged(seen: Marks, plan: str) -> Finding:
    if any(abs(seen.rate - one) < 0.04 * one for one in HUMS):
        return Level.BAD, "the line hums with the mains: look at its wiring, its pull-up and ground"
    if seen.rate > MOST:
        return Level.BAD, "noise, or another signal"
    if len(seen.widths) < LEAST:
        return Level.NOTE, "too few to say more; read it for longer with --seconds 60"
    if seen.inverted is None:
        return Level.BAD, "its marks begin anywhere in a second: interference, or another signal"
    if seen.inverted:
        turn = "give edges_to_log.py `--low`, or take it away"
        return Level.BAD, f"its output is the other way round: {turn}"
    name, may_be = PLANS.get(plan, plan), " or ".join(PLANS[one] for one in seen.plans)
    shift = shift_of(plan, seen.widths) if plan in PLANS else 0
    if plan in seen.plans and not shift:
        return Level.WELL, f"marks of {may_be}"
    if seen.plans and seen.is_sure and plan not in seen.plans:
        return Level.BAD, f"marks of {may_be}, and the station says {name}"
    if shift:
        how = f"too {'long' if shift > 0 else 'short'} by some {abs(shift) / 1e3:.0f} ms for {name}"
        return Level.BAD, f"{how}: the receiver's threshold, or its pull-up"
    why = "interference, or the receiver's threshold"
    return Level.BAD, f"marks of no plan that is known, and the station says {name}: {why}"
