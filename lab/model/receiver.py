"""What a receiver answers for a list of reductions: each segment judged by itself and the one just before it
(docs/CODE_PLANS.md).
"""

from types import ModuleType
from typing import NamedTuple, Sequence

from . import plan_dcf, plan_msf, plan_wwvb
from .fields import Coded, first_broken
from .marks import Reduction, Segment, marks, segments
from .notes import met

PLANS: dict[str, ModuleType] = {"dcf": plan_dcf, "msf": plan_msf, "wwvb": plan_wwvb}
# A minute on the host's counter, also one with a leap second, and how far off either may be, in microseconds.
MINUTE, LONG_MINUTE, SLACK = 60_000_000, 61_000_000, 100_000


class Answer(NamedTuple):
    """An answer: the place of the reduction with which it is known, the start of the closing mark, its keyword and
    numbers.
    """

    known: int
    close: int
    word: str
    values: tuple[int, ...]


def heard(plan: str, reductions: Sequence[Reduction]) -> list[Answer]:
    """One answer for each segment of the reductions, in order."""
    found = segments(plan, marks(plan, reductions))
    judged = [(segment, *judge(plan, segment)) for segment in found]
    return [_answer(plan, judged[place - 1] if place else None, judged[place]) for place in range(len(judged))]


def judge(plan: str, segment: Segment) -> tuple[int | None, Coded | None]:
    """The first broken rule, or what the segment says."""
    bits = PLANS[plan].bits_of(segment.symbols)
    rule = first_broken(PLANS[plan].RULES, segment, bits)
    if rule is None:
        return None, PLANS[plan].coded(bits)
    met(f"{plan}: rule {rule.number} {rule.name}")
    return rule.number, None


def _answer(plan: str, before, here) -> Answer:
    segment, rule, now = here
    close = segment.close
    if rule is not None:
        return Answer(close.known, close.at, "refused", (rule,))
    if before is None or before[1] is not None:
        met(f"{plan}: lone, {'the first' if before is None else 'after a refused one'}")
        return Answer(close.known, close.at, "lone", (now.minute,))
    earlier, _, then = before
    apart = close.at - earlier.close.at
    is_long = plan == "dcf" and len(segment.marks) == 60
    follows = abs(apart - MINUTE) <= SLACK or is_long and abs(apart - LONG_MINUTE) <= SLACK
    if now.minute == then.minute + 60 and follows:
        leap_at = now.leap_at if now.leap_at == then.leap_at else 0
        agreed = "a leap second" if leap_at else "no leap second"
        met(f"{plan}: verdict, {agreed if now.leap_at == then.leap_at else 'of two leap seconds'}")
        return Answer(close.known, close.at, "verdict", (now.minute, leap_at))
    met(f"{plan}: differs, {'by its minute' if follows else 'by the counter'}")
    return Answer(close.known, close.at, "differs", (then.minute, now.minute, apart))


def moment(close: int, delay: int) -> int:
    """The moment of an answer of a receiver with this delay of the path, in microseconds."""
    return max(0, close - delay)
