"""Fields of a code plan: sums of weights, digits, parities, and rules over a segment."""

from typing import Callable, NamedTuple, Sequence

from .marks import Segment, Symbol

Bits = list[int]


class Coded(NamedTuple):
    """What a frame says: the second that begins at its closing mark, where an announced leap second ends (or 0),
    summer time.
    """

    minute: int
    leap_at: int = 0
    summer: bool = False


class Rule(NamedTuple):
    """A rule's number, its name, and the sentence on a segment and its bits that it is broken."""

    number: int
    name: str
    broken: Callable[[Segment, Bits], bool]


class Field:
    """A number in decimal digits, each of which is a run of places with weights."""

    def __init__(self, *digits: tuple[int, tuple[int, ...]]):
        self.digits = digits

    @property
    def places(self) -> list[int]:
        return [first + i for first, weights in self.digits for i in range(len(weights))]

    def value(self, bits: Bits) -> int:
        return sum(_digit(bits, digit) for digit in self.digits)

    def has_odd_digit(self, bits: Bits) -> bool:
        """Whether a digit is above 9."""
        return any(_digit(bits, (first, weights)) > 9 * min(weights) for first, weights in self.digits)

    def put(self, bits: Bits, number: int) -> None:
        """Spells a number."""
        for _, weights in self.digits:
            self.put_digit(bits, min(weights), number // min(weights) % 10)

    def put_digit(self, bits: Bits, unit: int, digit: int) -> None:
        """Spells the digit of a unit (1, 10 or 100); it may be above 9, as far as its places go."""
        for first, weights in self.digits:
            left = digit * unit if min(weights) == unit else -1
            for weight in sorted(weights, reverse=True) if left >= 0 else ():
                bits[first + weights.index(weight)] = int(left >= weight)
                left -= weight if left >= weight else 0


def _digit(bits: Bits, digit: tuple[int, tuple[int, ...]]) -> int:
    first, weights = digit
    return sum(weight * bits[first + i] for i, weight in enumerate(weights))


def ones(bits: Bits, places: Sequence[int]) -> int:
    """How many of the places are 1."""
    return sum(bits[place] for place in places)


# How far apart two neighbouring marks start, in microseconds.
SPACING = (900000, 1100000)


def has_bad_spacing(segment: Segment, with_close: bool) -> bool:
    """Rule 1; with the closing mark where the plan's minutes have no gap before it."""
    starts = [mark.at for mark in segment.marks] + ([segment.close.at] if with_close else [])
    return any(not SPACING[0] <= after - before <= SPACING[1] for before, after in zip(starts, starts[1:]))


def has_odd_width(segment: Segment) -> bool:
    """Rule 2."""
    return Symbol.ODD in segment.symbols


def first_broken(rules: Sequence[Rule], segment: Segment, bits: Bits) -> Rule | None:
    """The broken rule of the least number. Those on a civil date stand after those that say that there is one."""
    return next((rule for rule in rules if rule.broken(segment, bits)), None)
