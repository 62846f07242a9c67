"""From reductions to marks, and from marks to segments (docs/FORMATS.md, "Marks" and "Segments")."""

import enum
from typing import NamedTuple, Sequence


class Symbol(enum.Enum):
    ZERO = "Zero"
    ONE = "One"
    ONLY_B = "OnlyB"
    BOTH = "Both"
    LONG = "Long"
    ODD = "Odd"


class Reduction(NamedTuple):
    """A reduction of the carrier: where it starts and how long it lasts, in microseconds."""

    at: int
    width: int


class Mark(NamedTuple):
    """A mark, and the place of the reduction with which it is known."""

    at: int
    symbol: Symbol
    known: int


class Segment(NamedTuple):
    """The marks from a boundary up to the mark that closes them."""

    marks: Sequence[Mark]
    close: Mark

    @property
    def symbols(self) -> list[Symbol]:
        return [mark.symbol for mark in self.marks]


# The least and the greatest width of each class, in microseconds.
CLASSES = {
    "dcf": ((40000, 149999, Symbol.ZERO), (150000, 260000, Symbol.ONE)),
    "msf": (
        (40000, 149999, Symbol.ZERO),
        (150000, 249999, Symbol.ONE),
        (250000, 399999, Symbol.BOTH),
        (400000, 600000, Symbol.LONG),
    ),
    "wwvb": ((100000, 349999, Symbol.ZERO), (350000, 649999, Symbol.ONE), (650000, 900000, Symbol.LONG)),
}
# How far apart two reductions start that are one mark of MSF, and the gap that begins a minute of DCF77.
JOINED = (150000, 250000)
GAP = (1900000, 2100000)


def symbol_of(plan: str, width: int) -> Symbol:
    """The symbol of a width."""
    for least, most, symbol in CLASSES[plan]:
        if least <= width <= most:
            return symbol
    return Symbol.ODD


def marks(plan: str, reductions: Sequence[Reduction]) -> list[Mark]:
    """The marks that the reductions give."""
    symbols = [symbol_of(plan, one.width) for one in reductions]
    if plan != "msf":
        return [Mark(one.at, symbol, place) for place, (one, symbol) in enumerate(zip(reductions, symbols))]
    found = []
    place = 0
    while place < len(reductions):
        parts = 2 if _joins(reductions, symbols, place) else 1
        symbol = Symbol.ONLY_B if parts == 2 else symbols[place]
        found.append(Mark(reductions[place].at, symbol, place + parts))
        place += parts
    # A mark of MSF is known with the reduction after its last part.
    return [mark for mark in found if mark.known < len(reductions)]


def _joins(reductions: Sequence[Reduction], symbols: Sequence[Symbol], place: int) -> bool:
    """Whether this reduction of MSF and the next are one mark, where the one before isn't joined to it."""
    if symbols[place : place + 2] != [Symbol.ZERO, Symbol.ZERO]:
        return False
    return JOINED[0] <= reductions[place + 1].at - reductions[place].at <= JOINED[1]


def is_boundary(plan: str, before: Mark | None, mark: Mark) -> bool:
    """Whether a mark begins a minute, by the mark before it."""
    if plan == "msf":
        return mark.symbol is Symbol.LONG
    if before is None:
        return False
    if plan == "dcf":
        return GAP[0] <= mark.at - before.at <= GAP[1]
    return mark.symbol is before.symbol is Symbol.LONG


def segments(plan: str, found: Sequence[Mark]) -> list[Segment]:
    """The segments between each two boundaries that follow one another."""
    begins = [
        place for place, mark in enumerate(found) if is_boundary(plan, found[place - 1] if place else None, mark)
    ]
    return [Segment(found[first:last], found[last]) for first, last in zip(begins, begins[1:])]
