"""Minutes as reductions: how a coded minute is sent, and the logs that `drill` makes (docs/FORMATS.md, "The made
log").
"""

from typing import Iterator, NamedTuple, Sequence

from .fields import Coded
from .marks import Symbol
from .receiver import PLANS

SECOND = 1_000_000
# The widths of a symbol's reduction, in microseconds. OnlyB has two, the second 200 ms after the first.
WIDTHS = {
    "dcf": {Symbol.ZERO: 100000, Symbol.ONE: 200000, Symbol.ODD: 30000},
    "msf": {Symbol.ZERO: 100000, Symbol.ONE: 200000, Symbol.BOTH: 300000, Symbol.LONG: 500000, Symbol.ODD: 30000},
    "wwvb": {Symbol.ZERO: 200000, Symbol.ONE: 500000, Symbol.LONG: 800000, Symbol.ODD: 30000},
}
SECOND_PART = 200000


class Beat(NamedTuple):
    """A second of a sender: where it starts and its reductions, each by its distance from there and its width."""

    at: int
    parts: tuple[tuple[int, int], ...]


def parts_of(plan: str, symbol: Symbol) -> tuple[tuple[int, int], ...]:
    """The reductions of a symbol."""
    if symbol is Symbol.ONLY_B:
        width = WIDTHS[plan][Symbol.ZERO]
        return ((0, width), (SECOND_PART, width))
    return ((0, WIDTHS[plan][symbol]),)


class Tape:
    """Minutes as they are sent, with what has to come before the first and after the last. `begins` has the place of
    the first mark of each minute and of the mark that closes the last.
    """

    def __init__(self, plan: str, minutes: Sequence[Sequence[Symbol]], start: int = 2 * SECOND):
        self.plan = plan
        self.beats: list[Beat] = []
        self.begins: list[int] = []
        if plan == "dcf":
            self._put(start - 2 * SECOND, Symbol.ZERO)
        if plan == "wwvb":
            self._put(start - SECOND, Symbol.LONG)
        for symbols in minutes:
            self.begins.append(len(self.beats))
            for place, symbol in enumerate(symbols):
                self._put(start + place * SECOND, symbol)
            start += SECOND * (len(symbols) + 1 if plan == "dcf" else len(symbols))
        self.begins.append(len(self.beats))
        self._put(start, Symbol.ZERO if plan == "dcf" else Symbol.LONG)
        if plan == "msf":
            self._put(start + SECOND, Symbol.ZERO)

    def _put(self, at: int, symbol: Symbol) -> None:
        self.beats.append(Beat(at, parts_of(self.plan, symbol)))

    def place(self, minute: int, place: int) -> int:
        """The place among the beats of a minute's mark; the minute after the last has one mark."""
        return self.begins[minute] + place

    def move(self, place: int, by: int, count: int | None = None) -> None:
        """Moves this many beats from this place on, or all of them."""
        last = len(self.beats) if count is None else place + count
        self.beats[place:last] = [beat._replace(at=beat.at + by) for beat in self.beats[place:last]]

    def widen(self, place: int, width: int) -> None:
        """Gives a beat one reduction of this width."""
        self.beats[place] = self.beats[place]._replace(parts=((0, width),))

    def remove(self, place: int) -> None:
        self.beats[place] = self.beats[place]._replace(parts=())

    def reductions(self) -> Iterator[tuple[int, int]]:
        for beat in self.beats:
            for after, width in beat.parts:
                yield beat.at + after, width

    def log(self) -> bytes:
        """The tape as a log; a reduction that would start at or before the one before it is left out, as a receiver's
        log has none.
        """
        lines, last = [], -1
        for at, width in self.reductions():
            if at > last:
                lines.append(f"{at} {width}\n")
                last = at
        return "".join(lines).encode()


DRILL_FIRST, DRILL_MINUTES = 3981312000, 1440


def made_log(plan: str, seed: int, minutes: int = DRILL_MINUTES) -> bytes:
    """The log of a plan that `drill` makes with this seed."""
    spell = PLANS[plan].spelt
    tape = Tape(plan, [spell(Coded(DRILL_FIRST + 60 * (minute + 1))) for minute in range(minutes)])
    for minute in range(1, minutes):
        if minute % 50 == seed % 50:
            tape.widen(tape.place(minute, 30), WIDTHS[plan][Symbol.ODD])
    number = (seed + list(PLANS).index(plan)) % 2**31
    lines = []
    for beat in tape.beats:
        number = (1103515245 * number + 12345) % 2**31
        start = 5 * SECOND + beat.at + number % 2001
        lines += [f"{start + after} {width}\n" for after, width in beat.parts]
    return "".join(lines).encode()
