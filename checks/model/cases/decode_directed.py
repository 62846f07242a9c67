"""Logs for `decode` that are each meant for one rule, border or outcome."""

from typing import Callable, Iterator

from lab.model import dates
from lab.model.commands import decode
from lab.model.fields import Coded
from lab.model.marks import CLASSES, Symbol
from lab.model.receiver import PLANS
from lab.model.spelling import Tape
from .case import Case
from .frames import BREAKS, Edit, flip, number

# 2026-01-01 12:00 UTC, a Thursday.
NOON = 3976257600


def of_log(plan: str, name: str, log: bytes, meant: str | None = None) -> Case:
    words = ["decode", "--plan", plan, "--log", "log"]
    return Case(f"{plan}: {name}", words, {"log": log}, lambda _: decode(plan, log), meant)


def spelt(
    plan: str, minute: int = NOON, leap_at: int = 0, summer: bool = False, edit: Edit | None = None
) -> list[Symbol]:
    """A minute's symbols, with an edit of its bits."""
    module = PLANS[plan]
    symbols = module.spelt(Coded(minute, leap_at, summer))
    if edit is None:
        return symbols
    bits = module.bits_of(symbols)
    edit(bits)
    return module.symbols_of(bits, len(symbols))


def between(plan: str, edit: Edit) -> Tape:
    """A good minute, one with an edit, and a good one."""
    return Tape(plan, [spelt(plan), spelt(plan, NOON + 60, edit=edit), spelt(plan, NOON + 120)])


def rule(plan: str, number_of: int) -> str:
    """A rule as listed.py has it."""
    name = next(one.name for one in PLANS[plan].RULES if one.number == number_of)
    return f"{plan}: rule {number_of} {name}"


def broken_rules(plan: str) -> Iterator[Case]:
    """Each rule on bits in each way, and each two rules that follow one another."""
    for number_of, edits in BREAKS[plan].items():
        for name, edit in edits:
            yield of_log(plan, name, between(plan, edit).log(), rule(plan, number_of))
    numbers = list(BREAKS[plan])
    for first, second in zip(numbers, numbers[1:]):
        bits_edits = [BREAKS[plan][one][0][1] for one in (second, first)]

        def edit(bits, bits_edits=bits_edits):
            for one in bits_edits:
                one(bits)

        yield of_log(plan, f"of rules {first} and {second} the lesser", between(plan, edit).log(), rule(plan, first))


def changed(plan: str, name: str, change: Callable[[Tape], None], meant: str | None = None) -> Case:
    """Two good minutes, whose tape is changed."""
    tape = Tape(plan, [spelt(plan), spelt(plan, NOON + 60), spelt(plan, NOON + 120)])
    change(tape)
    return of_log(plan, name, tape.log(), meant)


def first_rules(plan: str) -> Iterator[Case]:
    """Spacing, widths and lengths, each at its borders; of two of them the lesser is named."""
    for gap in (899999, 900000, 1100000, 1100001):
        meant = rule(plan, 1) if gap in (899999, 1100001) else None
        yield changed(plan, f"marks {gap} apart", lambda tape: tape.move(tape.place(1, 30), gap - 1000000), meant)
        if plan != "dcf":
            yield changed(
                plan,
                f"a closing mark {gap} after the last",
                lambda tape: tape.move(tape.place(2, 0), gap - 1000000),
                meant,
            )
    yield changed(
        plan, "the first two marks too near", lambda tape: tape.move(tape.place(1, 0), 100001, 1), rule(plan, 1)
    )
    yield changed(plan, "an odd width", lambda tape: tape.widen(tape.place(1, 30), 30000), rule(plan, 2))
    yield changed(
        plan, "an odd width at the first mark", lambda tape: tape.widen(tape.place(1, 58), 30000), rule(plan, 2)
    )
    for count in (0, 1, 30, 58):

        def drop(tape: Tape, count: int = count) -> None:
            tape.remove(tape.place(1, count))

        yield changed(plan, f"mark {count} is lost", drop)
    length = 59 if plan == "dcf" else 60
    for marks in (length - 2, length - 1, length + 1, length + 2, 70):
        yield of_log(
            plan, f"a minute of {marks} marks", _minute_of(plan, marks).log(), rule(plan, 3) if marks != 60 else None
        )
        if marks > length + 1:
            tape = _minute_of(plan, marks)
            tape.widen(tape.place(1, marks - 1), 30000)
            yield of_log(plan, f"a minute of {marks} marks, the last one odd", tape.log(), rule(plan, 2))
            tape.move(tape.place(1, marks - 1), 100001, 1)
            yield of_log(plan, f"a minute of {marks} marks, the last one odd and too late", tape.log(), rule(plan, 1))
    tape = between(plan, BREAKS[plan][min(BREAKS[plan])][0][1])
    tape.move(tape.place(1, 20), 100001)
    yield of_log(plan, "bad spacing and a bad bit", tape.log(), rule(plan, 1))
    tape.widen(tape.place(0, 20), 30000)
    yield of_log(plan, "an odd width and a bad bit", tape.log(), rule(plan, 2))


def _minute_of(plan: str, marks: int) -> Tape:
    """Three minutes, of which the middle one has this many marks."""
    middle = spelt(plan, NOON + 60)
    middle = middle[:marks] + [Symbol.ZERO] * (marks - len(middle))
    return Tape(plan, [spelt(plan), middle, spelt(plan, NOON + 120)])


def widths(plan: str) -> Iterator[Case]:
    """Each border of each class, at a mark whose symbol shows in the answer."""
    place = {"dcf": 0, "msf": 58, "wwvb": 8}[plan]
    for least, most, symbol in CLASSES[plan]:
        for width in (least - 1, least, most, most + 1):
            yield changed(
                plan, f"a width of {width}, by {symbol.value}", lambda tape: tape.widen(tape.place(1, place), width)
            )
    for width in (1, 2000000):
        yield changed(
            plan, f"a width of {width}", lambda tape: tape.widen(tape.place(1, place), width), rule(plan, 2)
        )


def values(plan: str) -> Iterator[Case]:
    """Each value of each field, and each place flipped alone: a log of many minutes each."""
    last_day = {"minute": 59, "hour": 23, "day": 366 if plan == "wwvb" else 31, "weekday": 7, "month": 12, "year": 99}
    for name, field in PLANS[plan].FIELDS.items():
        minutes = [spelt(plan, edit=number(plan, field, value)) for value in range(last_day[name] + 2)]
        yield of_log(plan, f"each value of the field {name}", Tape(plan, minutes).log())
    places = range(60) if plan != "msf" else [*range(1, 60), *range(101, 160)]
    minutes = [spelt(plan, edit=flip(place)) for place in places]
    yield of_log(plan, "each bit flipped alone", Tape(plan, minutes).log())
    noons = [dates.second_of(year, 1, 1, 12) + dates.DAY * day for year in (2000, 2001) for day in range(366)]
    days = [noon for noon in noons if dates.civil(noon).year < 2002]
    yield of_log(
        plan,
        "each day of two years",
        Tape(plan, [spelt(plan, day) for day in days]).log(),
        f"{plan}: differs, by its minute",
    )
    years = [dates.second_of(year, month, 1) for year in range(2000, 2100) for month in (1, 3)]
    yield of_log(plan, "each year", Tape(plan, [spelt(plan, second) for second in years[1:]]).log())


def all_of(plan: str) -> Iterator[Case]:
    yield from broken_rules(plan)
    yield from first_rules(plan)
    yield from widths(plan)
    yield from values(plan)
