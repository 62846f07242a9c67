"""For each rule on a plan's bits, edits of a good minute's bits that break it."""

from typing import Callable

from lab.model import plan_dcf as dcf, plan_msf as msf, plan_wwvb as wwvb
from lab.model.fields import Bits, Field
from lab.model.receiver import PLANS

Edit = Callable[[Bits], None]


def flip(*places: int) -> Edit:
    """The bits of these places become the other ones."""

    def edit(bits: Bits) -> None:
        for place in places:
            bits[place] ^= 1

    return edit


def set_to(value: int, *places: int) -> Edit:
    def edit(bits: Bits) -> None:
        for place in places:
            bits[place] = value

    return edit


def number(plan: str, field: Field, value: int) -> Edit:
    """A field has this number, and the parities fit."""

    def edit(bits: Bits) -> None:
        field.put(bits, value)
        PLANS[plan].put_parities(bits)

    return edit


def digit(plan: str, field: Field, unit: int, value: int) -> Edit:
    """A field's digit has this value, which may be above 9, and the parities fit."""

    def edit(bits: Bits) -> None:
        field.put_digit(bits, unit, value)
        PLANS[plan].put_parities(bits)

    return edit


def together(*edits: Edit) -> Edit:
    def edit(bits: Bits) -> None:
        for one in edits:
            one(bits)

    return edit


def _dates(plan: str, day: Field, month: Field, year: Field) -> list[tuple[str, Edit]]:
    """Dates that aren't there."""
    return [
        ("the 31st of April", together(number(plan, month, 4), number(plan, day, 31))),
        ("the 30th of February", together(number(plan, month, 2), number(plan, day, 30))),
        ("the 29th of February 2026", together(number(plan, month, 2), number(plan, day, 29))),
        ("the 29th of February 2001", together(number(plan, year, 1), number(plan, month, 2), number(plan, day, 29))),
    ]


def _ranges(plan: str, first: int, with_day: bool) -> dict[int, list[tuple[str, Edit]]]:
    """The ranges of minute, hour and day, whose rules have these numbers."""
    fields = PLANS[plan].FIELDS
    minute, hour, day = fields["minute"], fields["hour"], fields["day"]
    found = {
        first: [
            ("minute 60", number(plan, minute, 60)),
            ("minute 79", number(plan, minute, 79)),
            ("a minute of ten ones", digit(plan, minute, 1, 10)),
            ("a minute of fifteen ones", digit(plan, minute, 1, 15)),
        ],
        first + 1: [
            ("hour 24", number(plan, hour, 24)),
            ("hour 39", number(plan, hour, 39)),
            ("an hour of ten ones", together(number(plan, hour, 0), digit(plan, hour, 1, 10))),
            ("an hour of fifteen ones", together(number(plan, hour, 0), digit(plan, hour, 1, 15))),
        ],
    }
    if with_day:
        found[first + 2] = [
            ("day 0", number(plan, day, 0)),
            ("day 32", number(plan, day, 32)),
            ("day 39", number(plan, day, 39)),
            ("a day of ten ones", together(number(plan, day, 0), digit(plan, day, 1, 10))),
            ("a day of fifteen ones", together(number(plan, day, 10), digit(plan, day, 1, 15))),
        ]
    return found


def _years(plan: str, year: Field) -> list[tuple[str, Edit]]:
    return [
        ("a year of ten ones", digit(plan, year, 1, 10)),
        ("a year of fifteen ones", digit(plan, year, 1, 15)),
        ("a year of ten tens", digit(plan, year, 10, 10)),
        ("a year of fifteen tens", digit(plan, year, 10, 15)),
    ]


def _months(plan: str, month: Field) -> list[tuple[str, Edit]]:
    return [
        ("month 0", number(plan, month, 0)),
        ("month 13", number(plan, month, 13)),
        ("month 19", number(plan, month, 19)),
        ("a month of ten ones", together(number(plan, month, 0), digit(plan, month, 1, 10))),
    ]


def _parities(plan: str, first: int) -> dict[int, list[tuple[str, Edit]]]:
    """Each place of each parity, alone."""
    return {
        first + i: [(f"bit {place} against its parity", flip(place)) for place in places]
        for i, places in enumerate(PLANS[plan].PARITIES)
    }


BREAKS: dict[str, dict[int, list[tuple[str, Edit]]]] = {
    "dcf": {
        10: [("start bit 1", set_to(1, dcf.START))],
        11: [
            ("both zone bits 1", set_to(1, dcf.SUMMER, dcf.STANDARD)),
            ("both zone bits 0", set_to(0, dcf.SUMMER, dcf.STANDARD)),
        ],
        12: [("time bit 0", set_to(0, dcf.TIME))],
        **_parities("dcf", 13),
        **_ranges("dcf", 16, True),
        19: [("weekday 0", number("dcf", dcf.WEEKDAY, 0))],
        20: _months("dcf", dcf.MONTH),
        21: _years("dcf", dcf.YEAR),
        22: _dates("dcf", dcf.DAY, dcf.MONTH, dcf.YEAR),
        23: [(f"weekday {day} of a Thursday", number("dcf", dcf.WEEKDAY, day)) for day in (1, 2, 3, 5, 6, 7)],
    },
    "msf": {
        30: [(f"bit {52 + i}A of the identifier", flip(52 + i)) for i in range(8)],
        **_parities("msf", 31),
        **_ranges("msf", 35, True),
        38: [("weekday 7", number("msf", msf.WEEKDAY, 7))],
        39: _months("msf", msf.MONTH),
        40: _years("msf", msf.YEAR),
        41: _dates("msf", msf.DAY, msf.MONTH, msf.YEAR),
        42: [(f"weekday {day} of a Thursday", number("msf", msf.WEEKDAY, day)) for day in (0, 1, 2, 3, 5, 6)],
    },
    "wwvb": {
        51: [(f"place {place}, which is always 0", set_to(1, place)) for place in wwvb.RESERVED],
        52: [
            (
                f"the sign of DUT1 {one:03b}",
                together(set_to(0, 36, 37, 38), flip(*(36 + i for i in range(3) if one >> (2 - i) & 1))),
            )
            for one in (0, 1, 3, 4, 6, 7)
        ],
        **_ranges("wwvb", 53, False),
        55: _years("wwvb", wwvb.YEAR),
        56: [
            ("day 0", number("wwvb", wwvb.DAY, 0)),
            ("day 366 of 2026", number("wwvb", wwvb.DAY, 366)),
            ("day 367 of 2024", together(number("wwvb", wwvb.YEAR, 24), number("wwvb", wwvb.DAY, 367))),
            ("day 399", number("wwvb", wwvb.DAY, 399)),
            ("a day of ten ones", digit("wwvb", wwvb.DAY, 1, 10)),
            ("a day of ten tens", digit("wwvb", wwvb.DAY, 10, 10)),
            ("a day of fifteen tens", together(number("wwvb", wwvb.DAY, 1), digit("wwvb", wwvb.DAY, 10, 15))),
        ],
    },
}
