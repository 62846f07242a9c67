"""WWVB's amplitude code as NIST publishes it in Special Publication 432 (docs/CODE_PLANS.md)."""

from . import dates
from .fields import Bits, Coded, Field, Rule, has_bad_spacing, has_odd_width
from .marks import Segment, Symbol

LENGTHS = (60,)
MARKERS = (0, 9, 19, 29, 39, 49, 59)
RESERVED = (4, 10, 11, 14, 20, 21, 24, 34, 35, 44, 54)
MINUTE = Field((1, (40, 20, 10)), (5, (8, 4, 2, 1)))
HOUR = Field((12, (20, 10)), (15, (8, 4, 2, 1)))
DAY = Field((22, (200, 100)), (25, (80, 40, 20, 10)), (30, (8, 4, 2, 1)))
YEAR = Field((45, (80, 40, 20, 10)), (50, (8, 4, 2, 1)))
FIELDS = {"minute": MINUTE, "hour": HOUR, "day": DAY, "year": YEAR}
SIGN = 36
SIGNS = ([1, 0, 1], [0, 1, 0])
LEAP = 56
PARITIES = ()


def bits_of(symbols: list[Symbol]) -> Bits:
    return [int(place < len(symbols) and symbols[place] is Symbol.ONE) for place in range(60)]


def symbols_of(bits: Bits, length: int) -> list[Symbol]:
    return [
        Symbol.LONG if place in MARKERS else Symbol.ONE if bits[place] else Symbol.ZERO for place in range(length)
    ]


def put_parities(bits: Bits) -> None:
    """WWVB has none."""


def _sent(bits: Bits) -> int:
    """The minute in which the frame is sent; its day has to be one of the year."""
    year = dates.second_of(2000 + YEAR.value(bits), 1, 1)
    return year + (DAY.value(bits) - 1) * dates.DAY + HOUR.value(bits) * dates.HOUR + MINUTE.value(bits) * 60


def coded(bits: Bits) -> Coded:
    """What a valid segment says: the minute after the one in which it is sent."""
    sent = _sent(bits)
    return Coded(sent + 60, dates.month_after(sent) if bits[LEAP] else 0)


def spelt(one: Coded) -> list[Symbol]:
    date = dates.civil(one.minute - 60)
    bits = [0] * 60
    numbers = (date.minute, date.hour, date.timetuple().tm_yday, date.year % 100)
    for field, number in zip(FIELDS.values(), numbers):
        field.put(bits, number)
    bits[SIGN : SIGN + 3] = SIGNS[0]
    bits[LEAP] = int(one.leap_at != 0)
    return symbols_of(bits, 60)


def _has_bad_markers(segment: Segment) -> bool:
    return any((symbol is Symbol.LONG) != (place in MARKERS) for place, symbol in enumerate(segment.symbols))


def _is_bad_day(bits: Bits) -> bool:
    return DAY.has_odd_digit(bits) or not 1 <= DAY.value(bits) <= dates.days_of(2000 + YEAR.value(bits))


RULES = (
    Rule(1, "Spacing", lambda segment, _: has_bad_spacing(segment, with_close=True)),
    Rule(2, "Width", lambda segment, _: has_odd_width(segment)),
    Rule(3, "Length", lambda segment, _: len(segment.marks) not in LENGTHS),
    Rule(50, "Markers", lambda segment, _: _has_bad_markers(segment)),
    Rule(51, "Reserved", lambda _, bits: any(bits[place] for place in RESERVED)),
    Rule(52, "DutSign", lambda _, bits: bits[SIGN : SIGN + 3] not in SIGNS),
    Rule(53, "MinuteRange", lambda _, bits: MINUTE.has_odd_digit(bits) or MINUTE.value(bits) > 59),
    Rule(54, "HourRange", lambda _, bits: HOUR.has_odd_digit(bits) or HOUR.value(bits) > 23),
    Rule(55, "YearRange", lambda _, bits: YEAR.has_odd_digit(bits)),
    Rule(56, "DayOfYear", lambda _, bits: _is_bad_day(bits)),
    Rule(58, "LeapMinute", lambda _, bits: bits[LEAP] == 1 and dates.begins_month(_sent(bits) + 60)),
)
