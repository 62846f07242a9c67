"""MSF's amplitude code as NPL publishes it (docs/CODE_PLANS.md). Bit A of place k stands at k among the bits, bit B
at B + k.
"""

from . import dates
from .fields import Bits, Coded, Field, Rule, has_bad_spacing, has_odd_width, ones
from .marks import Symbol

B = 100
LENGTHS = (60,)
YEAR = Field((17, (80, 40, 20, 10)), (21, (8, 4, 2, 1)))
MONTH = Field((25, (10,)), (26, (8, 4, 2, 1)))
DAY = Field((30, (20, 10)), (32, (8, 4, 2, 1)))
WEEKDAY = Field((36, (4, 2, 1)))
HOUR = Field((39, (20, 10)), (41, (8, 4, 2, 1)))
MINUTE = Field((45, (40, 20, 10)), (48, (8, 4, 2, 1)))
FIELDS = {"year": YEAR, "month": MONTH, "day": DAY, "weekday": WEEKDAY, "hour": HOUR, "minute": MINUTE}
IDENTIFIER = (52, (0, 1, 1, 1, 1, 1, 1, 0))
SUMMER = B + 58
# Each parity's places, its own the last one. The number of ones over them is odd.
PARITIES = ((*range(17, 25), B + 54), (*range(25, 36), B + 55), (*range(36, 39), B + 56), (*range(39, 52), B + 57))
PARITY = 1
OF_BITS = {(0, 0): Symbol.ZERO, (1, 0): Symbol.ONE, (0, 1): Symbol.ONLY_B, (1, 1): Symbol.BOTH}


def bits_of(symbols: list[Symbol]) -> Bits:
    bits = [0] * (B + 60)
    for place, symbol in enumerate(symbols[:60]):
        bits[place] = int(symbol in (Symbol.ONE, Symbol.BOTH))
        bits[B + place] = int(symbol in (Symbol.ONLY_B, Symbol.BOTH))
    return bits


def symbols_of(bits: Bits, length: int) -> list[Symbol]:
    return [Symbol.LONG] + [OF_BITS[bits[place], bits[B + place]] for place in range(1, length)]


def _civil(bits: Bits) -> int:
    return dates.second_of(
        2000 + YEAR.value(bits), MONTH.value(bits), DAY.value(bits), HOUR.value(bits), MINUTE.value(bits)
    )


def coded(bits: Bits) -> Coded:
    """What a valid segment says: UK civil time, less an hour in summer. MSF announces no leap second."""
    return Coded(_civil(bits) - dates.HOUR * bits[SUMMER], 0, bits[SUMMER] == 1)


def spelt(one: Coded) -> list[Symbol]:
    date = dates.civil(one.minute + dates.HOUR * int(one.summer))
    bits = [0] * (B + 60)
    numbers = (date.year % 100, date.month, date.day, date.isoweekday() % 7, date.hour, date.minute)
    for field, number in zip(FIELDS.values(), numbers):
        field.put(bits, number)
    first, values = IDENTIFIER
    bits[first : first + len(values)] = values
    bits[SUMMER] = int(one.summer)
    put_parities(bits)
    return symbols_of(bits, 60)


def put_parities(bits: Bits) -> None:
    for *places, own in PARITIES:
        bits[own] = (ones(bits, places) + PARITY) % 2


def _has_parity(number: int):
    return lambda _, bits: ones(bits, PARITIES[number]) % 2 != PARITY


def _has_another_identifier(bits: Bits) -> bool:
    first, values = IDENTIFIER
    return tuple(bits[first : first + len(values)]) != values


RULES = (
    Rule(1, "Spacing", lambda segment, _: has_bad_spacing(segment, with_close=True)),
    Rule(2, "Width", lambda segment, _: has_odd_width(segment)),
    Rule(3, "Length", lambda segment, _: len(segment.marks) not in LENGTHS),
    Rule(30, "Identifier", lambda _, bits: _has_another_identifier(bits)),
    Rule(31, "YearParity", _has_parity(0)),
    Rule(32, "DateParity", _has_parity(1)),
    Rule(33, "WeekdayParity", _has_parity(2)),
    Rule(34, "TimeParity", _has_parity(3)),
    Rule(35, "MinuteRange", lambda _, bits: MINUTE.has_odd_digit(bits) or MINUTE.value(bits) > 59),
    Rule(36, "HourRange", lambda _, bits: HOUR.has_odd_digit(bits) or HOUR.value(bits) > 23),
    Rule(37, "DayRange", lambda _, bits: DAY.has_odd_digit(bits) or not 1 <= DAY.value(bits) <= 31),
    Rule(38, "WeekdayRange", lambda _, bits: WEEKDAY.value(bits) == 7),
    Rule(39, "MonthRange", lambda _, bits: MONTH.has_odd_digit(bits) or not 1 <= MONTH.value(bits) <= 12),
    Rule(40, "YearRange", lambda _, bits: YEAR.has_odd_digit(bits)),
    Rule(
        41,
        "NoSuchDate",
        lambda _,
        bits: not dates.is_date(2000 + YEAR.value(bits), MONTH.value(bits), DAY.value(bits)),
    ),
    Rule(42, "WeekdayDiffers", lambda _, bits: WEEKDAY.value(bits) != dates.civil(_civil(bits)).isoweekday() % 7),
)
