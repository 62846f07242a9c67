"""DCF77's amplitude code as PTB publishes it (docs/CODE_PLANS.md)."""

from . import dates
from .fields import Bits, Coded, Field, Rule, has_bad_spacing, has_odd_width, ones
from .marks import Segment, Symbol

LENGTHS = (59, 60)
START, SUMMER, STANDARD, LEAP, TIME = 0, 17, 18, 19, 20
MINUTE = Field((21, (1, 2, 4, 8)), (25, (10, 20, 40)))
HOUR = Field((29, (1, 2, 4, 8)), (33, (10, 20)))
DAY = Field((36, (1, 2, 4, 8)), (40, (10, 20)))
WEEKDAY = Field((42, (1, 2, 4)))
MONTH = Field((45, (1, 2, 4, 8)), (49, (10,)))
YEAR = Field((50, (1, 2, 4, 8)), (54, (10, 20, 40, 80)))
FIELDS = {"minute": MINUTE, "hour": HOUR, "day": DAY, "weekday": WEEKDAY, "month": MONTH, "year": YEAR}
# Each parity's places, its own the last one. The number of ones over them is even.
PARITIES = (range(21, 29), range(29, 36), range(36, 59))
PARITY = 0


def bits_of(symbols: list[Symbol]) -> Bits:
    """The bit of each place up to 59; a place that isn't there is Zero."""
    return [int(place < len(symbols) and symbols[place] is Symbol.ONE) for place in range(60)]


def symbols_of(bits: Bits, length: int) -> list[Symbol]:
    return [Symbol.ONE if bit else Symbol.ZERO for bit in bits[:length]]


def _civil(bits: Bits) -> int:
    """The civil time as a second; the date has to be one."""
    return dates.second_of(
        2000 + YEAR.value(bits), MONTH.value(bits), DAY.value(bits), HOUR.value(bits), MINUTE.value(bits)
    )


def _minute(bits: Bits) -> int:
    """The civil time less the zone's offset of one or two hours."""
    return _civil(bits) - dates.HOUR * (2 if bits[SUMMER] else 1)


def coded(bits: Bits) -> Coded:
    """What a valid segment says."""
    minute = _minute(bits)
    midnight = dates.midnight_from(minute)
    announced = bits[LEAP] == 1 and dates.begins_month(midnight)
    return Coded(minute, midnight if announced else 0, bits[SUMMER] == 1)


def spelt(one: Coded) -> list[Symbol]:
    """The symbols of a minute; there are 60 where it ends with a leap second."""
    date = dates.civil(one.minute + dates.HOUR * (2 if one.summer else 1))
    bits = [0] * 60
    bits[SUMMER], bits[STANDARD] = int(one.summer), int(not one.summer)
    bits[LEAP], bits[TIME] = int(one.leap_at != 0), 1
    numbers = (date.minute, date.hour, date.day, date.isoweekday(), date.month, date.year % 100)
    for field, number in zip(FIELDS.values(), numbers):
        field.put(bits, number)
    put_parities(bits)
    return symbols_of(bits, 60 if one.leap_at == one.minute else 59)


def put_parities(bits: Bits) -> None:
    for *places, own in PARITIES:
        bits[own] = (ones(bits, places) + PARITY) % 2


def _is_bad_leap_minute(segment: Segment, bits: Bits) -> bool:
    ends_leap = bits[LEAP] == 1 and dates.begins_month(_minute(bits))
    return (len(segment.marks) == 60) != ends_leap or bits[59] == 1


def _has_parity(number: int):
    return lambda _, bits: ones(bits, PARITIES[number]) % 2 != PARITY


RULES = (
    Rule(1, "Spacing", lambda segment, _: has_bad_spacing(segment, with_close=False)),
    Rule(2, "Width", lambda segment, _: has_odd_width(segment)),
    Rule(3, "Length", lambda segment, _: len(segment.marks) not in LENGTHS),
    Rule(10, "StartBit", lambda _, bits: bits[START] == 1),
    Rule(11, "ZoneBits", lambda _, bits: bits[SUMMER] == bits[STANDARD]),
    Rule(12, "TimeBit", lambda _, bits: bits[TIME] == 0),
    Rule(13, "MinuteParity", _has_parity(0)),
    Rule(14, "HourParity", _has_parity(1)),
    Rule(15, "DateParity", _has_parity(2)),
    Rule(16, "MinuteRange", lambda _, bits: MINUTE.has_odd_digit(bits) or MINUTE.value(bits) > 59),
    Rule(17, "HourRange", lambda _, bits: HOUR.has_odd_digit(bits) or HOUR.value(bits) > 23),
    Rule(18, "DayRange", lambda _, bits: DAY.has_odd_digit(bits) or not 1 <= DAY.value(bits) <= 31),
    Rule(19, "WeekdayRange", lambda _, bits: WEEKDAY.value(bits) == 0),
    Rule(20, "MonthRange", lambda _, bits: MONTH.has_odd_digit(bits) or not 1 <= MONTH.value(bits) <= 12),
    Rule(21, "YearRange", lambda _, bits: YEAR.has_odd_digit(bits)),
    Rule(
        22,
        "NoSuchDate",
        lambda _,
        bits: not dates.is_date(2000 + YEAR.value(bits), MONTH.value(bits), DAY.value(bits)),
    ),
    Rule(23, "WeekdayDiffers", lambda _, bits: WEEKDAY.value(bits) != dates.civil(_civil(bits)).isoweekday()),
    Rule(24, "LeapMinute", _is_bad_leap_minute),
)
