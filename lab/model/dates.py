"""Civil dates by Python's datetime. A second counts from 1900-01-01 00:00 UTC, without leap seconds."""

import datetime

EPOCH = datetime.datetime(1900, 1, 1)
DAY = 86400
HOUR = 3600


def second_of(year: int, month: int, day: int, hour: int = 0, minute: int = 0) -> int:
    """The second at which a minute of a calendar begins."""
    return int((datetime.datetime(year, month, day, hour, minute) - EPOCH).total_seconds())


def civil(second: int) -> datetime.datetime:
    """The calendar's date and time of a second."""
    return EPOCH + datetime.timedelta(seconds=second)


def is_date(year: int, month: int, day: int) -> bool:
    """Whether the year has this month and day."""
    try:
        datetime.date(year, month, day)
    except ValueError:
        return False
    return True


def days_of(year: int) -> int:
    """How many days the year has."""
    return (datetime.date(year + 1, 1, 1) - datetime.date(year, 1, 1)).days


def begins_month(second: int) -> bool:
    """Whether the second is midnight of the first day of a month."""
    return second % DAY == 0 and civil(second).day == 1


def month_after(second: int) -> int:
    """The second at which the next month begins."""
    date = civil(second)
    return second_of(date.year + date.month // 12, date.month % 12 + 1, 1)


def midnight_from(second: int) -> int:
    """The first midnight that isn't before the second."""
    return -(-second // DAY) * DAY
