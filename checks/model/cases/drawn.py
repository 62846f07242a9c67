"""Cases that a seed makes: logs and journals."""

import random

from lab.model import dates
from lab.model.entries import Entry
from lab.model.fields import Coded
from lab.model.marks import CLASSES, Symbol
from lab.model.receiver import PLANS
from lab.model.spelling import SECOND, WIDTHS, Tape
from .case import Case
from .decode_directed import of_log
from .frames import BREAKS
from .journals import BASE, BEGAN, of_text, station, text

# Seconds near which something changes: centuries, years, months, summer time, leap seconds, the second era.
EVENTS = [
    dates.second_of(*date)
    for date in (
        (2000, 1, 1), (2000, 3, 1), (2015, 7, 1), (2016, 12, 31), (2017, 1, 1), (2024, 2, 29), (2024, 3, 1),
        (2026, 3, 29), (2026, 10, 25), (2036, 2, 7),
        (2050, 7, 1), (2099, 12, 31), (2026, 1, 1), (2026, 5, 1),
    )
]
PAST = dates.second_of(2099, 12, 31)


def first_minute(draw: random.Random) -> int:
    """A minute from 2000 to 2099, often near an event."""
    if draw.random() < 0.5:
        return min(PAST, max(dates.second_of(2000, 1, 1, 2), draw.choice(EVENTS) + 60 * draw.randint(-130, 10)))
    return draw.randrange(dates.second_of(2000, 1, 1, 2), PAST, 60)


def minutes_of(draw: random.Random, plan: str, count: int) -> list[list[Symbol]]:
    """Minutes that mostly follow one another, some announcing a leap second, some with edits."""
    minute = first_minute(draw)
    summer, announced = draw.random() < 0.4, draw.random() < 0.4
    found = []
    for _ in range(count):
        leap_at = 0
        if announced and plan == "dcf" and dates.begins_month(dates.midnight_from(minute)):
            leap_at = dates.midnight_from(minute)
        if announced and plan == "wwvb":
            leap_at = dates.month_after(minute - 60)
        found.append(edited(draw, plan, PLANS[plan].spelt(Coded(minute, leap_at, summer and plan != "wwvb"))))
        minute += draw.choice((60,) * 12 + (0, 120, -60, 3600))
        if draw.random() < 0.05:
            summer, announced = draw.random() < 0.5, draw.random() < 0.5
    return found


def edited(draw: random.Random, plan: str, symbols: list[Symbol]) -> list[Symbol]:
    """The symbols with up to three edits: rules broken, bits flipped, marks too many or too few."""
    for _ in range(draw.choice((0, 0, 0, 1, 1, 2, 3))):
        kind = draw.random()
        if kind < 0.5:
            bits = PLANS[plan].bits_of(symbols)
            draw.choice(draw.choice(list(BREAKS[plan].values())))[1](bits)
            symbols = PLANS[plan].symbols_of(bits, max(1, min(60, len(symbols))))
        elif kind < 0.8 and symbols:
            place = draw.randrange(len(symbols))
            symbols = [
                *symbols[:place],
                draw.choice([*WIDTHS[plan], *[Symbol.ONLY_B] * (plan == "msf")]),
                *symbols[place + 1 :],
            ]
        elif kind < 0.9:
            symbols = symbols + [draw.choice((Symbol.ZERO, Symbol.ONE))] * draw.choice((1, 1, 2, 11))
        else:
            symbols = symbols[: len(symbols) - draw.choice((1, 1, 2, 30))]
    return symbols


def spoil(draw: random.Random, tape: Tape) -> None:
    """Jitter, and what a bad reception does to some marks."""
    most = draw.choice((0, 0, 2000, 40000))
    for place in range(len(tape.beats)) if most else ():
        tape.move(place, draw.randint(0, most), 1)
    for _ in range(draw.choice((0, 0, 1, 1, 2, 4))):
        place = draw.randrange(len(tape.beats))
        how = draw.random()
        if how < 0.3:
            tape.move(
                place, draw.choice((-100001, -100000, 99999, 100000, 100001, 900000, 500000, -500000, 60 * SECOND))
            )
        elif how < 0.5:
            tape.move(place, draw.choice((-100001, -100000, 100000, 100001, 50000)), 1)
        elif how < 0.75:
            least, most_of_class, _ = draw.choice(CLASSES[tape.plan])
            tape.widen(
                place, draw.choice((least - 1, least, most_of_class, most_of_class + 1, draw.randint(1, 2000000)))
            )
        elif how < 0.9:
            tape.remove(place)
        else:
            after = draw.choice((149999, 150000, 200000, 250000, 250001, 400000))
            tape.beats[place] = tape.beats[place]._replace(
                parts=((0, 100000), (after, draw.choice((100000, 100000, 200000))))
            )


def log(draw: random.Random, plan: str, count: int) -> bytes:
    """A log of some minutes of a plan."""
    tape = Tape(plan, minutes_of(draw, plan, count), draw.choice((2, 2, 3, 1000, 2**49 // SECOND)) * SECOND)
    spoil(draw, tape)
    data = tape.log()
    if draw.random() < 0.05:
        place = draw.randrange(len(data))
        data = data[:place] + draw.choice((b"", b"0", b"\n", b" ", b"-", b"x")) + data[place + draw.choice((0, 1)) :]
    return data


def decode_case(draw: random.Random) -> Case:
    plan = draw.choice(("dcf", "msf", "wwvb"))
    return of_log(plan, "drawn", log(draw, plan, draw.randint(1, 6)))


def kinds_of(draw: random.Random) -> list[str]:
    """The feeds of a station, at most four radios of a plan and sixteen in all."""
    radios = [plan for plan in ("dcf", "msf", "wwvb") for _ in range(draw.choice((0, 1, 1, 1, 2, 4)))]
    draw.shuffle(radios)
    servers = ["server"] * min(15 - len(radios), draw.choice((0, 0, 1, 2, 5)))
    return radios + servers + ["leap"] * draw.choice((0, 0, 1)) or ["dcf"]


def sample_of(draw: random.Random, feed: int, at: int) -> Entry:
    """A server's sample, mostly near the true time."""
    near, far = draw.randint(-(10**7), 10**7), draw.randint(-(2**34), 2**34)
    off = draw.choice((0, near, far, draw.choice((2**40, -(2**42), 2**65 - BASE))))
    delay = draw.choice((4096, draw.randrange(2**28), 2**33))
    dispersion = draw.choice((4096 + 2**12, draw.randrange(2**28), 2**36))
    root = (draw.choice((0, 100, draw.randrange(2**18))), draw.choice((0, 200, draw.randrange(2**17))))
    stratum, address = draw.choice((1, 1, 2, 3, 14, 15)), draw.randrange(2**32)
    return Entry(feed, at, "sample", (BASE + off, delay, dispersion, stratum, address, *root))


def answer_of(draw: random.Random, feed: int, at: int, second: int, leap_at: int) -> Entry:
    """A radio's answer, mostly a verdict."""
    late = draw.choice((0, draw.randint(0, 9000), draw.randint(0, 9000), 500000))
    if draw.random() < 0.85:
        moment = (second - BEGAN) * 10**6 + late if second >= BEGAN else at
        return Entry(feed, moment, "verdict", (second, draw.choice((0, 0, 0, leap_at))))
    return draw.choice(
        (
            Entry(feed, at, "lone", (second,)),
            Entry(feed, at, "refused", (draw.randrange(60),)),
            Entry(feed, at, "differs", (second, second, 5)),
        )
    )


def entry(draw: random.Random, kinds: list[str], at: int, leap_at: int) -> Entry:
    """An entry of one of the feeds at a moment, here and there of a kind that the feed would not make."""
    feed = draw.randrange(len(kinds))
    at = max(0, at + draw.choice((0, 0, 0, draw.randint(-2000, 2000), -draw.randrange(10**8))))
    kind = kinds[feed] if draw.random() < 0.97 else draw.choice(("dcf", "server", "leap"))
    second = BEGAN + at // 10**6 + draw.choice((0,) * 12 + (1, -1, 3600))
    if kind == "leap":
        return Entry(feed, at, "notice", (draw.choice((0, leap_at, second, second - 1, second + 1)),))
    if kind == "server":
        return sample_of(draw, feed, at) if draw.random() < 0.85 else Entry(
            feed, at, "declined", (draw.randrange(11),)
        )
    return answer_of(draw, feed, at, second, leap_at)


def entries(draw: random.Random, kinds: list[str]) -> list[Entry]:
    """A journal of minutes in which most feeds report once."""
    at, found = draw.choice((0, 0, 10**9, 2**49)), []
    leap_at = BEGAN + at // 10**6 + draw.choice((150, 300, 600, 3600, 43200))
    step = draw.choice((60, 60, 60, 64, 1024)) * SECOND // draw.choice((1, len(kinds)))
    for _ in range(draw.randint(1, 12 * min(5, len(kinds)))):
        at = min(2**50 - 10**7, at + draw.choice((step, step, step, 0, 3 * step)))
        found.append(entry(draw, kinds, at, leap_at))
    return found


def migrate_case(draw: random.Random) -> Case:
    kinds = kinds_of(draw)
    bound = draw.choice((1000, 1000, 1000, 100, 5, 16000, draw.randint(1, 16000)))
    data = text(entries(draw, kinds), kinds if draw.random() < 0.3 else None, bound)
    if draw.random() < 0.1:
        place = draw.randrange(len(data))
        data = data[:place] + draw.choice((b"", b"0", b"1", b"\n", b" ", b"-")) + data[place + draw.choice((0, 1)) :]
    return of_text("drawn", station(kinds, bound), data)
