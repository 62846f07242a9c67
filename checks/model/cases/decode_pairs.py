"""Logs for `decode` that are each meant for something of two minutes: pairs, leap seconds, calendars; and lines of
logs.
"""

from typing import Callable, Iterator

from lab.model import dates, plan_dcf, plan_wwvb
from lab.model.spelling import Tape
from .case import Case
from .decode_directed import NOON, changed, of_log, rule, spelt
from .frames import flip, set_to

MONTH_END = dates.second_of(2017, 1, 1)


def apart(tape: Tape, by: int) -> None:
    """Moves the end of the second minute, a little at each of its marks."""
    marks = tape.begins[2] - tape.begins[1] - 1
    for place in range(marks):
        tape.move(tape.begins[1] + 1 + place, by * (place + 1) // marks - by * place // marks)


def pairs(plan: str) -> Iterator[Case]:
    """What two valid minutes come to."""
    for microseconds in (59899999, 59900000, 60100000, 60100001, 61000000):
        yield changed(plan, f"minutes {microseconds} apart", lambda tape: apart(tape, microseconds - 60000000))
    for minutes in ((0, 0), (0, 120), (60, 0), (0, 3600), (0, 60, 180, 240)):
        tape = Tape(plan, [spelt(plan, NOON + minute) for minute in minutes])
        yield of_log(plan, f"minutes {minutes}", tape.log())
    bad = spelt(plan, NOON + 60, edit=flip(27 if plan != "wwvb" else 10))
    tape = Tape(plan, [bad, spelt(plan), bad, bad, spelt(plan, NOON + 120), spelt(plan, NOON + 180)])
    yield of_log(plan, "a verdict isn't given across a refused one", tape.log(), f"{plan}: lone, after a refused one")
    tape = Tape(plan, [spelt(plan), spelt(plan, NOON + 60)])
    for places in (1, 2, 60, 61):
        short = Tape(plan, [spelt(plan), spelt(plan, NOON + 60)])
        del short.beats[-places:]
        yield of_log(plan, f"a log without its last {places} marks", short.log())
        del tape.beats[:1]
        yield of_log(plan, f"a log that begins {places} marks later", tape.log())


def summer(plan: str) -> Iterator[Case]:
    """Where the clocks change, and the ends of months and years."""
    begins = [
        ("summer time", dates.second_of(2026, 3, 29, 1), False),
        ("standard time", dates.second_of(2026, 10, 25, 1), True),
    ]
    if plan != "wwvb":
        for name, second, before in begins:
            minutes = [(second - 120, before), (second - 60, before), (second, not before), (second + 60, not before)]
            tape = Tape(plan, [spelt(plan, minute, summer=is_summer) for minute, is_summer in minutes])
            yield of_log(plan, f"the change to {name}", tape.log(), f"{plan}: verdict, no leap second")
    for year, month, day in (
        (2000, 1, 1), (2000, 3, 1), (2001, 3, 1), (2024, 3, 1), (2026, 1, 1), (2026, 5, 1), (2050, 7, 1),
        (2099, 12, 31), (2100, 1, 1),
    ):
        midnight = dates.second_of(year, month, day)
        for hours in (-2, -1, 0):
            # A year is spelt by its last two digits.
            around = [spelt(plan, midnight + 3600 * hours + 60 * i) for i in (-2, -1, 0, 1)]
            yield of_log(plan, f"four minutes by {year}-{month:02}-{day:02}, hour {hours}", Tape(plan, around).log())


def leaps_dcf() -> Iterator[Case]:
    """Announcements of DCF77."""
    for name, first, leap_at in (
        ("an hour before it", MONTH_END - 3600, MONTH_END),
        ("a day before it", MONTH_END - 86400, MONTH_END),
        ("at the end of a month of 30 days", dates.second_of(2015, 7, 1) - 3600, dates.second_of(2015, 7, 1)),
    ):
        minutes = [spelt("dcf", first + 60 * i, leap_at) for i in range(3)]
        yield of_log("dcf", f"a leap second announced {name}", Tape("dcf", minutes).log())
    announced = [spelt("dcf", NOON + 60 * i, NOON + 43200) for i in range(3)]
    yield of_log("dcf", "a leap second announced where no month ends", Tape("dcf", announced).log())
    for places in ((0, 1), (1, 2), (0, 2)):
        minutes = [spelt("dcf", MONTH_END - 3600 + 60 * i, MONTH_END * (i in places)) for i in range(3)]
        yield of_log(
            "dcf",
            f"a leap second announced in minutes {places}",
            Tape("dcf", minutes).log(),
            "dcf: verdict, of two leap seconds",
        )


def leap_minutes() -> Iterator[Case]:
    """The minute of 60 marks of DCF77."""
    for microseconds in (
        59899999, 59900000, 60000000, 60100000, 60100001, 60500000, 60899999, 60900000, 61100000, 61100001
    ):
        tape = _leap_minute()
        apart(tape, microseconds - 61000000)
        yield of_log("dcf", f"a minute of 60 marks {microseconds} long", tape.log())
    symbols = [spelt("dcf", MONTH_END + 60 * i, MONTH_END if i < 1 else 0) for i in (-2, -1, 0, 1)]
    last = plan_dcf.LEAP
    for name, edit in (("59 is One", flip(59)), ("of no announcement", set_to(0, last))):
        damaged = [*symbols[:2], spelt("dcf", MONTH_END, MONTH_END, edit=edit), symbols[3]]
        yield of_log("dcf", f"a minute of 60 marks, {name}", Tape("dcf", damaged).log(), rule("dcf", 24))
    short = [*symbols[:2], symbols[2][:59], symbols[3]]
    yield of_log("dcf", "a leap second's minute of 59 marks", Tape("dcf", short).log(), rule("dcf", 24))
    long = [
        spelt("dcf", NOON), spelt("dcf", NOON + 60, edit=set_to(1, last)) + symbols[0][:1], spelt("dcf", NOON + 120)
    ]
    yield of_log("dcf", "a minute of 60 marks where no month begins", Tape("dcf", long).log(), rule("dcf", 24))
    both = [spelt("dcf", NOON), spelt("dcf", NOON + 60, edit=set_to(1, last)), spelt("dcf", NOON + 120)]
    yield of_log(
        "dcf",
        "A2 in one minute of a day where no month ends",
        Tape("dcf", both).log(),
        "dcf: verdict, no leap second",
    )
    for hours in (1, 2):
        second = dates.second_of(2026, 8, 1) + 3600 * (1 - hours)
        one = [
            spelt("dcf", second + 60 * i, dates.midnight_from(second + 60 * i), summer=hours == 2) for i in (-1, 0, 1)
        ]
        yield of_log("dcf", f"A2 where a month begins by a zone of {hours} h", Tape("dcf", one).log())


def _leap_minute() -> Tape:
    minutes = [
        spelt("dcf", MONTH_END - 60, MONTH_END), spelt("dcf", MONTH_END, MONTH_END), spelt("dcf", MONTH_END + 60)
    ]
    return Tape("dcf", minutes)


def leaps_wwvb() -> Iterator[Case]:
    leap = flip(plan_wwvb.LEAP)
    for name, first in (
        ("a month", dates.second_of(2016, 12, 1, 0, 2)),
        ("an hour", MONTH_END - 3600),
        ("two minutes", MONTH_END - 120),
    ):
        minutes = [spelt("wwvb", first + 60 * i, edit=leap) for i in range(3)]
        yield of_log("wwvb", f"a leap second announced {name} before it", Tape("wwvb", minutes).log())
    for places in ((0, 1), (1, 2), (0, 2)):
        minutes = [spelt("wwvb", NOON + 60 * i, edit=leap if i in places else None) for i in range(3)]
        yield of_log(
            "wwvb",
            f"a leap second announced in minutes {places}",
            Tape("wwvb", minutes).log(),
            "wwvb: verdict, of two leap seconds",
        )
    last = [spelt("wwvb", MONTH_END, edit=leap), spelt("wwvb", MONTH_END + 60)]
    yield of_log("wwvb", "a leap second in the last minute of a month", Tape("wwvb", last).log(), rule("wwvb", 58))
    minus = [spelt("wwvb", NOON + 60 * i, edit=flip(36, 37, 38)) for i in range(2)]
    yield of_log("wwvb", "a negative DUT1", Tape("wwvb", minus).log(), "wwvb: verdict, no leap second")
    for place, width in ((9, 500000), (19, 200000), (59, 500000), (5, 800000), (58, 800000), (1, 800000)):
        yield changed(
            "wwvb", f"a width of {width} at place {place}", lambda tape: tape.widen(tape.place(1, place), width)
        )
    yield changed(
        "wwvb", "no marker at place 29", lambda tape: tape.widen(tape.place(1, 29), 200000), rule("wwvb", 50)
    )


def joins() -> Iterator[Case]:
    """Reductions of MSF that are one mark, or not."""
    for after in (149999, 150000, 200000, 250000, 250001):
        for place in (1, 54):

            def change(tape: Tape, after: int = after, place: int = place) -> None:
                here = tape.place(1, place)
                tape.beats[here] = tape.beats[here]._replace(parts=((0, 100000), (after, 100000)))

            yield changed("msf", f"two reductions {after} apart at place {place}", change)
    for name, parts in (
        ("three, each 200000 after the other", ((0, 100000), (200000, 100000), (400000, 100000))),
        ("four, each 200000 after the other", ((0, 100000), (200000, 100000), (400000, 100000), (600000, 100000))),
        ("the second of class 200", ((0, 100000), (200000, 200000))),
        ("the first of class 200", ((0, 200000), (200000, 100000))),
        ("widths at the class's borders", ((0, 40000), (200000, 149999))),
        ("the first below the class", ((0, 39999), (200000, 100000))),
        ("the second above the class", ((0, 100000), (200000, 150000))),
    ):

        def several(tape: Tape, parts=parts) -> None:
            here = tape.place(1, 5)
            tape.beats[here] = tape.beats[here]._replace(parts=parts)

        yield changed("msf", f"several reductions in a second, {name}", several)
    row = b"3000000 100000\n3200000 100000\n3400000 100000\n4400000 100000\n"
    yield of_log(
        "msf",
        "a third reduction is a mark of its own",
        b"2000000 500000\n" + row + b"5400000 500000\n6400000 100000\n",
    )


def gaps() -> Iterator[Case]:
    for gap in (1899999, 1900000, 2100000, 2100001):
        yield changed("dcf", f"a gap of {gap}", lambda tape: tape.move(tape.place(2, 0), gap - 2000000))


def lines() -> Iterator[Case]:
    """Lines of logs that are bad, and their neighbours that aren't."""
    for text in (
        b"", b"\n", b" \n", b"1 1\n", b"01 1\n", b"1 01\n", b"1 0\n", b"1 1 \n", b" 1 1\n", b"1  1\n", b"1 1\r\n",
        b"1\t1\n", b"-1 1\n", b"+1 1\n", b"1\n",
        b"1 1 1\n", b"1 2000000\n", b"1 2000001\n", b"1125899906842623 1\n", b"1125899906842624 1\n",
        b"11258999068426230 1\n", b"1 20000000\n",
        b"0 1\n", b"0 1\n0 1\n", b"5 1\n4 1\n", b"5 1\n6 1\n", b"5 1\n6 1", b"5 1\n6", b"5 1\n\n6 1\n", b"5 1\nx",
        b"1" * 31, b"1" * 32, b"1" * 31 + b"\n",
        b"1" * 32 + b"\n", b"0" * 40 + b"\n5 1\n", b"5 1\n" + b"x" * 40, b"\xff\n", b"5 1\n6 1\x00\n",
        b"5 1\n6 1\n7 1\n3 1\n8 1\n",
    ):
        for plan in ("dcf", "msf"):
            yield of_log(plan, f"a log of {text[:40]!r}", text)
    log = Tape("dcf", [spelt("dcf"), spelt("dcf", NOON + 60)]).log()
    lines_of = log.splitlines(keepends=True)
    for place in (1, 60, 61, len(lines_of) - 1):
        damaged = b"".join([*lines_of[:place], b"x\n", *lines_of[place:]])
        yield of_log("dcf", f"line {place + 1} of a log is bad", damaged, "log: bad line")
    yield of_log("dcf", "the last line has no line feed", log[:-1], "log: no line feed at the end")


def all_of() -> Iterator[Case]:
    plans: list[Callable[[str], Iterator[Case]]] = [pairs, summer]
    for plan in ("dcf", "msf", "wwvb"):
        for one in plans:
            yield from one(plan)
    for other in (leaps_dcf, leap_minutes, leaps_wwvb, joins, gaps, lines):
        yield from other()
