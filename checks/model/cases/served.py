"""Stations for `serve` without links: leap second files, logs side by side, limits; and days of `drill`."""

import random
from typing import Iterator

from lab.model import dates
from lab.model.commands import LIMIT, drill, serve
from lab.model.leap_list import MOST_BYTES, PAST_SECOND
from .case import Case
from .drawn import log
from .decode_directed import NOON, spelt
from lab.model.spelling import Tape
from .journals import LETTERS

FIRST, SECOND, THIRD = (dates.second_of(*date) for date in ((2012, 7, 1), (2015, 7, 1), (2017, 1, 1)))


def of(name: str, toml: str, files: dict[str, bytes], meant: str | None = None, limit: int = LIMIT) -> Case:
    words = ["serve", "--station", "station"] + ["--limit", str(limit)] * (limit != LIMIT)
    station = toml.encode()
    return Case(name, words, {"station": station, **files}, lambda text: serve(station, files, limit, text), meant)


def of_list(name: str, data: bytes, meant: str | None = None, limit: int = LIMIT) -> Case:
    """A station that has a leap second file alone."""
    return of(name, 'leap_file = "leap"\nstart = 77\n', {"leap": data}, meant, limit)


def row(second: int | str, difference: int | str, rest: str = "\n") -> bytes:
    return f"{second}\t{difference}{rest}".encode()


LIST = row(FIRST, 35) + row(SECOND, 36) + row(THIRD, 37)


LINES = (
    "", " ", "\t \t", "#", "# 1 2", "#$\t5", "#@\t5", "#h 1 2", "\r", " \r", "#\r\r", "\r\r", " #", "x", "1",
    "1 ", "1 1", "-1 1", "0 1", f"{THIRD}", f"{THIRD} ",
    f"{THIRD}  \t 37 \t", f"{THIRD} 37\r", f"{THIRD} 37 \r", f"{THIRD} 37\r\r", f"{THIRD} 37 #",
    f"{THIRD} 37\t# x \x01", f"{THIRD} 37#", f"{THIRD} 37 x", f"{THIRD} 37 37",
    f" {THIRD} 37", f"{THIRD},37", f"{THIRD} 037", f"{THIRD} 0037", f"{THIRD} 37.0", f"{THIRD} +37",
    f"0{THIRD} 37", f"+{THIRD} 37", f"{THIRD} 36", f"{THIRD} 38", f"{THIRD} 35",
    f"{THIRD} 0", f"{SECOND} 37", f"{SECOND - 86400} 37", f"{FIRST} 37", f"{THIRD + 1} 37", f"{THIRD - 1} 37",
    f"{THIRD + 86400} 37", f"{THIRD + 60} 37", f"{PAST_SECOND} 37",
    f"{dates.second_of(2100, 1, 1)} 37", f"{dates.second_of(2099, 12, 1)} 37",
    f"{dates.second_of(2100, 2, 1)} 37", "9999999999 37", "10000000000 37", f"{THIRD} 37 " + "#" + "x" * 5000,
)
FIRST_ROWS = (
    "0 0", "0 255", "0 256", f"{dates.second_of(1972, 1, 1)} 10", "2592000 5", "2678400 5", "5097600 5",
    "5011200 5", "0000000000 000", "00000000000 0", "0 1000", "0 999",
)


def rows() -> Iterator[Case]:
    """Each form of a line, in the middle and at the end of a list, and at its beginning."""
    yield of_list("a list of three rows", LIST, "leap list: rows")
    yield of_list("an empty list", b"", "leap list: no row")
    for line in LINES:
        yield of_list(
            f"the line {line[:40]!r}",
            row(FIRST, 35) + row(SECOND, 36) + line.encode("latin-1") + b"\n" + row(dates.second_of(2018, 1, 1), 38),
        )
        yield of_list(f"the last line {line[:40]!r}", row(FIRST, 35) + row(SECOND, 36) + line.encode("latin-1"))
    for line in FIRST_ROWS:
        yield of_list(f"the first row {line}", f"{line}\n".encode() + row(FIRST, 6) + row(SECOND, 7), None)
    for last in (254, 255, 256):
        yield of_list(
            f"a difference of {last}", row(FIRST, 254) + row(SECOND, 255) + (row(THIRD, 256) if last == 256 else b"")
        )


def sizes() -> Iterator[Case]:
    """Lists by the limits of bytes and of entries."""
    for size in (MOST_BYTES - 1, MOST_BYTES, MOST_BYTES + 1, MOST_BYTES + 5000):
        meant = "status 10" if size > MOST_BYTES else "leap list: rows"
        yield of_list(f"a list of {size} bytes", LIST + b"#" * (size - len(LIST) - 1) + b"\n", meant)
        yield of_list(
            f"a list of {size} bytes that ends with a row",
            LIST[: -len(row(THIRD, 37))] + b"\n" * (size - len(LIST) + 1) + row(THIRD, 37, ""),
        )
        yield of_list(f"a list of {size} bytes, a bad line before", b"x\n" + b"#" * (size - 3) + b"\n", "status 5")
    for limit in (1, 2, 3):
        yield of_list(f"a list under a limit of {limit}", LIST, None, limit)
    months = [dates.second_of(year, month, 1) for year in range(1900, 2100) for month in (1, 2, 3, 7)]
    for place in range(0, len(months), 250):
        yield of_list(
            f"months from number {place} on",
            b"".join(row(second, i) for i, second in enumerate(months[place : place + 250])),
            "leap list: rows",
        )


def logs() -> Iterator[Case]:
    """Radios and a list side by side; the feed of the least number is named."""
    three = "".join(LETTERS[plan].replace('"x"', f'"{plan}"') for plan in ("dcf", "msf", "wwvb"))
    files = {
        plan: Tape(plan, [spelt(plan, NOON + 60 * i) for i in range(6)]).log() for plan in ("dcf", "msf", "wwvb")
    }
    yield of("three radios", three, files, "dcf: verdict, no leap second")
    files["leap"] = LIST
    both = 'leap_file = "leap"\n' + three
    yield of("three radios and a list", both, files, "leap list: rows")
    for limit in (1, 3, 17, 19, 20, 21):
        yield of(f"three radios and a list under a limit of {limit}", both, files, None, limit)
    for names in (("dcf",), ("msf", "wwvb"), ("leap",), ("wwvb", "leap"), ("dcf", "leap")):
        damaged = {name: data + b"x\n" * (name in names) for name, data in files.items()}
        yield of(f"bad lines of {names}", both, damaged, "status 5")
        yield of(f"bad lines of {names} under a limit", both, damaged, "status 5", 3)
    yield of(
        "a radio whose log is empty, and a list",
        'leap_file = "leap"\n' + LETTERS["dcf"].replace('"x"', '"dcf"'),
        {"dcf": b"", "leap": LIST},
        "leap list: rows",
    )
    yield of("no feed", "", {}, "status 0")


def serve_case(draw: random.Random) -> Case:
    """Some radios, each with a log of some minutes, and perhaps a list."""
    plans = [draw.choice(("dcf", "msf", "wwvb")) for _ in range(draw.randint(0, 3))]
    toml = "".join(
        LETTERS[plan].replace(
            '"x"', f'"{i}"'
        ) + f"delay = {draw.choice((0, 0, 1400, 100000))}\n" for i, plan in enumerate(plans)
    )
    files = {str(i): log(draw, plan, draw.randint(1, 5)) for i, plan in enumerate(plans)}
    top = f"start = {draw.choice((0, 5, 2**49))}\n"
    if draw.random() < 0.6:
        top, files["leap"] = top + 'leap_file = "leap"\n', leap_list(draw)
    return of("drawn", top + toml, files, None, draw.choice((LIMIT, LIMIT, 1, 4)))


def leap_list(draw: random.Random) -> bytes:
    """Some rows, with a byte changed here and there."""
    months = sorted(
        draw.sample(
            [
                dates.second_of(year, month, 1) for year in range(1972, 2100) for month in (1, 4, 7, 10)
            ], draw.randint(0, 9)
        )
    )
    first = draw.choice((10, 36, 250))
    lines = [row(second, first + i, draw.choice(("\n", " # x\n", "\r\n", "\t\n"))) for i, second in enumerate(months)]
    for _ in range(draw.choice((0, 1, 2))):
        lines.insert(draw.randint(0, len(lines)), draw.choice((b"\n", b"# x\n", b"  \t\n", b"#@ 5\r\n")))
    data = b"".join(lines)
    if data and draw.random() < 0.5:
        place = draw.randrange(len(data))
        data = data[:place] + draw.choice(
            (b"", b"0", b"1", b"\n", b" ", b"#", b"\r")
        ) + data[place + draw.choice((0, 1)) :]
    return data


def drill_case(seed: int) -> Case:
    return Case(f"seed {seed}", ["drill", "--seed", str(seed)], {}, lambda _: drill(seed), "status 0")


def all_of() -> Iterator[Case]:
    yield from rows()
    yield from sizes()
    yield from logs()
