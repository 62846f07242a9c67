"""Journals for `migrate` that are each meant for a form or a bound of a line."""

from typing import Iterator

from lab.model.entries import Entry
from .case import Case
from .journals import of_text, sample, station, text, verdict

KINDS = ["dcf", "server", "leap"]
FIRST, PAST = 3155587200, 6311606400
GOOD = b"0 60000000 lone 3976257660\n"

# Lines of version 1, with each number at its bounds and past them.
NUMBERS = [
    ("{} 5 lone 7", (0, 1, 2, 3, 4294967295, 4294967296)),
    ("0 {} lone 7", (0, 2**50 - 1, 2**50, 2**64)),
    ("0 5 lone {}", (0, 2**64 - 1, 2**64)),
    ("0 5 verdict {} 0", (0, FIRST - 1, FIRST, PAST - 1, PAST, 2**64)),
    (f"0 5 verdict {FIRST} {{}}", (0, 1, FIRST - 1, FIRST, PAST - 1, PAST, 2**64)),
    ("0 5 refused {}", (0, 3, 255, 256)),
    ("1 5 declined {}", (0, 10, 255, 256)),
    ("2 5 notice {}", (0, 1, PAST - 1, PAST, 2**64)),
    ("0 5 differs {} 2 3", (0, 2**64 - 1, 2**64)),
    ("0 5 differs 1 {} 3", (0, 2**64 - 1, 2**64)),
    ("0 5 differs 1 2 {}", (0, 2**64 - 1, 2**64)),
    ("1 5 sample {} 2 3 4 0a000001 6 7", (0, 2**66 - 1, 2**66, 2**70 - 1, 2**70, -1, -(2**70) + 1)),
    ("1 5 sample 1 {} 3 4 0a000001 6 7", (0, 2**66 - 1, 2**66, 2**70, -1)),
    ("1 5 sample 1 2 {} 4 0a000001 6 7", (0, 2**66 - 1, 2**66, 2**70, -1)),
    ("1 5 sample 1 2 3 {} 0a000001 6 7", (0, 255, 256)),
    ("1 5 sample 1 2 3 4 {} 6 7", ("00000000", "ffffffff", "0A000001", "a000001", "00a000001", "0000000g")),
    ("1 5 sample 1 2 3 4 0a000001 {} 7", (0, 2**32 - 1, 2**32)),
    ("1 5 sample 1 2 3 4 0a000001 6 {}", (0, 2**32 - 1, 2**32)),
]
# Fields that are missing or too many, and spellings that are none.
SPELLINGS = [
    "", " ", "0", "0 5", "0 5 lone", "0 5 lone ", "0 5 lone 7 ", " 0 5 lone 7", "0  5 lone 7", "00 5 lone 7",
    "0 05 lone 7", "0 5 lone 07", "0 5 lone +7",
    "0 5 lone -7", "0 5 lone -0", "0 5 Lone 7", "0 5 lone 7 8", "0 5 lone 0x7", "0\t5 lone 7", "0 5 lone 7\r",
    "0 5 verdict 3976257660", "0 5 word 7",
    "0 5 verdict 3976257660 0 0", "0 5 differs 1 2", "0 5 differs 1 2 3 4", "1 5 sample 1 2 3 4 0a000001 6",
    "1 5 sample 1 2 3 4 0a000001 6 7 8",
    "1 5 sample -0 2 3 4 0a000001 6 7", "1 5 sample +1 2 3 4 0a000001 6 7", "j1 1 0 0 5 lone 7", "j2", "j2 ",
    "j21 0 0 5 lone 7", "J2 1 0 0 5 lone 7",
    "j2 1 0 0 5 lone 7 ", "j2 1 0 0 5 lone", "j2 01 0 0 5 lone 7", "j2 0 0 0 5 lone 7", "j2 2 0 0 5 lone 7",
    "j2 1 1 0 5 lone 7", "j2 1 -0 0 5 lone 7",
    "j2 1 00 0 5 lone 7", "j2 1 +0 0 5 lone 7", "j2 1 0 9 5 lone 7", "j2 1 0 0 5 lone 7", "j2  1 0 0 5 lone 7",
    "j2 18446744073709551616 0 0 5 lone 7",
    "j2 1 2147484 0 5 lone 7", "j2 1 -2147484 0 5 lone 7",
]


def lines() -> Iterator[Case]:
    toml = station(KINDS)
    for form, numbers in NUMBERS:
        for number in numbers:
            line = form.format(number)
            yield of_text(f"the line '{line}'", toml, GOOD + line.encode() + b"\n" + GOOD)
    for line in SPELLINGS:
        yield of_text(f"the first line '{line}'", toml, line.encode() + b"\n" + GOOD)
        yield of_text(f"the second line '{line}'", toml, GOOD + line.encode() + b"\n" + GOOD)
    for length in (254, 255, 256, 257, 298, 299, 300, 301, 400):
        yield of_text(f"a line of {length} bytes", toml, GOOD + b"1" * length + b"\n")
    for data in (b"", b"\n", GOOD[:-1], GOOD + b"0", GOOD + b"1" * 300, GOOD + b"\xff\n", GOOD + b"\x00"):
        yield of_text(f"a journal that ends with {data[-20:]!r}", toml, data)


def numbered() -> Iterator[Case]:
    """Version 2: rates and numbers that are right, and that aren't."""
    entries = [
        verdict(0, 60 * i, 0 if i < 5 else 3000) for i in range(1, 7)
    ] + [Entry(2, 5, "notice", (3976300800,)), sample(1, 7)]
    toml = station(KINDS)
    good = text(entries, KINDS)
    yield of_text("a journal of version 2", toml, good, "journal: version 2")
    lines_of = good.splitlines(keepends=True)
    for place in range(len(lines_of)):
        word, number, rate, rest = lines_of[place].split(b" ", 3)
        for other in (int(rate) + 1, int(rate) - 1, -int(rate) - 5):
            damaged = b" ".join([word, number, str(other).encode(), rest])
            yield of_text(
                f"line {place + 1} has the rate {other}",
                toml,
                b"".join([*lines_of[:place], damaged, *lines_of[place + 1 :]]),
                "journal: another rate",
            )
        damaged = b" ".join([word, str(place + 2).encode(), rate, rest])
        yield of_text(
            f"line {place + 1} has number {place + 2}",
            toml,
            b"".join([*lines_of[:place], damaged, *lines_of[place + 1 :]]),
            "journal: bad line",
        )
        yield of_text(f"line {place + 1} is lost", toml, b"".join([*lines_of[:place], *lines_of[place + 1 :]]))
    yield of_text("a line of version 1 in a journal of version 2", toml, good + GOOD, "journal: bad line")
    yield of_text("a line of version 2 in a journal of version 1", toml, GOOD + lines_of[1], "journal: bad line")


def all_of() -> Iterator[Case]:
    yield from lines()
    yield from numbered()
