"""Scripts for `replay` that are each meant for something of a swap, of a limit or of a line's form."""

from typing import Iterator

from .case import Case
from .journals import station
from .scripts import QUERY, answer, exchange, minutes, of, pulses, request

ASKED = 10**6


def swaps() -> Iterator[Case]:
    for plan in ("dcf", "msf", "wwvb"):
        one = pulses(0, minutes(plan, 4))
        for place in (0, 1, 30, 61, 90, 121, 125, 200):
            yield of(
                f"a swap of {plan} after {place} pulses",
                station([plan]),
                [*one[:place], "swap 0", *one[place:]],
                "script: swap",
            )
        for radios in (1, 2, 4):
            lines = [f"swap {i % radios}" for i in range(5)]
            yield of(f"five swaps of {radios} radios of {plan}", station([plan] * radios), lines, "script: bad line")
    mixed = station(["dcf", "msf", "wwvb", "dcf"])
    yield of(
        "swaps count by plan",
        mixed,
        ["swap 0", "swap 1", "swap 1", "swap 1", "swap 2", "swap 3", "swap 0"],
        "script: bad line",
    )
    later = [*pulses(0, minutes("dcf", 1)), "swap 0", "pulse 0 120000000 100000"]
    yield of("a pulse of the last pulse's start after a swap", station(["dcf"]), later, "script: bad line")


def limits() -> Iterator[Case]:
    five, toml = pulses(0, minutes("dcf", 5)), station(["dcf", "server", "leap"])
    for limit in (1, 2, 4, 5, 6, 4194304):
        meant = "script: an entry is lost" if limit < 5 else "status 0"
        yield of(f"a limit of {limit}", station(["dcf"]), [*five, request()], meant, limit)
    lines = [
        *exchange(1, ASKED, answer(ASKED)),
        *exchange(1, ASKED + 5000, answer(ASKED + 5000)),
        "leap 2 5 3976300800",
        *exchange(1, ASKED + 9000, answer(ASKED)),
    ]
    for limit in range(1, 5):
        yield of(f"exchanges under a limit of {limit}", toml, lines, None, limit)
    yield of("a bad line after an entry that is lost", toml, [*lines, "x"], "script: bad line", 1)
    delays = station(["dcf"]).replace(b'log = "x"\n', b'log = "x"\ndelay = 100000\n')
    yield of("a delay of the path", delays, [*five, request()], "reply: the time")
    early = ["pulse 0 0 100000", *(f"pulse 0 {2000000 + i} 100000" for i in range(2)), "pulse 0 4000001 100000"]
    yield of(
        "a moment that would be below 0",
        station(["msf"]).replace(b'log = "x"\n', b'log = "x"\ndelay = 100000\n'),
        ["pulse 0 5 500000", "pulse 0 90000 500000", "pulse 0 95000 500000", *early[3:]],
    )


LINES = [
    "", " ", "pulse", "pulse 0", "pulse 0 5", "pulse 0 5 ", "pulse 0 5 1 1", "pulse  0 5 1", " pulse 0 5 1",
    "Pulse 0 5 1", "pulse 00 5 1", "pulse 0 05 1", "pulse 0 5 01",
    "pulse 0 5 0", "pulse 0 5 2000000", "pulse 0 5 2000001", "pulse 1 5 1", "pulse 2 5 1", "pulse 3 5 1",
    "pulse -1 5 1", "pulse 0 5 1\r", "pulse 0 1 1", "pulse 0 0 1",
    "pulse 0 1125899906842623 1", "pulse 0 1125899906842624 1", "pulse 4294967296 5 1", "ask", "ask 0 5", "ask 1 5",
    "ask 2 5", "ask 3 5", "ask 1", "ask 1 5 5", "ask 1 1",
    "ask 1 2", "ask 1 3", "ask 1 1125899906842623", "ask 1 1125899906842624", "ask 1 05", "answer 1 5", "answer 1 5 ",
    "answer 1 5 0", "answer 1 5 00", "answer 1 5 0G",
    "answer 1 5 0A", "answer 0 5 00", "answer 1 1 00", "answer 2 5 00", "answer 1 5 " + "00" * 1024,
    "answer 1 5 " + "00" * 1025, "answer 1 5 000", "swap", "swap 0", "swap 1",
    "swap 2", "swap 0 0", "swap 00", "leap 2 5 0", "leap 2 5 6311606399", "leap 2 5 6311606400", "leap 1 5 0",
    "leap 0 5 0", "leap 2 5", "leap 2 5 1 1", "leap 2 1 0", "leap 2 2 0",
    "leap 2 3 0", "leap 3 5 0", "request 0 5 5", "request 0 5 5 00", "request 7 5 5 00", "request 8 5 5 00",
    "request 0 5 4 00", "request 0 5 6 00", "request 0 05 5 00",
    "request 0 1125899906842623 1125899906842623 00", "request 0 1125899906842624 1125899906842624 00",
    "request 0 5 1125899906842624 00", "request 0 5 5 00 00",
    "request 0 5 5 " + "ab" * 1024, "request 0 5 5 " + "ab" * 1025, "bad x", "\xff", "pulse 0 5 1\0", "x" * 4094,
    "x" * 4095, "x" * 4096, "x" * 5000,
]


def lines() -> Iterator[Case]:
    toml = station(["dcf", "server", "leap"])
    before = ["pulse 0 2 100000", "ask 1 2", "leap 2 2 0"]
    for line in LINES:
        yield of(f"the line '{line[:60]}'", toml, [*before, line, request()])
    for end in (b"x", b"ask 1 5", b"x" * 4095, b"x" * 4096, b"\r"):
        yield of(f"a script that ends with {end[:9]!r}", toml, before, "script: no line feed at the end", end=end)
    yield of("an empty script", toml, [], "status 0")
    for toml in (station(["msf"]), station(["server"]), station(["wwvb", "leap"])):
        for line in ("pulse 0 5 1", "ask 0 5", "swap 0", "leap 0 5 0", "leap 1 5 0", request(QUERY)):
            yield of(f"the line '{line[:40]}' of {toml!r}", toml, [line])


def all_of() -> Iterator[Case]:
    for group in (swaps, limits, lines):
        yield from group()
