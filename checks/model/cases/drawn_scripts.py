"""Scripts that a seed makes: radios' minutes, exchanges, leap seconds and requests in order of time, with odd lines
here and there.
"""

import random

from lab.model.spelling import SECOND, Tape
from .case import Case
from .decode_directed import spelt
from .drawn import EVENTS, edited, kinds_of, spoil
from .journals import BEGAN, station
from .replay_scripts import LINES
from .scripts import LIMIT, QUERY, answer, of, request, sealed

Timed = list[tuple[int, str]]
KEYS = {1: b"longwave", 4294967295: b"~"}


def toml(draw: random.Random, kinds: list[str]) -> bytes:
    """A station of these feeds, with a gate and keys by chance."""
    top = []
    if draw.random() < 0.5:
        top.append(f"gap = {draw.choice((1, 1000000, 20000000, 60000000))}\n")
    if draw.random() < 0.5:
        top.append(f"clients = {draw.choice((1, 2, 3, 5))}\n")
    rows = [f'[[key]]\nid = {number}\nsecret = "{secret.decode()}"\n' for number, secret in KEYS.items()]
    tables = [row for row in rows if draw.random() < 0.5]
    if draw.random() < 0.3:
        tables.append(f'[[deny]]\nnet = "127.0.0.{draw.randrange(10)}/{draw.choice((28, 29, 30, 31, 32))}"\n')
    bound = draw.choice((1000, 1000, 1000, 500, 50, 16000))
    text = station(kinds, bound).decode()
    delay = draw.choice((0, 0, 1400, 100000))
    return ("".join(top) + text.replace('log = "x"\n', f'log = "x"\ndelay = {delay}\n') + "".join(tables)).encode()


def radio(draw: random.Random, feed: int, plan: str, minutes: int, leap_at: int) -> Timed:
    """A radio's pulses; its first minute begins at 60 s."""
    named = draw.choice((0, 0, leap_at)) if plan != "msf" else 0
    coded = [
        spelt(
            plan, BEGAN + 120 + 60 * i, named if plan == "wwvb" or BEGAN + 120 + 60 * i < named else 0
        ) for i in range(minutes)
    ]
    if draw.random() < 0.5:
        coded = [edited(draw, plan, symbols) if draw.random() < 0.2 else symbols for symbols in coded]
    tape = Tape(plan, coded, 60 * SECOND)
    if draw.random() < 0.5:
        spoil(draw, tape)
    late = draw.randint(0, 40000)
    tape.move(0, late)
    lines = [tuple(map(int, line.split())) for line in tape.log().splitlines()]
    return [(at, f"pulse {feed} {at} {width}") for at, width in lines]


def server(draw: random.Random, feed: int, until: int) -> Timed:
    """Exchanges of a server that is off by some milliseconds, or by seconds."""
    off = draw.choice((0, draw.randint(-(2**24), 2**24), draw.randint(-(2**32), 2**32), 2**34))
    at, step, found = draw.randrange(SECOND), draw.choice((8, 16, 64)) * SECOND, []
    while at < until:
        changes = {}
        if draw.random() < 0.2:
            name = draw.choice(
                (
                    "leap", "version", "mode", "stratum", "precision", "root_delay", "root_dispersion", "origin",
                    "receive", "transmit",
                )
            )
            most = {
                "leap": 3, "version": 7, "mode": 7, "stratum": 255, "precision": 127
            }.get(name, 2**21 if name.startswith("root") else 2**64 - 1)
            changes[name] = draw.choice((0, most, draw.randint(0, most)))
        datagram = answer(at, off + draw.randint(-(2**22), 2**22), **changes)
        took = draw.choice((0, 2000, 2000, 5000, 10**6))
        found.append((at, f"ask {feed} {at}"))
        for turn in range(draw.choice((0, 1, 1, 1, 1, 2))):
            data = datagram if draw.random() < 0.95 else datagram[: draw.randint(1, 47)]
            found.append((at + took + turn, f"answer {feed} {at + took + turn} {data.hex()}"))
        at += step
    return found


def requests(draw: random.Random, until: int) -> Timed:
    """Requests of some clients, of which some are none, and some long after all else."""
    found = []
    for _ in range(draw.randint(2, 12)):
        at = draw.choice(
            (
                draw.randrange(until),
                draw.randrange(until),
                draw.randrange(until, 2 * until),
                until + draw.randrange(10**10),
                2**50 - 1 - SECOND,
            )
        )
        datagram = draw.choice(
            (b"\x23", b"\x23", b"\x1b", b"\x24", b"\x2b", b"\xe3")
        ) + draw.randbytes(3) + QUERY[4:40] + draw.randbytes(8)
        kind = draw.random()
        if kind < 0.3:
            datagram = sealed(datagram, *draw.choice(list(KEYS.items())))
        elif kind < 0.4:
            datagram = (datagram + bytes(20))[: draw.choice((47, 49, 67, 68))]
        found.append(
            (
                at,
                request(
                    datagram, at, at + draw.choice((0, 40, 500, SECOND)), draw.choice((0, 0, 1, 7, draw.randrange(8)))
                ),
            )
        )
    return found


def replay_case(draw: random.Random) -> Case:
    kinds = kinds_of(draw)
    minutes = draw.choice((2, 5, 6, 9))
    until = 60 * SECOND * (minutes + 1)
    leap_at = BEGAN + draw.choice((240, 301, 600, 43200, 86400))
    timed: Timed = requests(draw, until)
    for feed, kind in enumerate(kinds[:6] if minutes > 6 else kinds):
        if kind == "server":
            timed += server(draw, feed, until)
        elif kind == "leap":
            timed += [
                (
                    at, f"leap {feed} {at} {draw.choice((0, leap_at, leap_at, BEGAN, draw.choice(EVENTS)))}"
                ) for at in sorted(draw.choices(range(until), k=2))
            ]
        else:
            timed += radio(draw, feed, kind, minutes, leap_at)
            if kinds.count(kind) < 4 and draw.random() < 0.15:
                timed.append((draw.randrange(until), f"swap {feed}"))
    lines = [line for _, line in sorted(timed, key=lambda one: one[0])]
    if draw.random() < 0.08:
        lines.insert(draw.randint(0, len(lines)), draw.choice(LINES))
    if draw.random() < 0.1:
        place = draw.randrange(len(lines))
        lines[place : place + draw.choice((1, 60))] = []
    return of("drawn", toml(draw, kinds), lines, None, draw.choice((LIMIT, LIMIT, LIMIT, 1, 5)))
