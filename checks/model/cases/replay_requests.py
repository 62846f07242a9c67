"""Scripts for `replay` that are each meant for something of a request: drops, answers, kiss codes, keys."""

from typing import Iterator

from .case import Case
from .journals import BEGAN, station
from .scripts import ANCHOR, QUERY, answer, exchange, exchanges_of, minutes, of, pulses, request, sealed

DCF = station(["dcf"])
# How long a page of five minutes of DCF77 is good is in the page that docs/PAGE.md works out.
UNTIL = ANCHOR + 4062906902
SECOND = 10**6
START = ANCHOR + SECOND
GAP = "gap = 2000000\n"
FIVE = pulses(0, minutes("dcf", 5))


def drops() -> Iterator[Case]:
    for length in (1, 47, 48, 49, 67, 68, 69, 1023, 1024):
        yield of(f"a request of {length} bytes", DCF, [request((QUERY + bytes(1024))[:length])])
    all_ = [request(bytes([first]) + QUERY[1:]) for first in range(256)]
    yield of("each first byte", DCF, all_, "request: dropped, mode")
    yield of("each first byte of a synchronised page", DCF, FIVE + all_, "request: dropped, version")
    several = [
        request(first + rest) for first in (
            b"\x00", b"\x2b", b"\x23", b"\x24"
        ) for rest in (b"", QUERY[1:47], QUERY[1:])
    ]
    yield of("of several reasons to drop the first", DCF, several, "request: dropped, short")
    fields = [
        request(QUERY[:place] + bytes([value]) + QUERY[place + 1 :]) for place in range(48) for value in (1, 255)
    ]
    yield of("each byte of a request", DCF, FIVE + fields)


def answers() -> Iterator[Case]:
    moments = [
        (a, s) for a in (0, ANCHOR - 1, ANCHOR, ANCHOR + 10**6) for s in (
            ANCHOR + 10**6, 10**9, UNTIL - 1, UNTIL, UNTIL + 1, 2**50 - 1
        )
    ]
    lines = [request(arrived=arrived, sent=sent) for arrived, sent in moments]
    yield of("requests before and after the page's end", DCF, FIVE + lines, "reply: past the end")
    yield of("requests of no page", DCF, lines, "reply: no time")
    before = [request(arrived=at, sent=at) for at in (0, 1, 2 * 10**8, ANCHOR - 1)]
    yield of("requests before the anchor", DCF, FIVE + before, "reply: sent before the anchor")
    for late in (3000, -3000, 90000, -90000):
        rate = pulses(0, minutes("dcf", 6, late))
        lines = [
            request(arrived=at, sent=at + 7) for at in (
                0, ANCHOR, ANCHOR + 6 * 10**7 + late, ANCHOR + 7 * 10**7 + 3000, 500000001, 10**10
            )
        ]
        yield of(f"a slew after a minute {late} late", DCF, rate + lines, "reply: the time")
    for plan in ("msf", "wwvb"):
        yield of(f"a reply by {plan}", station([plan]), pulses(0, minutes(plan, 5)) + [request()], "reply: the time")
    server = exchanges_of(0, 8) + [request(arrived=9 * 10**6)]
    yield of("a reply by a server", station(["server"]), server, "reply: the time")
    old = exchanges_of(0, 8, off=(2**32 - BEGAN) * 2**32) + [
        request(arrived=at) for at in (9 * 10**6, 10**9, 5 * 10**9)
    ]
    yield of("a reply of the second era", station(["server"]), old, "answer: a time of the second era")


def leaps() -> Iterator[Case]:
    toml = station(["dcf", "leap"], 16000)
    # The counter began at BEGAN, so a leap second at BEGAN + n has its moment at n seconds.
    for seconds in (86762, 86763, 86764, 86765, 400, 364, 363, 362):
        moments = (363 * 10**6 - 1, 363 * 10**6, 364 * 10**6 - 1, 364 * 10**6)
        # The indicator is that of the moment of sending.
        lines = [request(arrived=one, sent=at) for at in moments for one in moments if one <= at]
        near = [f"leap 1 {ANCHOR} {BEGAN + seconds}"]
        yield of(
            f"a leap second {seconds} s on",
            toml,
            FIVE + near + lines,
            "reply: a leap second near" if 363 <= seconds < 86765 else None,
        )
    far = [f"leap 1 {ANCHOR} {BEGAN + 10 * 86400}", request()]
    yield of("a leap second in ten days", toml, FIVE + far, "reply: a leap second far")
    # A server that is ahead brings the mean's second to the leap second before the counter is there.
    ahead = exchanges_of(1, 8, off=2**31, first=350 * 10**6, root_dispersion=36000)
    both = station(["dcf", "server", "leap"], 16000)
    over = [
        f"leap 2 {ANCHOR} {BEGAN + 400}",
        *(request(arrived=at, sent=at) for at in (399 * 10**6, 4 * 10**8 - 1, 4 * 10**8)),
    ]
    yield of(
        "a leap second that is over by the page's time",
        both,
        FIVE + ahead + over,
        "reply: a leap second that is over",
    )


def judged(name: str, keys: str, asked: list[tuple[int, int]], meant: str | None = None, tables: str = "") -> Case:
    """Requests of clients by their links, at moments after the page of five minutes."""
    toml = keys.encode() + DCF + tables.encode()
    lines = [request(link=link, arrived=START + after, sent=START + after) for link, after in asked]
    return of(name, toml, FIVE + lines, meant)


def gaps() -> Iterator[Case]:
    for after in (0, 1, 1999999, 2000000, 2000001):
        meant = "reply: RATE" if after < 2000000 else None
        yield judged(f"a request {after} after another", GAP, [(0, 0), (0, after)], meant)
    several = [(0, SECOND * i) for i in (0, 1, 2, 3, 4, 4, 5, 6)]
    yield judged("asking within the gap doesn't prolong it", GAP, several, "reply: RATE")
    yield judged("an earlier arrival", GAP, [(0, 10 * SECOND), (0, 0), (0, 12 * SECOND)], "reply: RATE")
    each = [(link, link + SECOND * turn) for turn in range(2) for link in range(8)]
    yield judged("each link is another client", GAP, each, "reply: RATE")
    minute = [(0, 0), (0, 59999999), (0, 60000000)]
    yield judged("a gap of a minute", "gap = 60000000\n", minute, "reply: RATE")
    yield judged("no gap", "clients = 1\n", several)
    lines = [request(b"\x2b" + QUERY[1:]), request(), request(QUERY[:47]), request()]
    yield of("what is dropped is not judged", GAP.encode() + DCF, FIVE + lines, "reply: RATE")


def clients() -> Iterator[Case]:
    for count in (1, 2, 3, 7, 8):
        turns = [(link, 1000 * turn + link) for turn in range(3) for link in (0, 1, 2, 0, 3, 4, 5, 6, 7, 1)]
        meant = "gate: a client is forgotten" if count < 8 else "reply: RATE"
        yield judged(f"a table of {count} clients", f"{GAP}clients = {count}\n", turns, meant)
    fresh = [(0, 0), (1, 1), (0, 2), (2, 3), (0, 4), (1, 5)]
    name = "a client that asks too often comes to the first place"
    yield judged(name, GAP + "clients = 2\n", fresh, "gate: a client is forgotten")


def nets() -> Iterator[Case]:
    asked = [(link, link) for link in range(8)] * 2
    for net in (
        "127.0.0.2/32", "127.0.0.0/31", "127.0.0.7/30", "127.0.0.8/29", "0.0.0.0/0", "128.0.0.0/1", "1.2.3.4/1",
        "127.0.0.9/32", "126.0.0.0/8", "127.255.0.0/9", "126.255.255.255/7",
    ):
        tables = f'[[deny]]\nnet = "192.0.2.7/32"\n[[deny]]\nnet = "{net}"\n'
        yield judged(f"the net {net} is denied", GAP, asked, None, tables)


def keys() -> Iterator[Case]:
    secrets = {1: b"longwave", 7: b"!", 4294967295: b"~" * 32, 258: b'a "b\\c'.replace(b" ", b"_")}
    tables = "".join(f"[[key]]\nid = {number}\nsecret = '{secret.decode()}'\n" for number, secret in secrets.items())
    toml = DCF + tables.encode()
    for number, secret in secrets.items():
        yield of(
            f"a request sealed by key {number}",
            toml,
            FIVE + [request(sealed(QUERY, number, secret))],
            "reply: sealed",
        )
    good = sealed(QUERY, 1, b"longwave")
    damaged = [
        good[:place] + bytes(
            [good[place] ^ bit]
        ) + good[place + 1 :] for place in range(len(good)) for bit in (1, 128)
    ]
    yield of("each byte of a sealed request", toml, FIVE + [request(one) for one in damaged], "reply: not sealed")
    lengths = [request(one) for one in (good[:-1], good + b"\0", good[:52], good[:48] + good[52:], good + good[48:])]
    yield of("lengths of a sealed request", toml, FIVE + lengths, "reply: not sealed")
    others = [
        sealed(QUERY, 1, b"!"),
        sealed(QUERY, 2, b"longwave"),
        sealed(QUERY, 7, b"!"),
        sealed(QUERY, 0, b"longwave"),
        sealed(QUERY, 2**24, b"longwave"),
    ]
    yield of("other keys", toml, FIVE + [request(one) for one in others])
    yield of("a sealed request of no page", toml, [request(good)], "reply: sealed")
    yield of("a sealed request of no key", DCF, FIVE + [request(good)], "reply: not sealed")
    kissed = b"gap = 2000000\n" + toml + b'[[deny]]\nnet = "127.0.0.3/32"\n'
    codes = [request(good), request(good), request(good, link=2), request(QUERY, link=2)]
    yield of("sealed kiss codes", kissed, FIVE + codes, "reply: DENY")
    yield of(
        "a sealed datagram of another mode",
        toml,
        FIVE + [request(sealed(b"\x24" + QUERY[1:], 1, b"longwave"))],
        "request: dropped, mode",
    )


def mingled() -> Iterator[Case]:
    """Each request is answered from the page of the entries before it."""
    tape = minutes("dcf", 6)
    lines = []
    for place, line in enumerate(pulses(0, tape)):
        lines.append(line)
        if place % 59 in (0, 1, 2):
            at = int(line.split(" ")[2])
            lines.append(request(arrived=at, sent=at + 40))
    yield of("requests between the pulses", DCF, lines, "reply: the time")
    yield of(
        "a request between an ask and its answer",
        station(["server"]),
        ["ask 0 5", request(), *exchange(0, 9, answer(9))[1:], request()],
    )


def all_of() -> Iterator[Case]:
    for group in (drops, answers, leaps, gaps, clients, nets, keys, mingled):
        yield from group()
