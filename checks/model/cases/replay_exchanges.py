"""Scripts for `replay` that are each meant for something of an exchange with a server."""

from typing import Iterator

from lab.model.exchanges import FAR, FIRST_ERA_SECOND
from lab.model.units import local_span
from .case import Case
from .journals import BASE, station
from .scripts import answer, exchange, exchanges_of, of, request

SERVER = station(["server"])
ASKED = 10**6


def answered(name: str, datagram: bytes, code: int | None) -> Case:
    """A datagram as the answer to a request. A good answer after it is still taken where it was refused."""
    lines = exchange(0, ASKED, datagram) + exchange(0, ASKED + 9000, answer(ASKED + 9000))
    good = f"answer 0 {ASKED + 2001} {answer(ASKED).hex()}"
    meant = f"answer: refused by {code}" if code else "answer: taken"
    return of(name, SERVER, [*lines[:2], good, *lines[2:]], meant)


def refusals() -> Iterator[Case]:
    """Each refusal by what one datagram says, at its borders."""
    for length in (1, 47, 48, 49, 68, 1024):
        yield answered(
            f"an answer of {length} bytes", (answer(ASKED) + bytes(1024))[:length], 2 if length < 48 else None
        )
    for version in range(8):
        yield answered(
            f"an answer of version {version}", answer(ASKED, version=version), None if 1 <= version <= 4 else 4
        )
    for mode in range(8):
        yield answered(f"an answer of mode {mode}", answer(ASKED, mode=mode), None if mode == 4 else 5)
    asked = answer(ASKED)[24:32]
    for bit in (0, 1, 31, 32, 63):
        origin = int.from_bytes(asked, "big") ^ 1 << bit
        yield answered(f"an answer whose origin differs in bit {bit}", answer(ASKED, origin=origin), 6)
    yield answered("an answer of origin 0", answer(ASKED, origin=0), 6)
    for leap in range(4):
        yield answered(f"an answer of leap indicator {leap}", answer(ASKED, leap=leap), 8 if leap == 3 else None)
    for stratum in (0, 1, 2, 14, 15, 16, 17, 255):
        yield answered(
            f"an answer of stratum {stratum}", answer(ASKED, stratum=stratum), None if 1 <= stratum <= 15 else 8
        )
    sent = BASE + local_span(ASKED)
    for reference in (1, sent, sent + 2**32, 2**63, 2**64 - 1):
        yield answered(f"an answer of reference timestamp {reference}", answer(ASKED, reference=reference), None)
    for name, values in (("poll", (-128, 0, 3, 18, 127)), ("refid", (0, 0x52415445, 2**32 - 1))):
        for value in values:
            yield answered(f"an answer of {name} {value}", answer(ASKED, **{name: value}), None)
    for name in ("receive", "transmit"):
        yield answered(f"an answer whose {name} timestamp is 0", answer(ASKED, **{name: 0}), 9)
        yield answered(f"an answer whose {name} timestamp is 1", answer(ASKED, **{name: 1}), None)
    for delay, dispersion in (
        (0, FAR - 1), (0, FAR), (1, FAR - 1), (2, FAR - 1), (2 * FAR - 1, 0), (2 * FAR, 0), (FAR, FAR // 2),
        (FAR - 1, FAR // 2), (2**32 - 1, 2**32 - 1), (0, 2**31),
    ):
        code = 10 if delay + 2 * dispersion >= 2 * FAR else None
        yield answered(
            f"an answer of root delay {delay} and dispersion {dispersion}",
            answer(ASKED, root_delay=delay, root_dispersion=dispersion),
            code,
        )


def orders() -> Iterator[Case]:
    """Of several refusals the first."""
    wrong = {"version": 5, "mode": 3, "origin": 5, "transmit": 0, "leap": 3, "receive": 0, "root_delay": 2**31}
    names = list(wrong)
    for place in range(len(names)):
        datagram = answer(ASKED, **{name: wrong[name] for name in names[place:]})
        yield answered(f"an answer that is wrong from its {names[place]} on", datagram, (4, 5, 6, 8, 8, 9, 10)[place])


def histories() -> Iterator[Case]:
    """Refusals by what came before."""
    twice = exchange(0, ASKED, answer(ASKED)) + [f"answer 0 {ASKED + 3000} {answer(ASKED).hex()}"]
    yield of("an answer that comes twice", SERVER, twice, "answer: refused by 3")
    yield of("an answer before any request", SERVER, exchange(0, ASKED, answer(ASKED))[1:], "answer: refused by 3")
    again = exchange(0, ASKED, answer(ASKED, transmit=77)) + exchange(
        0, ASKED + 5000, answer(ASKED + 5000, transmit=77)
    )
    yield of("an answer of the transmit timestamp before", SERVER, again, "answer: refused by 7")
    between = again[:2] + exchange(0, ASKED + 5000, answer(ASKED + 5000)) + exchange(
        0, ASKED + 9000, answer(ASKED + 9000, transmit=77)
    )
    yield of("an answer of the transmit timestamp before the last", SERVER, between, "answer: taken")
    worse = exchange(0, ASKED, answer(ASKED, transmit=77)) + exchange(
        0, ASKED + 5000, answer(ASKED + 5000, transmit=77, leap=3)
    )
    yield of("a duplicate that is not synchronised", SERVER, worse, "answer: refused by 7")
    old = [
        f"ask 0 {ASKED}", *exchange(0, ASKED + 5, answer(ASKED)), f"answer 0 {ASKED + 9000} {answer(ASKED + 5).hex()}"
    ]
    yield of("an answer to the request before", SERVER, old, "answer: refused by 6")
    two = station(["server", "server"])
    cross = [
        "ask 0 5",
        "ask 1 6",
        f"answer 0 9 {answer(6).hex()}",
        f"answer 1 9 {answer(6).hex()}",
        f"answer 0 9 {answer(5).hex()}",
    ]
    yield of("two servers' exchanges", two, cross, "answer: refused by 6")


def samples() -> Iterator[Case]:
    for precision in (-128, -34, -33, -32, -31, -20, 0, 3, 4, 5, 6, 127):
        yield of(
            f"an answer of precision {precision}", SERVER, exchange(0, ASKED, answer(ASKED, precision=precision))
        )
    for took in (0, 1, 2, 1999, 2000, 2001, 10**6, 10**9, 2**49):
        yield of(f"an answer after {took}", SERVER, exchange(0, ASKED, answer(ASKED), took))
    for kept in (-(2**33), -4097, -1, 0, 1, 4096, 8589934, 8585838, 8585839, 2**33):
        arrived = BASE + local_span(ASKED) + 2**22
        yield of(
            f"a server that keeps it for {kept}", SERVER,
            exchange(0, ASKED, answer(ASKED, receive=arrived, transmit=arrived + kept))
        )
    for second in (
        FIRST_ERA_SECOND - 1, FIRST_ERA_SECOND, FIRST_ERA_SECOND + 1, 2**32 - 1, 2**32, 2**32 + 1, 2**32 + 10**9
    ):
        stamp = second % 2**32 << 32 | 1 << 31
        datagram = answer(ASKED, receive=stamp, transmit=stamp + 7)
        yield of(f"an answer at second {second}", SERVER, exchange(0, ASKED, datagram))
    halves = [
        answer(ASKED, receive=BASE + one, transmit=BASE + other) for one, other in ((0, 1), (1, 1), (1, 2), (5, 0))
    ]
    yield of(
        "offsets of odd sums",
        SERVER,
        [line for i, one in enumerate(halves) for line in exchange(0, ASKED, one[:47] + bytes([i]))],
    )
    ages = exchanges_of(0, 12, step=64 * 10**6) + [request(arrived=10**9)]
    yield of("twelve exchanges", SERVER, ages, "answer: taken")
    for moment in (0, 1, 2**50 - 1):
        yield of(f"a request at {moment}", SERVER, [f"ask 0 {moment}"])


def all_of() -> Iterator[Case]:
    for group in (refusals, orders, histories, samples):
        yield from group()
