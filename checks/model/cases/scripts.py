"""Scripts and stations for `replay`: pulses, exchanges and requests as lines."""

from typing import Sequence

from lab.model.commands import LIMIT, replay
from lab.model.exchanges import transmit_of
from lab.model.header import Header
from lab.model.replies import digest
from lab.model.spelling import SECOND, Tape
from .case import Case
from .decode_directed import spelt
from .journals import BASE, BEGAN
from lab.model.units import local_span
from lab.packets import QUERY

# The moment at which five minutes have been heard.
ANCHOR = 360 * SECOND
# A server's answer that is taken; its origin and its times come with each exchange.
GOOD = Header(0, 4, 4, 2, 6, -20, 256, 512, 0x0A000001, 0, 0, 0, 0)


def of(
    name: str, toml: bytes, lines: Sequence[str], meant: str | None = None, limit: int = LIMIT, end: bytes = b""
) -> Case:
    """A script of these lines, and what stands after its last line feed."""
    words = ["replay", "--station", "station", "--script", "script"] + ["--limit", str(limit)] * (limit != LIMIT)
    script = "".join(f"{line}\n" for line in lines).encode("latin-1") + end
    return Case(name, words, {"station": toml, "script": script}, lambda _: replay(toml, script, limit), meant)


def pulses(feed: int, tape: Tape, first: int = 0, last: int | None = None) -> list[str]:
    """The lines of a tape's reductions."""
    return [f"pulse {feed} {at} {width}" for at, width in list(tape.reductions())[first:last]]


def minutes(plan: str, count: int, late: int = 0) -> Tape:
    """Minutes of a plan from the counter's 60 s on, the closing mark of the last one this many microseconds late."""
    tape = Tape(plan, [spelt(plan, BEGAN + 120 + 60 * minute) for minute in range(count)], 60 * SECOND)
    tape.move(tape.begins[count], late)
    return tape


def request(datagram: bytes = QUERY, arrived: int = ANCHOR + SECOND, sent: int | None = None, link: int = 0) -> str:
    return f"request {link} {arrived} {arrived + 500 if sent is None else sent} {datagram.hex()}"


def answer(asked: int, off: int = 0, header: Header = GOOD, /, **changes: int) -> bytes:
    """An answer to the request of a moment by a server whose time is off by this many units, a millisecond each way."""
    arrived = BASE + local_span(asked) + 2**32 // 1000 + off
    stamps = {"origin": transmit_of(asked), "receive": arrived % 2**64, "transmit": (arrived + 4096) % 2**64}
    return header._replace(**{**stamps, **changes}).bytes()


def exchange(feed: int, asked: int, datagram: bytes, took: int = 2000) -> list[str]:
    return [f"ask {feed} {asked}", f"answer {feed} {asked + took} {datagram.hex()}"]


def exchanges_of(
    feed: int, count: int, off: int = 0, first: int = SECOND, step: int = SECOND, **changes
) -> list[str]:
    """Exchanges that are all taken."""
    asked = [first + step * i for i in range(count)]
    return [line for one in asked for line in exchange(feed, one, answer(one, off, **changes))]


def sealed(datagram: bytes, number: int, secret: bytes) -> bytes:
    """A request with the digest of a key."""
    return datagram + number.to_bytes(4, "big") + digest(secret, datagram)
