"""Requests to a server, and which answers are taken (docs/PROTOCOL.md, "How a server is asked"; RFC 5905 section 8
and appendix A).
"""

from typing import NamedTuple

from .header import Header, read
from .notes import met
from .units import MOST_DISPERSION, PRECISION, local_span, phi

FIRST_ERA_SECOND = 3155673600
# A root distance that is refused, in units of 2^-16 s: 16 s.
FAR = 16 * 2**16


class Event(NamedTuple):
    """A request that was made at a moment, or an answer that was judged: its datagram, and whether it was taken."""

    at: int
    datagram: bytes
    taken: bool = False
    is_request: bool = False


def transmit_of(moment: int) -> int:
    """The transmit timestamp of a request, which is no time."""
    return 2**63 + local_span(moment)


def request(moment: int) -> bytes:
    """The 48 bytes of a request."""
    return Header(0, 4, 3, 0, 6, -20, 0, 0, 0, 0, 0, 0, transmit_of(moment)).bytes()


def unwrapped(stamp: int) -> int:
    """A timestamp as a span since 1900: its second is the one from 2000-01-01 on that has these 32 bits."""
    second, fraction = divmod(stamp, 2**32)
    return (FIRST_ERA_SECOND + (second - FIRST_ERA_SECOND) % 2**32) * 2**32 + fraction


def precision_of(exponent: int) -> int:
    """A precision of log2 s as a span, of at least a unit and at most 16 s."""
    return 1 if exponent < -32 else MOST_DISPERSION if exponent > 4 else 2 ** (32 + exponent)


def outstanding(history: list[Event]) -> int | None:
    """The moment of the last request, where no answer after it was taken."""
    for event in reversed(history):
        if event.is_request or event.taken:
            return event.at if event.is_request else None
    return None


def refusal(history: list[Event], datagram: bytes, is_stranger: bool = False) -> int | None:
    """The least number of a refusal whose condition holds."""
    asked = outstanding(history)
    header = read(datagram)
    if is_stranger or header is None or asked is None:
        code: int | None = 1 if is_stranger else 2 if header is None else 3
    else:
        taken = [read(event.datagram) for event in history if event.taken]
        code = _refusal_of(header, asked, [one.transmit for one in taken if one])
    met(f"answer: {'taken' if code is None else f'refused by {code}'}")
    return code


def _refusal_of(header: Header, asked: int, taken: list[int]) -> int | None:
    """Of the refusals by what an answer's header says."""
    conditions = {
        4: not 1 <= header.version <= 4,
        5: header.mode != 4,
        6: header.origin != transmit_of(asked),
        7: taken[-1:] == [header.transmit],
        8: header.leap == 3 or not 1 <= header.stratum <= 15,
        9: header.receive == 0 or header.transmit == 0,
        10: header.root_delay + 2 * header.root_dispersion >= 2 * FAR,
    }
    return next((code for code, holds in conditions.items() if holds), None)


def sample(asked: int, at: int, datagram: bytes, address: int) -> tuple[int, ...]:
    """The numbers of a sample entry: offset, delay, dispersion, stratum, address, root delay, root dispersion."""
    header = read(datagram)
    assert header is not None, "what is no header is refused"
    sent, received = local_span(asked), local_span(at)
    arrived, left = unwrapped(header.receive), unwrapped(header.transmit)
    offset = ((arrived - sent) + (left - received)) // 2
    delay = (received - sent) - (left - arrived)
    if delay < PRECISION:
        met("answer: a delay below the precision")
    if left >= 2**64:
        met("answer: a time of the second era")
    if not -32 <= header.precision <= 4:
        met(f"answer: a precision {'below' if header.precision < 0 else 'above'} the range")
    dispersion = PRECISION + precision_of(header.precision) + phi(at - asked)
    return (
        offset, max(PRECISION, delay), dispersion, header.stratum, address, header.root_delay, header.root_dispersion
    )


