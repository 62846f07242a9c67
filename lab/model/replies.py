"""The reply to a datagram of a client (docs/PROTOCOL.md, "The answer", "Kiss codes" and "Keys"; RFC 5905, appendix A,
fast_xmit).
"""

import hashlib

from .clients import PASS
from .header import LENGTH, Header, read
from .notes import met
from .page import INIT, NO_DISPERSION, Page
from .units import MICROSECONDS, SECOND, local_span, phi, stamp, to_short

CLIENT, SERVER = 3, 4
PRECISION = -20
DAY = 86400
SEALED = 68


def dropped(datagram: bytes) -> str | None:
    """Why a datagram gets no reply, or None."""
    header = read(datagram)
    reason = None
    if header is None:
        reason = "short"
    elif not 1 <= header.version <= 4:
        reason = "version"
    elif header.mode != CLIENT:
        reason = "mode"
    if reason:
        met(f"request: dropped, {reason}")
    return reason


def time_at(page: Page, moment: int) -> int:
    """The time at a moment, as a span since 1900."""
    slew = page.rate * max(0, moment - page.anchor) // MICROSECONDS
    return page.offset + slew + local_span(moment)


def leap_indicator(page: Page, sent: int) -> int:
    """1 where a leap second ends within a day of the second at sending."""
    if page.leap_at == 0:
        return 0
    ahead = page.leap_at - time_at(page, sent) // SECOND
    met(f"reply: a leap second {'that is over' if ahead < 1 else 'near' if ahead <= DAY else 'far'}")
    return int(1 <= ahead <= DAY)


def header_of(code: str, page: Page, request: Header, arrived: int, sent: int) -> Header:
    """The header of a reply: the time, or a kiss code, or that there is no time."""
    has_time = code == PASS and page.sync and sent < page.until
    met(f"reply: {code or ('the time' if has_time else 'past the end' if page.sync else 'no time')}")
    if has_time and sent < page.anchor:
        met("reply: sent before the anchor")
    kiss = int.from_bytes(code.encode(), "big") if code else INIT
    grown = to_short(page.root_dispersion * 2**16 + phi(max(0, sent - page.anchor)))
    return Header(
        leap=leap_indicator(page, sent) if has_time else 3,
        version=request.version,
        mode=SERVER,
        stratum=page.stratum if has_time else 0,
        poll=request.poll,
        precision=PRECISION,
        root_delay=page.root_delay if has_time else 0,
        root_dispersion=grown if has_time else NO_DISPERSION,
        refid=page.refid if has_time else kiss,
        reference=page.reference if has_time else 0,
        origin=request.transmit,
        receive=stamp(time_at(page, arrived)),
        transmit=stamp(time_at(page, sent)),
    )


def digest(secret: bytes, header: bytes) -> bytes:
    return hashlib.md5(secret + header, usedforsecurity=False).digest()


def authentic(keys: dict[int, bytes], datagram: bytes) -> int | None:
    """The identifier of the key by which a datagram is authentic."""
    number = int.from_bytes(datagram[LENGTH : LENGTH + 4], "big")
    if len(datagram) != SEALED or number not in keys:
        return None
    return number if datagram[LENGTH + 4 :] == digest(keys[number], datagram[:LENGTH]) else None


def reply(code: str, page: Page, keys: dict[int, bytes], datagram: bytes, arrived: int, sent: int) -> bytes:
    """The reply to a datagram that isn't dropped, sealed where the request is authentic."""
    request = read(datagram)
    assert request is not None
    header = header_of(code, page, request, arrived, sent).bytes()
    number = authentic(keys, datagram)
    met(f"reply: {'not sealed' if number is None else 'sealed'}")
    return header if number is None else header + number.to_bytes(4, "big") + digest(keys[number], header)
