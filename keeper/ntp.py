"""The little of NTP (RFC 5905, section 7.3) that the keeper needs to ask a server: a request, and
what an answer says."""

import contextlib
import ipaddress
import math
import struct
from dataclasses import dataclass

LENGTH = 48
EPOCH = 2208988800  # the seconds from 1900 to 1970
WHOLE = 2**32
KISSES = ("DENY", "RATE")
ASKED = 2.0  # how often a link is asked (s)
# The addresses from which links are asked. Each is a client of its own to the server.
FROM = ipaddress.IPv4Address("127.45.67.1")
MOST_ADDRESSES = 64


def request(sent: int) -> bytes:
    """A client's request of version 4 whose transmit timestamp is this number of 64 bits."""
    return bytes([0x23, 0, 6, 0xEC]) + bytes(36) + struct.pack(">Q", sent % 2**64)


@dataclass(frozen=True)
class Answer:
    """An answer's fields. Root delay and dispersion, and the stamps as seconds since 1900, are
    seconds; a stamp of 0 is 0.0."""

    leap: int
    stratum: int
    reference_id: str
    root_delay: float
    root_dispersion: float
    reference: float
    origin: int
    receive: float
    transmit: float

    def has_time(self) -> bool:
        return self.leap != 3 and self.stratum > 0

    def is_kiss(self) -> bool:
        return self.stratum == 0 and self.reference_id in KISSES


def name_of(word: bytes, stratum: int) -> str:
    """A reference ID: letters of a stratum 1 server or of a kiss code, else an IPv4 address."""
    if stratum > 1:
        return str(ipaddress.IPv4Address(word))
    return "".join(chr(one) if 32 < one < 127 else "?" for one in word.rstrip(b"\0"))


def answer(datagram: bytes) -> Answer | None:
    """What a datagram says, or None where it is no server's answer."""
    if len(datagram) < LENGTH or datagram[0] & 7 != 4:
        return None
    first, stratum, delay, dispersion, word, reference, origin, receive, transmit = struct.unpack(
        ">BBxxII4sQQQQ", datagram[:LENGTH])
    return Answer(first >> 6, stratum, name_of(word, stratum), delay / 65536, dispersion / 65536,
                  reference / WHOLE, origin, receive / WHOLE, transmit / WHOLE)


def unix_of(seconds: float, now: float) -> float:
    """The Unix seconds of a stamp's seconds since 1900, in the era that is nearest to now (Unix s);
    0.0 for 0."""
    if not seconds:
        return 0.0
    unix = seconds - EPOCH
    return unix + round((now - unix) / WHOLE) * WHOLE


def own_addresses(denied: list[str], gap: float) -> list[str]:
    """Loopback addresses to ask from in turn: enough that none asks twice within the station's gap
    (s), none of a denied net where there is one."""
    nets = []
    for text in denied:
        with contextlib.suppress(ValueError):  # the program refuses such a station
            nets.append(ipaddress.IPv4Network(text, strict=False))
    count = min(MOST_ADDRESSES, math.floor(gap / ASKED) + 2)
    loopback = ipaddress.IPv4Network("127.0.0.0/8")
    for block in range(1 << 16):
        # One block of 256 addresses after the other, from ours on and around.
        first = (int(FROM) - int(loopback[0]) + (block << 8)) % loopback.num_addresses
        good = [loopback[first] + place for place in range(count)]
        if not any(one in net for net in nets for one in good):
            return [str(one) for one in good]
    return [str(FROM + place) for place in range(count)]
