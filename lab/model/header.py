"""The header of a packet (RFC 5905, section 7.3)."""

import struct
from typing import NamedTuple

LENGTH = 48
FORM = ">BBbbIIIQQQQ"


class Header(NamedTuple):
    leap: int
    version: int
    mode: int
    stratum: int
    poll: int
    precision: int
    root_delay: int
    root_dispersion: int
    refid: int
    reference: int
    origin: int
    receive: int
    transmit: int

    def bytes(self) -> bytes:
        first = self.leap << 6 | self.version << 3 | self.mode
        return struct.pack(FORM, first, *self[3:])


def read(datagram: bytes) -> Header | None:
    """The header that a datagram begins with, where it has 48 bytes."""
    if len(datagram) < LENGTH:
        return None
    first, *rest = struct.unpack(FORM, datagram[:LENGTH])
    return Header(first >> 6, first >> 3 & 7, first & 7, *rest)
