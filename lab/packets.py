"""Packets of NTP (RFC 5905, section 7.3) as clients and servers send them, and timestamps."""

from lab.model.header import LENGTH, Header, read

__all__ = ["LENGTH", "QUERY", "UNIX", "WHOLE", "Header", "number_of", "read", "reply", "request", "stamp"]

UNIX = 2_208_988_800  # the seconds from 1900 to 1970
WHOLE = 2**32  # the units of a timestamp in a second
CLIENT, SERVER = 3, 4
PRECISION = -20


def stamp(unix: float) -> int:
    """A time in seconds since 1970 as a timestamp."""
    return round((unix + UNIX) * WHOLE) % 2**64


def request(transmit: int, version: int = 4, poll: int = 6) -> bytes:
    """A client's request; its transmit timestamp, which is any number, comes back as the answer's origin."""
    return Header(0, version, CLIENT, 0, poll, PRECISION, 0, 0, 0, 0, 0, 0, transmit).bytes()


# The request of scripts and of clients of which only one is on its way.
QUERY = request(0x1122334455667788)


def number_of(answer: bytes) -> int:
    """The transmit timestamp of the request that an answer is of: its own origin timestamp."""
    return int.from_bytes(answer[24:32], "big")


def reply(asked: bytes, received: int, sent: int, refid: bytes = b"TEST", stratum: int = 1, origin: int | None = None) -> bytes:
    """A server's answer to a request, by the timestamps of its clock; of stratum 0 it is a kiss code."""
    if origin is None:
        origin = int.from_bytes(asked[40:LENGTH], "big")
    name = int.from_bytes(refid.ljust(4, b"\0"), "big")
    return Header(0, 4, SERVER, stratum, 6, PRECISION, 0, 64, name, received, origin, received, sent).bytes()
