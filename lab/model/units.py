"""Units and their roundings (docs/PROTOCOL.md, "Units"; RFC 5905 section 6). A span counts 2^-32 s, a moment
microseconds.
"""

SECOND = 2**32
MICROSECONDS = 10**6
PRECISION = 4096
LEAST_DISPERSION = 21474837
MOST_DISPERSION = 2**36
MOST_RATE = 2147483


def ceiling(number: int, by: int) -> int:
    """The quotient rounded up."""
    return -(-number // by)


def local_span(moment: int) -> int:
    """A moment in units of 2^-32 s, rounded down."""
    return moment * SECOND // MICROSECONDS


def phi(microseconds: int) -> int:
    """15 parts per million of this many microseconds, as a span rounded up."""
    return ceiling(15 * microseconds * SECOND, 10**12)


def to_short(span: int) -> int:
    """A span in units of 2^-16 s, rounded up, and at most the greatest number of 32 bits."""
    return min(ceiling(span, 2**16), 2**32 - 1)


def stamp(span: int) -> int:
    """A span since 1900 as a timestamp of 64 bits."""
    return span % 2**64
