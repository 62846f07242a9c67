"""Moments and spans of time as people read them."""

import time

UNITS = (("d", 86400, "h", 3600), ("h", 3600, "min", 60), ("min", 60, "s", 1))


def span(seconds: float) -> str:
    """A span in two units at most, from 120 s on in minutes."""
    whole = max(0, round(seconds))
    for unit, size, lower, small in UNITS:
        if whole >= max(size, 120):
            count, rest = divmod(whole, size)
            return f"{count} {unit}" + (f" {rest // small} {lower}" if rest // small else "")
    return f"{whole} s"


def length(seconds: float) -> str:
    """A small span with its sign, in microseconds, milliseconds or seconds."""
    size = abs(seconds)
    if size < 0.001:
        return f"{seconds * 1e6:.0f} us"
    return f"{seconds * 1e3:.1f} ms" if size < 1 else f"{seconds:.3f} s"


def clock(at: float) -> str:
    """A moment (Unix s) in UTC to the second, or `never`."""
    return time.strftime("%Y-%m-%d %H:%M:%S", time.gmtime(at)) if at else "never"


def ago(at: float, now: float) -> str:
    """How long ago a moment was (both Unix s)."""
    return f"{span(now - at)} ago" if at else "never"
