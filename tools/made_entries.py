"""What the tests of journals and pictures share: a radio whose minutes are known."""

from journal_text import Entry, read_entry

NOON = 3_976_257_600  # 2026-01-01 12:00 UTC, in seconds since 1900
NOON_UNIX = 1_767_268_800


def entry_of(line: str) -> Entry:
    """The entry of a line that is one."""
    entry = read_entry(line)
    assert entry is not None, line
    return entry


def verdicts(minutes, ppm: float = 0.0, feed: int = 0) -> list[Entry]:
    """The entries of a radio without jitter, on a counter that showed 2 s at noon and gains `ppm`."""
    late = 60_000_000 * (1 + ppm * 1e-6)
    moments = ((minute, 2_000_000 + round(minute * late)) for minute in minutes)
    return [entry_of(f"{feed} {at} verdict {NOON + 60 * minute} 0") for minute, at in moments]
