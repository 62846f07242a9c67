"""A leap second file: the seconds that it gives, and its first bad line (docs/FORMATS.md, "Leap second file")."""

import re

from . import dates
from .notes import met

ROW = re.compile(rb"([0-9]{1,10})[ \t]+([0-9]{1,3})(?:[ \t]*|[ \t]+#.*)", re.DOTALL)
NO_ROW = re.compile(rb"[ \t]*|#.*", re.DOTALL)
PAST_SECOND = 6311606400
MOST_DIFFERENCE = 255
MOST_BYTES = 65536


def notices(data: bytes) -> tuple[list[int], int | None]:
    """The seconds of the rows after the first one, and the number of the first bad line. A last line without its line
    feed counts only where the file's end was read.
    """
    *lines, last = data[:MOST_BYTES].split(b"\n")
    if last and len(data) <= MOST_BYTES:
        lines.append(last)
    rows: list[tuple[int, int]] = []
    for number, line in enumerate(lines, 1):
        line = line.removesuffix(b"\r")
        if NO_ROW.fullmatch(line):
            continue
        row = _row(line)
        if row is None or not _follows(rows, row):
            met("leap list: bad line")
            return [second for second, _ in rows[1:]], number
        rows.append(row)
    met(f"leap list: {'rows' if rows else 'no row'}")
    return [second for second, _ in rows[1:]], None


def _row(line: bytes) -> tuple[int, int] | None:
    """The second and the difference of a row that can stand in a list."""
    found = ROW.fullmatch(line)
    if not found:
        return None
    second, difference = map(int, found.groups())
    faults = {
        "a second that is too great": second >= PAST_SECOND,
        "a second that begins no month": second < PAST_SECOND and not dates.begins_month(second),
        "a difference that is too great": difference > MOST_DIFFERENCE,
    }
    for fault, holds in faults.items():
        if holds:
            met(f"leap list: {fault}")
    return None if any(faults.values()) else (second, difference)


def _follows(rows: list[tuple[int, int]], row: tuple[int, int]) -> bool:
    """Whether the second rises, and the difference is one more than the one before."""
    if not rows:
        return True
    if row[0] <= rows[-1][0]:
        met("leap list: a second that doesn't rise")
    if row[1] != rows[-1][1] + 1:
        met("leap list: a difference that isn't one more")
    return row[0] > rows[-1][0] and row[1] == rows[-1][1] + 1
