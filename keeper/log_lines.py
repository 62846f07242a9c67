"""What some seconds of a receiver's log look like: its lines, their unit and their clock."""

import re
from dataclasses import dataclass, field

from keeper.receiver import SECOND, Finding, Level, Marks, judge, marks_of
from keeper.supervisor.pulses import Lines

PAIR = re.compile(rb"\s*(\d{1,19}) (\d{1,13})\s*")  # also what a log doesn't take, for its unit
EDGE = re.compile(rb"\b(rising|falling)\b", re.IGNORECASE)
UNITS = {"seconds": 1e-6, "milliseconds": 1e-3, "microseconds": 1.0, "nanoseconds": 1e3}
NEAR = 120.0  # a start within this number of seconds from now is of that clock


@dataclass
class Look:
    """What was seen: how many lines, how many of them were edges, how many the keeper leaves out,
    and the last of these. `unit` and `clock` are of the starts, empty where none fits."""

    lines: int = 0
    edges: int = 0
    bad: int = 0
    last_bad: str = ""
    unit: str = ""
    clock: str = ""
    marks: Marks = field(default_factory=Marks)


def look(pieces: list[tuple[int, bytes]], seconds: float, monotonic: float, unix: float) -> Look:
    """Looks at what came in a number of seconds: each piece with the microsecond of the monotonic
    clock at which it came; `monotonic` and `unix` are the host's clocks when they ended (s)."""
    reader, text = Lines(), b"".join(piece for _, piece in pieces)
    for at, piece in pieces:
        reader.take(piece, at)
    # The last line may be cut off by our end; where there is no other it is looked at.
    *lines, half = text.split(b"\n")
    if half and not lines:
        lines = [half]
        if not reader.bad:
            reader.begin()
    pairs = [(int(pair[1]), int(pair[2])) for line in lines if (pair := PAIR.fullmatch(line))]
    edges = sum(bool(EDGE.search(line)) for line in lines)
    seen = Look(len(lines), edges, reader.bad, reader.last_bad)
    if pairs:
        seen.unit, seen.clock = unit_of(pairs[-1][0], monotonic, unix)
        scale = UNITS.get(seen.unit, 1.0)
        # What a source says of the time before it was read isn't looked at.
        first = pairs[-1][0] / scale - seconds * SECOND
        marks = [(start / scale, width / scale) for start, width in pairs if start / scale > first]
        seen.marks = marks_of(marks, seconds)
    return seen


def unit_of(start: int, monotonic: float, unix: float) -> tuple[str, str]:
    """The unit of a start that is about now, and the clock that it is of: `monotonic` or
    `real-time`; empty where it is neither."""
    for clock, now in (("monotonic", monotonic), ("real-time", unix)):
        for unit, scale in UNITS.items():
            if abs(start / scale / SECOND - now) < NEAR:
                return unit, clock
    return "", ""


def judge_log(seen: Look, plan: str) -> list[Finding]:
    """Sentences on what was received of a radio of this plan."""
    widths, has = seen.marks.widths, "a log has microseconds"
    clock = {"real-time": f"{seen.unit} of the real-time clock", "": "of no clock of this host"}
    # One line may have been cut off as the source was opened.
    may_be = Level.BAD if seen.bad > max(1, 0.1 * seen.lines) else Level.NOTE
    # The first that is so is said, and where there are marks what they look like.
    rows: tuple[tuple[object, Level, str], ...] = (
        (seen.edges and not widths, Level.BAD,
         "its lines are edges: put `| feeders/edges_to_log.py` after the command"),
        (not seen.lines, Level.BAD,
         "nothing was received: no carrier, no power, another line, or no right to it"),
        (not widths, Level.BAD,
         f"{seen.bad} lines were no start and width; the last: {seen.last_bad}"),
        (not any(widths), Level.BAD, "its widths are 0: a mark has 1 to 2000000 microseconds"),
        (seen.clock != "monotonic", Level.BAD,
         f"its starts are {clock.get(seen.clock)}: {has} of the monotonic clock"),
        (seen.unit != "microseconds", Level.BAD, f"its starts are {seen.unit}: {has}"),
        (seen.bad, may_be, f"{seen.bad} of {seen.lines} lines are bad, and the keeper leaves them "
         f"out; the last: {seen.last_bad}"),
    )
    found = [(level, said) for is_so, level, said in rows if is_so][:1]
    return found + ([judge(seen.marks, plan)] if any(widths) else [])
