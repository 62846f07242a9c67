"""A radio's log, and what `decode` writes of it."""

from .forms import MOMENTS, OF_RADIOS, RULES, Entry, Wrong, cut, first_bad, lines_of, need, number

# The longest reduction, in microseconds.
WIDEST = 2_000_000


class Pulses:
    """The reductions of one radio: a start and a width are valid after those before."""

    def __init__(self) -> None:
        self.last = -1

    def is_bad(self, at: str, width: str) -> bool:
        """Returns whether the next reduction is bad; a valid one is the last from then on."""
        start, length = number(at, MOMENTS), number(width, WIDEST + 1)
        if start is None or not length or start <= self.last:
            return True
        self.last = start
        return False


def bad_line_of_log(data: bytes) -> int | None:
    """Returns the number of the first bad line of a log, or None."""
    pulses = Pulses()

    def is_bad(line: str) -> bool:
        fields = line.split(" ")
        return len(fields) != 2 or pulses.is_bad(*fields)

    lines, tail = cut(data)
    return first_bad(lines, is_bad, tail)


def judge_decode(plan: str, data: bytes, output: bytes, status: int) -> None:
    """Judges what `decode` writes of a log; Wrong where a page says otherwise."""
    bad = bad_line_of_log(data)
    *lines, last = lines_of(output)
    need(status == (5 if bad else 0), f"ends with {status}, and the first bad line is {bad}")
    need(last == (f"status 5 line 0 {bad}" if bad else "status 0"), f"the last line is {last!r}, and the first bad line is {bad}")
    starts = {line.split(" ")[0] for line in cut(data)[0][: bad and bad - 1]}
    before: Entry | None = None
    for line in lines:
        entry = Entry(line)
        need(entry.feed == 0 and entry.word in OF_RADIOS, f"no answer of a radio: {line!r}")
        need(line.split(" ")[1] in starts, f"no mark closes a minute at {entry.at}")
        need(before is None or before.at < entry.at, f"an answer before the one before it: {line!r}")
        judge_answer(plan, before, entry, line)
        before = entry


def judge_answer(plan: str, before: Entry | None, entry: Entry, line: str) -> None:
    """Judges an answer of a receiver after the one before it, where no swap stands between them."""
    is_alone = before is None or before.word == "refused"
    if entry.word == "refused":
        need(entry.values[0] in RULES[plan], f"{plan} has no such rule: {line!r}")
        return
    if entry.word == "lone":
        need(is_alone, f"a minute that isn't alone: {line!r}")
        return
    if before is None or is_alone:
        raise Wrong(f"an answer that needs a minute before it: {line!r}")
    minute = before.values[1 if before.word == "differs" else 0]
    if entry.word == "verdict":
        need(entry.values[0] == minute + 60, f"a verdict that no minute before agrees with: {line!r}")
        apart = entry.at - before.at
        long = 60_900_000 <= apart <= 61_100_000 and plan == "dcf"
        need(59_900_000 <= apart <= 60_100_000 or long, f"a verdict {apart} us after the minute before: {line!r}")
    else:
        need(entry.values == [minute, entry.values[1], entry.at - before.at], f"what differs isn't the minute before: {line!r}")
