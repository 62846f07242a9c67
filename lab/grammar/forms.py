"""Numbers, the fields of entries, numbered lines and page lines: which texts they have, and what is none."""

import re
from collections.abc import Callable, Sequence

NUMBER = "(?:0|[1-9][0-9]*)"
SIGNED = "(?:0|-?[1-9][0-9]*)"
A_NUMBER, A_SIGNED = re.compile("(?:0|[1-9][0-9]{0,28})"), re.compile("(?:0|-?[1-9][0-9]{0,28})")
# A moment, in microseconds, is below this.
MOMENTS = 2**50
# The greatest rate either way, in units of 2^-32 s of offset a second.
MOST_RATE = 2147483
# The seconds since 1900 that a radio's verdict may have: those of 2000 to 2099.
FIRST_SECOND, PAST_SECOND = 3155587200, 6311606400

# What a field may be: its form, and the bound or the count of digits of it.
Field = tuple[str, int]
# The fields after the keyword of an entry: a number below this, a length of less than this size, or a number of hexadecimal digits.
SECOND, BYTE, SHORT, LENGTH, ADDRESS = ("below", 2**64), ("below", 256), ("below", 2**32), ("size", 2**70), ("hex", 8)
WORDS: dict[str, tuple[Field, ...]] = {
    "verdict": (SECOND, SECOND),
    "lone": (SECOND,),
    "differs": (SECOND, SECOND, SECOND),
    "refused": (BYTE,),
    "sample": (LENGTH, LENGTH, LENGTH, BYTE, ADDRESS, SHORT, SHORT),
    "declined": (BYTE,),
    "notice": (SECOND,),
}
OF_RADIOS = ("verdict", "lone", "differs", "refused")

# The rules by which a plan's receiver may refuse a minute.
RULES = {
    "dcf": {1, 2, 3, *range(10, 25)},
    "msf": {1, 2, 3, *range(30, 43)},
    "wwvb": {1, 2, 3, *range(50, 57), 58},
}
# The plans of radios, and what stands in place of a plan for a server and for a leap second file.
RADIOS, SERVER, LEAP = tuple(RULES), None, "leap"


class Wrong(Exception):
    """Something that no page says."""


def need(holds: object, why: str) -> None:
    """Raises Wrong, with the reason, where something that a page says doesn't hold."""
    if not holds:
        raise Wrong(why)


def number(text: str, below: int) -> int | None:
    """Returns a number in its one spelling, or None."""
    if A_NUMBER.fullmatch(text) and int(text) < below:
        return int(text)
    return None


def is_field(text: str, kind: Field) -> bool:
    """Returns whether a text is a field of this form and size."""
    form, size = kind
    if form == "below":
        return number(text, size) is not None
    if form == "size":
        return A_SIGNED.fullmatch(text) is not None and abs(int(text)) < size
    return re.fullmatch(f"[0-9a-f]{{{size}}}", text) is not None


class Entry:
    """An entry of a journal from its text; Wrong where the text is none."""

    def __init__(self, text: str):
        fields = text.split(" ")
        need(len(fields) > 2 and fields[2] in WORDS, f"no entry: {text!r}")
        self.word, rest = fields[2], fields[3:]
        kinds = WORDS[self.word]
        feed, at = number(fields[0], 2**32), number(fields[1], MOMENTS)
        if feed is None or at is None or len(rest) != len(kinds) or not all(map(is_field, rest, kinds)):
            raise Wrong(f"no entry: {text!r}")
        self.feed, self.at = feed, at
        self.values = [int(text, 16 if form == "hex" else 10) for text, (form, _) in zip(rest, kinds)]

    def is_valid(self, feeds: int) -> bool:
        """Returns whether a journal of that many feeds may have it."""
        if self.feed >= feeds:
            return False
        if self.word == "verdict":
            second, leap_at = self.values
            return all(FIRST_SECOND <= s < PAST_SECOND for s in (second, leap_at or second))
        if self.word == "notice":
            return self.values[0] < PAST_SECOND
        return self.word != "sample" or all(0 <= v < 2**66 for v in self.values[:3])


def numbered(text: str) -> tuple[int, int, str]:
    """Returns the number, the rate and the entry of a numbered line; Wrong where the text is none."""
    fields = text.split(" ", 3)
    need(len(fields) == 4 and fields[0] == "j2", f"no numbered entry: {text!r}")
    length = number(fields[1], 2**64)
    if not length:
        raise Wrong(f"no number of an entry: {text!r}")
    need(is_field(fields[2], ("size", MOST_RATE + 1)), f"no rate: {text!r}")
    return length, int(fields[2]), fields[3]


def page_of_none(length: int = 0, anchor: int = 0) -> str:
    """Returns the page line of this many entries at a moment in microseconds, where the server does not know the time."""
    return f"page {length} 0 0 494e4954 0 {anchor} 0 0 1048576 0000000000000000 0 0"


def page(text: str) -> tuple[int, int]:
    """Returns how many entries a page line is of, and whether it has the time; Wrong where the text is none."""
    form = f"page ({NUMBER}) ([01]) ({NUMBER}) ([0-9a-f]{{8}}) ({NUMBER}) ({NUMBER}) ({NUMBER}) ({NUMBER}) ({NUMBER}) ([0-9a-f]{{16}}) ({NUMBER}) ({SIGNED})"
    found = re.fullmatch(form, text)
    if found is None:
        raise Wrong(f"no page line: {text!r}")
    length, sync, stratum, refid, offset, anchor, until, delay, dispersion, reftime, leap_at, rate = found.groups()
    need(int(stratum) < 256 and int(offset) < 2**70 and int(anchor) < MOMENTS, f"no page: {text!r}")
    need(int(until) < 2**64 and int(delay) < 2**32 and int(dispersion) < 2**32 and int(leap_at) < 2**64, f"no page: {text!r}")
    need(abs(int(rate)) <= MOST_RATE, f"no page: {text!r}")
    if sync == "0":
        need(text == page_of_none(int(length), int(anchor)), f"a page without a time that has one: {text!r}")
    else:
        need(int(stratum) > 0 and int(until) > 0, f"a page with a time that has none: {text!r}")
    return int(length), int(sync)


def lines_of(output: bytes) -> list[str]:
    """Returns the lines that were written; Wrong where one isn't whole, or has a byte that no line has."""
    need(output.endswith(b"\n"), "the last line isn't whole")
    need(re.fullmatch(rb"[ -~\n]*", output), "a byte that no line has")
    return output.decode().split("\n")[:-1]


def first_bad(lines: Sequence[str], is_bad: Callable[[str], bool], tail: str) -> int | None:
    """Returns the number of the first bad line, or None; `tail` is what stands after the last line feed."""
    for place, line in enumerate(lines, 1):
        if is_bad(line):
            return place
    return len(lines) + 1 if tail else None


def cut(data: bytes) -> tuple[list[str], str]:
    """Returns the lines of a file as texts, and what stands after the last line feed."""
    *lines, tail = data.decode("latin-1").split("\n")
    return lines, tail
