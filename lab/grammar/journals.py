"""A journal that is written, and what `migrate` writes of one."""

from collections.abc import Callable

from .forms import Entry, Wrong, cut, first_bad, lines_of, need, numbered, page, page_of_none


class Journal:
    """The lines of a journal that is written: each is numbered, and of a feed of the station."""

    def __init__(self, feeds: int):
        self.feeds = feeds
        self.entries: list[str] = []

    def take(self, line: str) -> Entry:
        """Takes the next line, and returns its entry; Wrong where no journal has it there."""
        length, _, text = numbered(line)
        self.entries.append(text)
        need(length == len(self.entries), f"entry {len(self.entries)} has another number: {line!r}")
        entry = Entry(text)
        need(entry.is_valid(self.feeds), f"an entry that a journal can't have: {line!r}")
        return entry

    def ends(self, line: str) -> int:
        """Judges the page line after it, and returns whether that has the time."""
        length, sync = page(line)
        need(length == len(self.entries), f"a page of {length} of {len(self.entries)} entries")
        need(length > 0 or line == page_of_none(), f"the page of no entry: {line!r}")
        return sync


class Lines:
    """The lines of a journal that is read, of either form: which of them is bad, whatever its rate."""

    def __init__(self, feeds: int, second: bool):
        self.feeds, self.second, self.place = feeds, second, 0

    def is_bad(self, line: str) -> bool:
        """Returns whether the next line is bad."""
        self.place += 1
        if len(line) >= 300:
            return True
        try:
            length, _, text = numbered(line) if self.second else (self.place, 0, line)
            return length != self.place or not Entry(text).is_valid(self.feeds)
        except Wrong:
            return True


def judge_migrate(feeds: int, data: bytes, output: bytes, status: int, again: Callable[[list[str]], list[str]]) -> None:
    """Judges what `migrate` writes of a journal; Wrong where a page says otherwise. `again` gives the numbered lines of entries; it is
    asked where a rate alone can be wrong."""
    texts, tail = cut(data)
    *lines, told, last = lines_of(output)
    journal = Journal(feeds)
    for line in lines:
        journal.take(line)
    journal.ends(told)
    second = data.startswith(b"j2")
    bad = first_bad(texts, Lines(feeds, second).is_bad, tail)
    written = len(lines)
    if second and written + 1 != (bad or len(texts) + 1):
        # The line after those that were written has another rate than the page then.
        need(written + 1 < (bad or len(texts) + 1), f"{written} lines are written, and the first bad one is {bad}")
        entries = [numbered(line)[2] for line in texts[: written + 1]]
        need(again(entries)[written] != texts[written], f"line {written + 1} is refused, and has the rate of its page")
        bad = written + 1
    need(written == (bad - 1 if bad else len(texts)), f"{written} lines are written, and the first bad one is {bad}")
    for line, text in zip(lines, texts):
        need((line if second else numbered(line)[2]) == text, f"{line!r} is written for {text!r}")
    need(status == (5 if bad else 0), f"ends with {status}, and the first bad line is {bad}")
    need(last == (f"status 5 journal {bad}" if bad else "status 0"), f"the last line is {last!r}, and the first bad line is {bad}")
