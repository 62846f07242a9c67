"""The whole text of a command and its exit status, from the bytes of its files (docs/FORMATS.md)."""

from typing import NamedTuple, Sequence

from lab import grammar

from . import entries, leap_list, receiver, script, station as stations
from .entries import Entry, numbered
from .marks import Reduction
from .notes import met
from .spelling import made_log
from .station import Station

LIMIT = 1048576
MOST_OF_STATION = 65536


class Ended(NamedTuple):
    """How a command ends: its text and its exit status."""

    text: str
    status: int


def ended(lines: Sequence[str], status: str) -> Ended:
    """The text of these lines and the status line."""
    met(f"status {status.split(' ')[1]}")
    return Ended("".join(f"{line}\n" for line in [*lines, status]), int(status.split(" ")[1]))


def reductions(log: bytes) -> tuple[list[Reduction], int | None]:
    """The reductions of a log before its first bad line, and the number of that line."""
    bad = grammar.bad_line_of_log(log)
    if bad:
        met("log: no line feed at the end" if bad > log.count(b"\n") else "log: bad line")
    lines = grammar.cut(log)[0][: bad - 1 if bad else None]
    return [Reduction(*map(int, line.split(" "))) for line in lines], bad


def due_log(feed: int, plan: str, delay: int, log: bytes) -> tuple[list[Entry], int | None]:
    """The entries that a radio's log is due, and the number of its first bad line."""
    found, bad = reductions(log)
    return [entries.of_answer(feed, delay, answer) for answer in receiver.heard(plan, found)], bad


def unopened(what: str) -> Ended:
    """A file that isn't there."""
    return ended([], f"status 2 open {what}")


def decode(plan: str, log: bytes | None) -> Ended:
    if log is None:
        return unopened("feed 0")
    found, bad = due_log(0, plan, 0, log)
    return ended([entry.text() for entry in found], f"status 5 line 0 {bad}" if bad else "status 0")


def station_of(text: bytes | None) -> Station | Ended:
    """The station of a file, or how a command ends that has none."""
    if text is None:
        return unopened("station")
    if len(text) > MOST_OF_STATION:
        return ended([], "status 10 long station")
    read = stations.read(text)
    if isinstance(read, Station):
        return read
    met(f"station: {read.split(' ')[0]}")
    return ended([], f"status 3 station {read}")


def replay(station: bytes | None, text: bytes | None, limit: int = LIMIT) -> Ended:
    read = station_of(station)
    if isinstance(read, Ended):
        return read
    return unopened("script") if text is None else ended(*script.replay(read, text, limit))


def migrate(station: bytes | None, text: bytes | None) -> Ended:
    read = station_of(station)
    if isinstance(read, Ended):
        return read
    if text is None:
        return unopened("journal")
    lines, tail = grammar.cut(text)
    is_numbered = text.startswith(b"j2")
    met(f"journal: version {1 + is_numbered}")
    journal = read.journal()
    written: list[str] = []
    for line in lines:
        entry = _entry_of(read, line, is_numbered, len(written) + 1)
        if entry is None:
            met("journal: bad line")
            break
        before = journal.page
        journal.add(entry)
        written.append(numbered(len(written) + 1, journal.page.rate, entry))
        if is_numbered and line != written[-1]:
            # A line of another rate than its page's is bad, so the page is the one before it.
            met("journal: another rate")
            return ended([*written[:-1], before.line()], f"status 5 journal {len(written)}")
    is_whole = len(written) == len(lines) and not tail
    return ended([*written, journal.page.line()], "status 0" if is_whole else f"status 5 journal {len(written) + 1}")


def _entry_of(station: Station, line: str, is_numbered: bool, number: int) -> Entry | None:
    """The entry of a line of a journal, or None where the line is bad by itself."""
    if len(line) >= 300:
        return None
    if not is_numbered:
        return entries.read(line, len(station.kinds))
    found = entries.read_numbered(line, len(station.kinds))
    return found[2] if found and found[0] == number else None


def serve(station: bytes | None, files: dict[str, bytes], limit: int, text: str) -> Ended:
    """What `serve` writes of a station without servers and links, where the feeds' entries are mingled as in a text
    that it wrote.
    """
    read = station_of(station)
    if isinstance(read, Ended):
        return read
    names = [radio.log for radio in read.radios] + ([] if read.leap_file is None else [read.leap_file])
    for feed, name in enumerate(names):
        if name not in files:
            return unopened(f"feed {feed}")
    due, faults = [], []
    for feed, radio in enumerate(read.radios):
        found, bad = due_log(feed, radio.plan, radio.delay, files[radio.log])
        due.append(found)
        faults += [f"status 5 line {feed} {bad}"] if bad else []
    if read.leap_file is not None:
        feed = len(read.kinds) - 1
        seconds, bad = leap_list.notices(files[read.leap_file])
        due.append([Entry(feed, read.start, "notice", (second,)) for second in seconds])
        faults += [f"status 5 line {feed} {bad}"] if bad else []
        faults += [f"status 10 long feed {feed}"] if len(files[read.leap_file]) > leap_list.MOST_BYTES else []
    if sum(map(len, due)) > limit:
        faults.append(f"status 6 full {limit}")
    status = min(faults, key=lambda fault: int(fault.split(" ")[1]), default="status 0")
    return _mingled(read, due, limit, status, text)


def _mingled(station: Station, due: list[list[Entry]], limit: int, status: str, text: str) -> Ended:
    """The due entries in the order of the feeds in a text that was written."""
    left = [list(one) for one in due]
    order = [int(line.split(" ")[3]) for line in text.splitlines() if line.startswith("j2 ")]
    journal = station.journal()
    written: list[str] = []
    for feed in order + [feed for feed, one in enumerate(due) for _ in one]:
        if left[feed] and len(written) < limit:
            entry = left[feed].pop(0)
            journal.add(entry)
            written.append(numbered(len(written) + 1, journal.page.rate, entry))
    return ended([*written, journal.page.line()], status)


def drill(seed: int) -> Ended:
    """What `drill` writes with room for all of its day."""
    read = stations.read(
        b'radio = [{plan = "dcf", log = "0"}, {plan = "msf", log = "1"}, {plan = "wwvb", log = "2"}]'
    )
    assert isinstance(read, Station)
    journal = read.journal()
    written: list[str] = []
    for feed, radio in enumerate(read.radios):
        found = due_log(feed, radio.plan, 0, made_log(radio.plan, seed))[0]
        for entry in found:
            journal.add(entry)
        words = [entry.word for entry in found]
        counts = [f"{word} {words.count(word)}" for word in ("verdict", "lone", "differs", "refused")]
        written.append(f"feed {feed} {' '.join(counts)}")
    return ended([*written, journal.page.line()], "status 0")
