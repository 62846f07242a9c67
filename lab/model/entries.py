"""Entries of a journal: their texts, and which a journal may have. The forms are read by lab/grammar."""

from lab import grammar

from .entry import Entry
from .receiver import Answer, moment


def of_answer(feed: int, delay: int, answer: Answer) -> Entry:
    """A receiver's answer as an entry."""
    return Entry(feed, moment(answer.close, delay), answer.word, answer.values)


def read(text: str, feeds: int) -> Entry | None:
    """The entry of a text that a journal of this many feeds may have, else None."""
    try:
        found = grammar.Entry(text)
    except grammar.Wrong:
        return None
    if not found.is_valid(feeds):
        return None
    return Entry(found.feed, found.at, found.word, tuple(found.values))


def read_numbered(text: str, feeds: int) -> tuple[int, int, Entry] | None:
    """The number, the rate and the entry of a text of version 2, else None."""
    try:
        length, rate, plain = grammar.numbered(text)
    except grammar.Wrong:
        return None
    entry = read(plain, feeds)
    return None if entry is None else (length, rate, entry)


def numbered(length: int, rate: int, entry: Entry) -> str:
    """Version 2 of an entry's text."""
    return f"j2 {length} {rate} {entry.text()}"
