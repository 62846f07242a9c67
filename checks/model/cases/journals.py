"""Journals and stations for `migrate`: entries of a true time that sources are off by a little."""

from typing import Sequence

from lab.model.commands import migrate
from lab.model.entries import Entry, numbered
from lab.model.page import Journal
from lab.model.units import SECOND
from .case import Case

# The second at which the host's counter was 0: 2026-01-01 12:00 UTC.
BEGAN = 3976257600
BASE = BEGAN * SECOND
LETTERS = {
    "dcf": '[[radio]]\nplan = "dcf"\nlog = "x"\n',
    "msf": '[[radio]]\nplan = "msf"\nlog = "x"\n',
    "wwvb": '[[radio]]\nplan = "wwvb"\nlog = "x"\n',
}


def station(kinds: Sequence[str], bound: int = 1000) -> bytes:
    """A station file of these feeds, in the order radios, servers, leap second file."""
    leap = 'leap_file = "leap"\n' if "leap" in kinds else ""
    servers = '[[server]]\naddress = "192.0.2.1"\nport = 123\n' * list(kinds).count("server")
    return f"bound = {bound}\n{leap}{''.join(LETTERS.get(kind, '') for kind in kinds)}{servers}".encode()


def verdict(feed: int, seconds: int, late: int = 0, leap_at: int = 0) -> Entry:
    """A verdict this many seconds after the counter began, heard this many microseconds late."""
    return Entry(feed, seconds * 10**6 + late, "verdict", (BEGAN + seconds, leap_at))


def sample(
    feed: int, at: int, off: int = 0, delay: int = 4096, dispersion: int = 4294968, stratum: int = 1,
    root: tuple[int, int] = (0, 0),
) -> Entry:
    """A sample at a moment, off the true time by this many units."""
    return Entry(feed, at, "sample", (BASE + off, delay, dispersion, stratum, 0x0A000001 + feed, *root))


def text(entries: Sequence[Entry], kinds: Sequence[str] | None = None, bound: int = 1000) -> bytes:
    """A journal of these entries: of version 2 where the feeds' kinds are given, for its rates."""
    if kinds is None:
        return "".join(f"{entry.text()}\n" for entry in entries).encode()
    journal = Journal(kinds, bound)
    lines = []
    for number, entry in enumerate(entries, 1):
        journal.add(entry)
        lines.append(numbered(number, journal.page.rate, entry))
    return "".join(f"{line}\n" for line in lines).encode()


def of_text(name: str, toml: bytes, journal: bytes, meant: str | None = None) -> Case:
    words = ["migrate", "--station", "station", "--journal", "journal"]
    return Case(name, words, {"station": toml, "journal": journal}, lambda _: migrate(toml, journal), meant)


def of(
    name: str, kinds: Sequence[str], entries: Sequence[Entry], meant: str | None = None, bound: int = 1000
) -> Case:
    return of_text(name, station(kinds, bound), text(entries), meant)
