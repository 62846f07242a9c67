"""Journals as `serve`, `replay`, `migrate` or `decode` writes them, read for looking at: entries, offsets, the names of feeds."""

import collections
import importlib
import ipaddress
import pathlib
import statistics
import sys
import tomllib
from types import ModuleType
from typing import NamedTuple

UNIT = 2**32  # units of an offset in a second
UNIX_EPOCH = 2_208_988_800  # in seconds since 1900-01-01 00:00 UTC
# How many fields there are after each kind (docs/FORMATS.md).
FIELDS = {"verdict": 2, "lone": 1, "differs": 3, "refused": 1, "sample": 7, "declined": 1, "notice": 1}
KINDS = tuple(FIELDS)
PLANS = {"dcf": "DCF77", "msf": "MSF", "wwvb": "WWVB"}


class Entry(NamedTuple):
    """An entry: its feed, its moment in microseconds of the host's counter, its kind, what else it says, and the rate after it, if it says that."""

    feed: int
    at: int
    kind: str
    fields: list[str]
    rate: int | None


class Station(NamedTuple):
    """What a station file says of the feeds: their kinds (a plan, `server` or `leap`), what a picture calls them, and the bound in ms."""

    kinds: list[str]
    names: list[str]
    bound: int


class Run(NamedTuple):
    """The entries of a journal that have a place in time, and the line through its offsets: seconds at `middle`, and seconds a second."""

    entries: list[Entry]
    middle: int
    level: float
    rate: float


def read_entry(line: str) -> Entry | None:
    """An entry of either version, or None where the line is none."""
    fields = line.split()
    rate = None
    try:
        if fields[:1] == ["j2"] and fields[1].isdigit():
            rate = int(fields[2])
            fields = fields[3:]
        if not fields[0].isdigit() or not fields[1].isdigit() or len(fields) - 3 != FIELDS.get(fields[2]):
            return None
        entry = Entry(int(fields[0]), int(fields[1]), fields[2], fields[3:], rate)
        offset_of(entry)
    except (ValueError, IndexError):
        return None
    return entry


def offset_of(entry: Entry) -> float | None:
    """By how many seconds UTC, counted from 1970, is ahead of the host's counter by an entry, or None where it doesn't say."""
    if entry.kind == "verdict":
        return int(entry.fields[0]) - UNIX_EPOCH - entry.at / 1e6
    if entry.kind == "sample":
        return int(entry.fields[0]) / UNIT - UNIX_EPOCH
    return None


def with_offsets(entries: list[Entry]) -> list[tuple[Entry, float]]:
    """The entries that say an offset, with it."""
    return [(entry, offset) for entry in entries if (offset := offset_of(entry)) is not None]


def line_through(points: list[tuple[float, float]]) -> tuple[float, float]:
    """The level and the slope of a line that outliers don't bend, at the moment 0: medians of the first and of the last third. A second
    time they are those of what is left of the first line, since a median of values that rise is one value, with its jitter."""
    points = sorted(points)
    third = max(1, len(points) // 3)
    early, late = points[:third], points[-third:]
    apart = statistics.median(at for at, _ in late) - statistics.median(at for at, _ in early)
    slope = 0.0
    for _ in range(2 if apart > 0 else 0):
        slope += (median_off(late, slope) - median_off(early, slope)) / apart
    return median_off(points, slope), slope


def median_off(points: list[tuple[float, float]], slope: float) -> float:
    """The median distance of points from a line through zero."""
    return statistics.median(value - slope * at for at, value in points)


def run_of(entries: list[Entry]) -> Run | None:
    """A journal's entries with the line through their offsets; None where no entry says one."""
    given = with_offsets(entries)
    if not given:
        return None
    middle = given[len(given) // 2][0].at
    base = given[0][1]
    level, rate = line_through([((entry.at - middle) / 1e6, offset - base) for entry, offset in given])
    return Run(entries, middle, base + level, rate)


def due(run: Run, at: int) -> float:
    """The offset that a run's line has at a moment, in seconds."""
    return run.level + run.rate * (at - run.middle) / 1e6


def unix_of(run: Run, at: int) -> float:
    """Which UTC a moment of a run was, in seconds since 1970."""
    return at / 1e6 + due(run, at)


def read_journal(name: str) -> list[Entry]:
    """The entries of a journal in its order; other lines are passed over, and so is a last line that was cut off."""
    with open(name, encoding="ascii", errors="replace") as file:
        return [entry for line in file if line.endswith("\n") and (entry := read_entry(line))]


def number_names(names: list[str]) -> list[str]:
    """Names that are given apart: where one stands twice the feed's number goes with it."""
    counts = collections.Counter(names)
    return [f"{name} (feed {feed})" if counts[name] > 1 else name for feed, name in enumerate(names)]


def read_station(name: str) -> Station:
    """What a station file says of its feeds: the radios, the servers, the leap second file. Raises `ValueError` where it is none."""
    table = tomllib.loads(pathlib.Path(name).read_text(encoding="utf-8"))
    radios, servers = table.get("radio", []), table.get("server", [])
    if any(not isinstance(rows, list) or not all(isinstance(row, dict) for row in rows) for rows in (radios, servers)) or not isinstance(table.get("bound", 1000), int):
        raise ValueError("radio and server are tables, and bound is a whole number")
    if any(radio.get("plan") not in PLANS for radio in radios):
        raise ValueError("a radio has no plan: is it the keeper's file? Its `station` names the station file")
    kinds = [str(radio["plan"]) for radio in radios] + ["server"] * len(servers)
    names = [PLANS.get(kind, kind) for kind in kinds[: len(radios)]] + [f"{server.get('address')}:{server.get('port')}" for server in servers]
    if "leap_file" in table:
        kinds.append("leap")
        names.append("leap second file")
    return Station(kinds, number_names(names), int(table.get("bound", 1000)))


def station_of(entries: list[Entry]) -> Station:
    """What the entries themselves say of the feeds: a server has samples with its address, and which plan a radio has isn't known."""
    kinds, names = [], []
    for feed in range(max((entry.feed for entry in entries), default=-1) + 1):
        samples = [entry for entry in entries if entry.feed == feed and entry.kind == "sample"]
        server = samples or any(entry.feed == feed and entry.kind == "declined" for entry in entries)
        kinds.append("server" if server else "dcf")
        names.append(f"server {ipaddress.ip_address(int(samples[-1].fields[4], 16))}" if samples else f"{'server' if server else 'radio'} {feed}")
    return Station(kinds, number_names(names), 1000)


def name_of(station: Station, feed: int) -> str:
    return station.names[feed] if feed < len(station.names) else f"feed {feed}"


def beside(name: str) -> ModuleType:
    """A module of a folder that stands beside this one, here and where it is installed."""
    top = str(pathlib.Path(__file__).resolve().parent.parent)
    if top not in sys.path:
        sys.path.append(top)
    try:
        return importlib.import_module(name)
    except ImportError as fault:
        path = f"{top}/{name.replace('.', '/')}.py"
        raise FileNotFoundError(2, "the picture needs it, and it isn't there", path) from fault


class Moment(NamedTuple):
    """What a client was given at a moment: the UTC in seconds since 1970, whether it had time, and the root dispersion in seconds."""

    unix: float
    has_time: bool
    dispersion: float


def numbers_of(entry: Entry) -> tuple[int, ...]:
    """The numbers of an entry; the address of a sample's server is written in hexadecimal digits."""
    address = 4 if entry.kind == "sample" else None
    return tuple(int(field, 16 if place == address else 10) for place, field in enumerate(entry.fields))


def reported_each_minute(run: Run, station: Station) -> list[Moment]:
    """What clients were given at each minute of a run, by the pages of its entries up to there."""
    model = beside("lab.model.page")  # docs/PAGE.md
    moments: list[Moment] = []
    entries = sorted((entry for entry in run.entries if entry.feed < len(station.kinds)), key=lambda entry: entry.at)
    # What is no sample and no word of a radio changes no field but the page's length and moment.
    telling = [entry for entry in entries if entry.kind in ("verdict", "sample", "notice")]
    journal = model.Journal(station.kinds, station.bound)
    place = 0
    for at in range(entries[0].at, entries[-1].at + 1, 60_000_000) if entries else ():
        while place < len(telling) and telling[place].at <= at:
            entry = telling[place]
            journal.add(model.Entry(entry.feed, entry.at, entry.kind, numbers_of(entry)))
            place += 1
        page = journal.page
        grown = 15e-6 * (at - page.anchor) / 1e6
        dispersion = page.root_dispersion / 65536 + grown if page.sync else 16.0
        moments.append(Moment(unix_of(run, at), page.sync and at < page.until, dispersion))
    return moments
