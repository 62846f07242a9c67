#!/usr/bin/env python3
"""Draws pictures of journals, as `serve`, `replay`, `migrate` or `decode` writes them, and of a radio's log.

    tools/plot_journal.py [--station FILE] [--reception SVG] [--offsets SVG] [--day SVG] JOURNAL...
    tools/plot_journal.py --phase SVG LOG

--reception  how each feed was received over the run, by kind of entry and by the rule that a minute broke
--offsets    how far each feed's time was off the line through all of them, its spread, and the rate of the host's counter
--day        a day at a glance, of as many runs as are given, by UTC: reception, offsets, root dispersion, whether clients had the time
--phase      when a radio's seconds began, as they came and as feeders/steady.py gives them

With --station feeds have the names of their plans or servers, and the bound is the station's. A long journal has the median of each
hour and a band in which eight tenths lie, a short one its points. Of --reception and --offsets several journals are taken as one run.
Lines that are no entries are passed over.

It exits with 1 where a file can't be read, has no entry, or can't be written, and with 2 for invalid arguments.
"""

import argparse
import pathlib
import sys

sys.dont_write_bytecode = True  # where it is installed, nothing of it is left at its removal

import plots  # noqa: E402
from journal_text import (  # noqa: E402
    Entry,
    Run,
    Station,
    beside,
    line_through,
    read_entry,
    read_journal,
    read_station,
    reported_each_minute,
    run_of,
    station_of,
)

MOST = 500.0  # the most that a phase is off, in milliseconds
LONGEST = 19  # digits of a number of a log
# What a picture's name may not end in, since each is written as SVG.
OTHER_FORMS = (".png", ".jpg", ".jpeg", ".gif", ".pdf", ".webp")


class Fault(Exception):
    """Why no picture can be drawn, in a sentence."""


class NoStation(Exception):
    """Why a file is no station, after its name."""


def phases_of(log: str) -> list[tuple[int, float, float]]:
    """The starts of a log's seconds: moments, and by how many milliseconds each is off the log's line, as it came and steady."""
    feeder = beside("feeders.steady")
    steady, around = feeder.Steady(), feeder.around
    starts: list[tuple[int, int]] = []
    with open(log, encoding="ascii", errors="replace", newline="\n") as file:
        for line in file:
            if line.endswith("\r\n"):
                raise Fault(f"{log} has lines that end in CR LF, which no command reads: `tr -d '\\r'` mends it")
            if not starts and read_entry(line):
                raise Fault(f"{log} is a journal, and --phase draws a radio's log")
            if is_pulse(line):
                start = int(line.split()[0])
                put = steady.start(start)
                if steady.second == [start] and steady.phases.marks:
                    starts.append((start, put))
    if len(starts) < 2:
        raise Fault(f"{log} has no marks that agree on a phase")
    phases = [(float(starts[0][0]), 0.0)]
    for (_, before), (at, put) in zip(starts, starts[1:]):
        phases.append((at, phases[-1][1] + around(put - before)))
    level, slope = line_through(phases)
    drawn = []
    for (_, phase), (at, put) in zip(phases, starts):
        off = phase - level - slope * at
        drawn.append((at, (off + at - put) / 1000, off / 1000))
    return drawn


def is_pulse(line: str) -> bool:
    """Whether a line is a log's, START WIDTH, as steady.py reads them."""
    fields = line.split()
    return len(fields) == 2 and all(field.isdigit() and len(field) <= LONGEST for field in fields)


def has_pulses(name: str) -> bool:
    """Whether a file that has no entry has a line of a log."""
    with open(name, encoding="ascii", errors="replace") as file:
        return any(is_pulse(line) for line in file)


def entries_of(names: list[str]) -> list[list[Entry]]:
    """The entries of some journals, of which one at least has some."""
    journals = [read_journal(name) for name in names]
    if not any(journals):
        log = next((name for name in names if has_pulses(name)), None)
        raise Fault(f"{log} is a radio's log: decode it first" if log else f"{names[0]} has no entry")
    return journals


def write(name: str, picture: str) -> None:
    """Writes a picture into its file."""
    pathlib.Path(name).write_text(picture, encoding="utf-8")


def draw(words: argparse.Namespace) -> None:
    """Draws what was asked for."""
    if words.phase:
        write(words.phase, plots.phase(phases_of(words.files[0]), MOST))
    if not (words.reception or words.offsets or words.day):
        return
    journals = entries_of(words.files)
    entries = [entry for journal in journals for entry in journal]
    station = station_named(words.station) if words.station else station_of(entries)
    if words.reception:
        write(words.reception, plots.reception(entries, station))
    if words.offsets:
        write(words.offsets, plots.offsets(has_time(run_of(entries), words.files[0]), station))
    if words.day:
        runs = [run for journal in journals if (run := run_of(journal))]
        has_time(runs[0] if runs else None, words.files[0])
        moments = [reported_each_minute(run, station) for run in runs]
        if not all(moments):
            raise Fault(f"{words.station} has none of the feeds of a journal")
        write(words.day, plots.day(runs, moments, station))


def station_named(name: str) -> Station:
    """The station of a file."""
    try:
        return read_station(name)
    except ValueError as fault:
        raise NoStation(f"{name}: {fault}") from fault


def has_time(run: Run | None, name: str) -> Run:
    if run is None:
        raise Fault(f"{name} has no entry that gives the time")
    return run


def read_words() -> argparse.Namespace:
    words = argparse.ArgumentParser(description=__doc__, formatter_class=argparse.RawDescriptionHelpFormatter)
    words.add_argument("--station")
    pictures = [words.add_argument(f"--{name}", metavar="SVG") for name in ("reception", "offsets", "day", "phase")]
    words.add_argument("files", nargs="+", metavar="FILE")
    asked = words.parse_args()
    if not any(getattr(asked, picture.dest) for picture in pictures):
        words.error("say which picture, as --offsets offsets.svg")
    for picture in pictures:
        name = getattr(asked, picture.dest)
        if name and name.lower().endswith(OTHER_FORMS):
            words.error(f"--{picture.dest} {name}: each picture is SVG; give it a name that ends in .svg")
    if asked.phase and (len(asked.files) > 1 or asked.reception or asked.offsets or asked.day):
        words.error("--phase goes with one log and no other picture")
    return asked


def main() -> int:
    words = read_words()
    try:
        draw(words)
    except NoStation as fault:
        print(fault, file=sys.stderr)
        return 1
    except OSError as fault:
        print(f"plot_journal.py: {fault.filename or 'the host'}: {fault.strerror}", file=sys.stderr)
        return 1
    except Fault as fault:
        print(f"plot_journal.py: {fault}", file=sys.stderr)
        return 1
    return 0


if __name__ == "__main__":
    sys.exit(main())
