#!/usr/bin/env python3
"""Writes the UTC of each entry of a journal before it.

    tools/entry_times.py [JOURNAL...]

A verdict or a lone minute names a second, which is written as its date and time. Any other entry
has the time at which it came, to the millisecond, by the line through all offsets of its journal;
it has dashes where no entry gives an offset. Lines that are no entries stay as they are. Without a
file it reads the standard input, as in `radio_ntpd decode .. | tools/entry_times.py`.

It exits with 1 where a file can't be read, and with 2 for invalid arguments.
"""

import argparse
import datetime
import sys

sys.dont_write_bytecode = True  # where it is installed, nothing of it is left at its removal

from journal_text import UNIX_EPOCH, Entry, Run, read_entry, run_of, unix_of  # noqa: E402
from refused_output import end_of_output  # noqa: E402

EPOCH = datetime.datetime(1970, 1, 1)
NO_TIME = "----------" + " " + "------------"
NAMED = ("verdict", "lone")  # the kinds whose first field is a second that the radio named


def written(unix: float) -> str:
    """A time in seconds since 1970, UTC: its date, and its time to the millisecond."""
    try:
        return (EPOCH + datetime.timedelta(seconds=unix)).isoformat(" ", "milliseconds")
    except OverflowError:
        return NO_TIME


def time_of(entry: Entry, run: Run | None) -> str:
    """The time that an entry names or, by the line through its journal's offsets, came at."""
    if entry.kind in NAMED:
        return written(int(entry.fields[0]) - UNIX_EPOCH)
    return NO_TIME if run is None else written(unix_of(run, entry.at))


def with_times(lines: list[str]) -> list[str]:
    """The lines of a journal, each entry with its time before it."""
    read = [(line, read_entry(line)) for line in lines]
    run = run_of([entry for _, entry in read if entry])
    return [f"{time_of(entry, run)}  {line}" if entry else line for line, entry in read]


def main() -> int:
    form = argparse.RawDescriptionHelpFormatter
    words = argparse.ArgumentParser(description=__doc__, formatter_class=form)
    words.add_argument("files", nargs="*", metavar="JOURNAL")
    files = words.parse_args().files
    if not files and sys.stdin.isatty():
        words.error("say which journal")
    try:
        for name in files or ["/dev/stdin"]:
            with open(name, encoding="ascii", errors="replace") as file:
                sys.stdout.writelines(with_times(file.readlines()))
        sys.stdout.flush()
    except KeyboardInterrupt:
        return 130
    except OSError as fault:
        return end_of_output("entry_times.py", fault)
    return 0


if __name__ == "__main__":
    sys.exit(main())
