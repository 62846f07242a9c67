"""Looks at a port while datagrams come to it: for how long at most nobody read one, and how many the kernel dropped.

    python3 -m lab.unread PORT     # until its standard input has an end

It prints both as JSON: `unread` in seconds, `dropped` a number. What all programs of this network namespace read is counted (InDatagrams of
/proc/net/snmp), so nothing else may read datagrams there meanwhile. Spans in which the looks came late themselves say nothing, and are left out.
"""

import argparse
import json
import select
import sys
import time
from collections.abc import Iterator
from pathlib import Path

from lab import ends
from lab.client import dropped

EVERY = 0.001  # from one look to the next (s)
LATE = 0.005  # a look that comes later than that after the one before is late (s)


def taken() -> int:
    """How many datagrams programs of this network namespace have read. Raises OSError."""
    rows = [line.split() for line in Path("/proc/net/snmp").read_text(encoding="ascii").splitlines()]
    names, values = (row for row in rows if row[0] == "Udp:")
    return int(values[names.index("InDatagrams")])


def longest(looks: Iterator[tuple[float, int, int]]) -> tuple[float, int]:
    """Of looks (when, in seconds; datagrams read, and dropped, up to then): the longest span in which some were dropped and none was read,
    and how many were dropped in all."""
    before = first = next(looks)
    since, most = first, 0.0
    for look in looks:
        if look[1] != before[1] or look[0] - before[0] > LATE:
            since = look
        elif look[2] > since[2]:
            most = max(most, look[0] - since[0])
        before = look
    return most, before[2] - first[2]


def looked(port: int) -> Iterator[tuple[float, int, int]]:
    """Looks until the standard input has an end."""
    yield time.monotonic(), taken(), dropped(port)
    while not select.select([sys.stdin], [], [], EVERY)[0]:
        yield time.monotonic(), taken(), dropped(port)


def main() -> int:
    parser = argparse.ArgumentParser(description="For how long nobody reads the datagrams of a port.")
    parser.add_argument("port", type=int)
    unread, count = longest(looked(parser.parse_args().port))
    print(json.dumps({"unread": round(unread, 4), "dropped": count}))
    return 0


if __name__ == "__main__":
    ends.run(main)
