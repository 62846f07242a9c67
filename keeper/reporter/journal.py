"""What a journal says of the servers that were asked and of the leap second file. The radios are
seen live, and not here."""

import contextlib
import os
import re

from keeper.config import opened
from keeper.ntp import EPOCH
from keeper.reporter.state import LeapFileState, ServerState, State

MOST = 1 << 20  # of a journal that is longer this many last bytes are read
LIST = 1 << 16  # of a leap second file this many first ones
SECOND = 2**32
EXPIRES = re.compile(rb"^#@\s+(\d{1,10})\b", re.MULTILINE)


def read_journal(path: str, state: State, unix: float) -> None:
    """Puts the journal's words into the state. `unix` is what is to be added to the seconds of that
    run's counter to have Unix seconds. A line that can't be read is passed over. Raises OSError."""
    feeds: dict[int, ServerState | LeapFileState] = {one.number: one for one in state.servers}
    for server in state.servers:
        server.samples, server.declined = 0, {}
    if state.leap_file is not None:
        state.leap_file.notices = 0
        feeds[state.leap_file.number] = state.leap_file
    with open(path, "rb") as file:
        file.seek(max(0, os.fstat(file.fileno()).st_size - MOST))
        for line in file.read(MOST).split(b"\n"):
            words = line.decode("ascii", "replace").split()
            if len(words) > 5 and words[0] == "j2":
                with contextlib.suppress(ArithmeticError, LookupError, ValueError):
                    _take(feeds.get(int(words[3])), int(words[4]), words[5], words[6:], unix)


def _take(feed: ServerState | LeapFileState | None, at: int, kind: str, rest: list[str],
          unix: float) -> None:
    """An entry of a feed, at this microsecond of the counter."""
    if isinstance(feed, LeapFileState) and kind == "notice":
        feed.last = max(feed.last, float(int(rest[0]) - EPOCH))
        feed.notices += 1
    elif isinstance(feed, ServerState) and kind == "declined":
        feed.declined[rest[0]] = feed.declined.get(rest[0], 0) + 1
    elif isinstance(feed, ServerState) and kind == "sample":
        # In whole numbers: 2^-32 s on top of a century don't fit into a float.
        time = int(rest[0]) - EPOCH * SECOND + at * SECOND // 1_000_000
        feed.delay, feed.stratum = int(rest[1]) / SECOND, int(rest[3])
        feed.sample_at = at / 1e6 + unix
        feed.offset = time / SECOND - feed.sample_at
        feed.samples += 1


def expiry(path: str) -> float:
    """When a list of leap seconds expires by its own line `#@` (Unix s), 0.0 where it says nothing
    or can't be read."""
    with contextlib.suppress(OSError), opened(path) as file:
        if found := EXPIRES.search(file.read(LIST) or b""):
            return float(int(found[1]) - EPOCH)
    return 0.0
