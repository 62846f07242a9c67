"""What lies in the folders of logs and journals: compressed when its day is over, and kept within
days and bytes."""

import contextlib
import gzip
import os
import re
from datetime import date, timedelta

from keeper.supervisor import disk
from keeper.supervisor.host import Host
from keeper.supervisor.logs import MOST as LOG

# Whatever has a day in its name, and belongs to us.
DATED = re.compile(r"(?:\d+-[a-z]+\.)?(\d{8})[T.][\w-]+\.(?:log|log\.gz|journal|own)(?:\.part)?")


def day_in(name: str) -> date | None:
    """The day in the name of a file of ours; None of another one."""
    match = DATED.fullmatch(name)
    with contextlib.suppress(ValueError):
        return date.fromisoformat(match[1]) if match else None
    return None


def compress(host: Host, path: str) -> str:
    """Puts PATH.gz in the place of a log, without what a power cut left at its end, and gives its
    name. One that is there already goes on, as where the host's clock was set back over midnight.
    No link is followed. Raises OSError."""
    there, before = path + ".gz", b""
    if whole := disk.whole(disk.read_all(host, path, LOG)):
        packed = gzip.compress(whole, 6, mtime=0)
        if os.path.lexists(there):
            before = disk.read_all(host, there, LOG)
        if not before.endswith(packed):  # else the log was left by one that was killed
            disk.put(host, there, before + packed, 0o640)
    host.remove(path)
    return there


def oldest_kept(there: list[date], today: date, days: int) -> date:
    """The first day that is kept: this many days before today. A host's clock that is set far ahead
    by mistake must not make all of them too old at once, so today is at most the day after the
    newest of the other days."""
    newest = max((day for day in there if day < today), default=today)
    return min(today, newest + timedelta(1)) - timedelta(days)


def tidy(host: Host, folder: str, today: date, days: int, most: int, recent: set[date]) -> int:
    """Compresses the logs of a folder but those of `recent` days, which may still be written, and
    removes what is half written, too old, or too much (bytes), the oldest first. How many bytes are
    left. Raises OSError, once it has done what it can."""
    found = sorted((day, one) for one in os.listdir(folder) if (day := day_in(one)))
    oldest = oldest_kept([day for day, _ in found], today, days)
    sizes, written, refused = dict[str, int](), set[str](), list[OSError]()
    for day, name in found:
        path, is_log, is_over = os.path.join(folder, name), name.endswith(".log"), day not in recent
        try:
            if is_over and (name.endswith(disk.PART) or day < oldest):
                disk.remove_any(host, path)
            elif is_over and is_log:
                path = compress(host, path)
            elif is_log:
                written.add(path)
        except OSError as error:
            refused.append(error)
        with contextlib.suppress(FileNotFoundError):  # it was removed, or had no whole line
            sizes[path] = os.lstat(path).st_size
    left = sum(sizes.values())
    for path in [one for one in sizes if one not in written]:
        if left > most:
            with contextlib.suppress(OSError):
                disk.remove_any(host, path)
                left -= sizes[path]
    if refused:
        raise refused[0]
    return left
