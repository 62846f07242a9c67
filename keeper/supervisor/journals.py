"""Journals of runs that have ended: each whole or not at all, with a file beside it that counts the
keeper's own datagrams."""

import contextlib
import logging
import os
import re
import time

from keeper.supervisor import disk
from keeper.supervisor.host import Host, Task

LINK = re.compile(rb"link (\d{1,19}) answered (\d{1,19}) dropped (\d{1,19}) again (\d{1,19}) "
                  rb"kissed (\d{1,19}) unkept \d+")
STATUS = re.compile(rb"status \d+( .*)?")
MOST = 1 << 26  # a journal that is longer isn't kept, in bytes
END = 65536  # of a journal this has its links and its status, in bytes
OUT = ".out"  # what a run prints, in the runtime folder
WAITING = 24  # journals that wait for the disk
AGAIN = 10.0  # how often it is tried again (s)

log = logging.getLogger(__name__)


def name_of(unix: float, number: int) -> str:
    """The name of a run that began at this moment (Unix s)."""
    return time.strftime(f"%Y%m%dT%H%M%SZ-{number}", time.gmtime(unix))


def status_of(text: bytes) -> str:
    """The status line of what a run has printed, or nothing where there is none."""
    last = text.removesuffix(b"\n").rpartition(b"\n")[2]
    is_whole = text.endswith(b"\n") and STATUS.fullmatch(last)
    return last.decode("ascii", "replace") if is_whole else ""


class Journal:
    """What a run has printed into the file `out`, and how often the keeper asked each link. Its
    status line, nothing where it isn't whole; the datagrams that each link received; its `name` in
    the folder once it is there."""

    def __init__(self, host: Host, out: str, own: list[int]) -> None:
        self.host, self.out, self.own, self.name = host, out, own, ""
        text = b""
        with contextlib.suppress(OSError):
            text = disk.read_all(host, out, END, from_end=True) if out else b""
        self.status = status_of(text)
        self.heard = [sum(int(one) for one in row.groups()[1:]) for row in LINK.finditer(text)]

    def keep(self, folder: str) -> None:
        """A job: puts it on the disk, and what was printed goes. Raises OSError, and then it can be
        tried again."""
        name = os.path.join(folder, os.path.basename(self.out).removesuffix(OUT))
        text = disk.read_all(self.host, self.out, MOST + 1)
        if status_of(text[-END:]) and len(text) <= MOST:
            self.host.make_folder(folder)
            counts = "".join(f"link {place} own {count}\n" for place, count in enumerate(self.own))
            # The counts come first, so that a journal never stands without them.
            disk.put(self.host, name + ".own", counts.encode())
            disk.put(self.host, name + ".journal", text)
            self.name = os.path.basename(name) + ".journal"
        self.host.remove(self.out)


class Archive:
    """Journals on their way to the disk, one after the other. `lost` counts those that aren't
    kept."""

    def __init__(self, host: Host, folder: str) -> None:
        self.host, self.folder = host, folder
        self.waiting: list[Journal] = []
        self.task: Task | None = None
        self.due = 0.0
        self.lost = 0
        self.note = disk.written("journals")

    def add(self, out: str, own: list[int]) -> Journal:
        journal = Journal(self.host, out, own)
        self.waiting.append(journal)
        if len(self.waiting) > WAITING:
            oldest = self.waiting.pop(1)  # a job may have the first in hand
            with contextlib.suppress(OSError):
                self.host.remove(oldest.out)
            self._lose(oldest, "the disk takes nothing")
        return journal

    def turn(self, now: float) -> None:
        """Hands on what waits."""
        if self.task and self.task.done():
            fault, self.task = self.task.exception(), None
            self.note.take(disk.why(fault) and f"{disk.why(fault)}; {len(self.waiting)} wait")
            self.due = now + AGAIN if fault else now
            if not fault and not (first := self.waiting.pop(0)).name:
                self._lose(first, "it isn't whole")
        if self.task is None and self.waiting and now >= self.due:
            first = self.waiting[0]
            self.task = self.host.aside(lambda: first.keep(self.folder))

    def _lose(self, journal: Journal, why: str) -> None:
        self.lost += bool(journal.own)  # one of a keeper before this one counts for nothing
        log.error("the journal %s is lost: %s", os.path.basename(journal.out), why)
