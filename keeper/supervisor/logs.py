"""The pulse logs: a file for each radio, day, and counter. Lines wait in memory until a job writes
them, so that a disk that hangs holds nothing up."""

import contextlib
import os
from collections.abc import Iterator

from keeper.supervisor import disk
from keeper.supervisor.host import Host, Task
from keeper.supervisor.pulses import OLDEST, Pulse, reading

WRITTEN, SYNCED = 1.0, 50.0  # how often lines are written, and put on the disk (s)
MOST = 32 << 20  # bytes of a log: a receiver's day has 2 MB
WAITING = 20_000  # lines that wait for the disk; of more the oldest are dropped
PIECE = 4096  # bytes that are looked at for the last whole line
TAIL = 65536  # bytes of the end of a log that are read: more than 15 minutes


def cut(host: Host, descriptor: int) -> int:
    """Cuts off what a power cut or a full disk left at a log's end: zeros, or half a line. Its size
    then. Raises OSError."""
    size = kept = host.stat(descriptor).st_size
    while kept:
        tail = host.read_at(descriptor, min(PIECE, kept), max(0, kept - PIECE))
        kept -= len(tail)
        if whole := disk.whole(tail):
            kept += len(whole)
            break
    if kept < size:
        host.truncate(descriptor, kept)
    return kept


def logs_of(host: Host, folder: str, begin: str = "", end: str = ".log") -> list[str]:
    """The logs of a folder whose names begin and end so; none where it can't be read."""
    with contextlib.suppress(OSError):
        return [os.path.join(folder, name) for name in host.names(folder)
                if name.startswith(begin) and name.endswith(end)]
    return []


def mend(host: Host, folder: str) -> None:
    """A job: cuts the logs of a folder, those of an earlier boot too. Who reads one finds whole
    lines alone."""
    for path in logs_of(host, folder):
        with contextlib.suppress(OSError):
            with disk.opened(host, path, os.O_RDWR | os.O_NOFOLLOW) as descriptor:
                cut(host, descriptor)


class PulseLog:
    def __init__(self, host: Host, folder: str, number: int, plan: str, tag: str) -> None:
        self.host, self.folder = host, folder
        self.begin, self.end = f"{number}-{plan}.", f".{tag}.log"
        self.waiting: list[tuple[str, bytes]] = []  # names and lines
        self.batch: list[tuple[str, bytes]] = []  # what a job has in hand
        self.task: Task | None = None
        self.due, self.synced = 0.0, -SYNCED
        self.unsynced: list[str] = []  # logs that aren't on the disk yet
        self.note = disk.written(f"the log of radio {number}")

    def name(self, unix: float) -> str:
        return f"{self.begin}{disk.day_of(unix)}{self.end}"

    def add(self, pulses: list[Pulse]) -> None:
        name = self.name(self.host.realtime())
        self.waiting += ((name, one.line()) for one in pulses)
        del self.waiting[:-WAITING]

    def turn(self, now: float) -> None:
        """Hands on what waits, once a second, and what isn't on the disk yet."""
        if self.task and self.task.done():
            self.note.take(disk.why(self.task.exception()))
            self.task, self.waiting = None, self.batch + self.waiting
        is_left = self.waiting or self.unsynced and now - self.synced >= SYNCED
        if self.task is None and is_left and now >= self.due:
            self.due = now + WRITTEN
            self.batch, self.waiting = self.waiting, []
            self.task = self.host.aside(self._write)

    def close(self) -> Task:
        """Nothing is added any more: what waits is written, and put on the disk."""
        return self.host.aside(self._finish)

    def _finish(self) -> None:
        self.batch += self.waiting
        self.synced = -SYNCED
        self._write()

    def _write(self) -> None:
        """A job: what it has written, or what a full log has no room for, is taken out of the
        batch."""
        is_full = False
        while self.batch:
            name = self.batch[0][0]
            with self._opened(name) as descriptor:
                lines = b"".join(line for other, line in self.batch if other == name)
                is_full |= not self._append(descriptor, lines)
            self.batch = [one for one in self.batch if one[0] != name]
            self.unsynced = [*(one for one in self.unsynced if one != name), name]
        if self.host.monotonic() - self.synced >= SYNCED:
            while self.unsynced:
                with self._opened(self.unsynced[0]) as descriptor:
                    self.host.sync(descriptor)
                self.unsynced.pop(0)
            self.synced = self.host.monotonic()
        if is_full:
            raise ValueError(f"it has {MOST >> 20} MB of this day already, which is noise")

    @contextlib.contextmanager
    def _opened(self, name: str) -> Iterator[int]:
        """Opens a log, whose folder may have been taken away."""
        self.host.make_folder(self.folder)
        flags = os.O_RDWR | os.O_APPEND | os.O_CREAT | os.O_NOFOLLOW
        with disk.opened(self.host, os.path.join(self.folder, name), flags) as descriptor:
            if not cut(self.host, descriptor):
                self.host.sync(self.folder)
            yield descriptor

    def _append(self, descriptor: int, lines: bytes) -> bool:
        """Adds whole lines: all of them, or none. False where they have no room."""
        size = self.host.stat(descriptor).st_size
        if size + len(lines) > MOST:
            return False
        try:
            disk.write_all(self.host, descriptor, lines)
        except OSError:
            self.host.truncate(descriptor, size)  # half a line would spoil the log
            raise
        return True

    def last_pulses(self) -> list[Pulse]:
        """The pulses of the last 15 minutes that were logged of this counter and this source,
        whatever day the host's clock had, so that a supervisor that was killed has the time at
        once. Called before it serves."""
        found: dict[int, Pulse] = {}
        for path in logs_of(self.host, self.folder, self.begin, self.end):
            with contextlib.suppress(OSError):
                text = disk.read_all(self.host, path, TAIL, from_end=True)
                # Of a longer log the first line may be half a line.
                lines = text.split(b"\n")[len(text) == TAIL:-1]
                found |= {one.start: one for line in lines
                          if isinstance(one := reading(line), Pulse)}
        now = int(self.host.monotonic() * 1e6)
        return [found[one] for one in sorted(found) if now - OLDEST <= one <= now]
