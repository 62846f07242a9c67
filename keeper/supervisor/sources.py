"""Where a radio's log comes from: a command, a FIFO, or a file that grows. None ever waits."""

import os
import signal
import stat

from keeper.supervisor.clocks import AWAKE, slept
from keeper.supervisor.host import Child, Host
from keeper.errors import ended

MOST = 65536  # what is read in one go, in bytes
TAIL = 65536  # of the end of a file that grows this is read at first: more than 15 minutes
EARLY, LATE = -1.0, 5.0  # how long after a pulse began its line is written, least and most (s)
DIGITS = 16  # of a start, at most
LINGER = 0.3  # a command may go on so long after the end of its output (s)


class Ended(Exception):
    """A source has ended: the text says how."""


class Source:
    """`value` is the command or the name. One that is opened for reading has a `descriptor`."""

    descriptor = -1

    def __init__(self, host: Host, value: str) -> None:
        self.host, self.value = host, value

    def begin(self) -> None:
        """Opens it, or opens it anew. Raises OSError."""
        raise NotImplementedError

    def read(self) -> bytes:
        """What there is, b"" for nothing now. Raises Ended, OSError."""
        try:
            return self.host.read(self.descriptor, MOST)
        except BlockingIOError:
            return b""

    def stalls(self) -> bool:
        """Whether a silent one is to be begun anew."""
        return True

    def rest(self) -> None:
        """It has ended or is silent: it is given back until it begins again."""
        self.close()

    def close(self) -> None:
        self.host.close(self.descriptor)
        self.descriptor = -1


class Command(Source):
    """What a command of the shell writes to its standard output. Its standard error is ours.
    `until`: after the end of its output its own end is waited for so long."""

    child: Child | None = None
    until = 0.0

    def begin(self) -> None:
        self.close()
        ours, theirs = self.host.inlet()
        try:
            words = ["/bin/sh", "-c", self.value]
            self.child = self.host.spawn(words, standard=(-1, theirs, 2))
        except OSError:
            self.host.close(ours)
            raise
        finally:
            self.host.close(theirs)
        self.descriptor = ours

    def read(self) -> bytes:
        if self.descriptor >= 0:
            try:
                piece = self.host.read(self.descriptor, MOST)
            except BlockingIOError:
                return b""
            if piece:
                return piece
            super().close()
            self.until = self.host.monotonic() + LINGER
        status = self.host.status(self.child) if self.child else None
        if status is None and self.host.monotonic() < self.until:
            return b""
        raise Ended(f"its command {ended(status)}")

    def rest(self) -> None:
        """What it started is asked to end; `begin` or `close` ends what is left."""
        super().close()
        if self.child:
            self.host.kill(self.child, signal.SIGTERM)

    def close(self) -> None:
        super().close()
        if self.child:
            self.host.release(self.child)
            self.child = None


class Fifo(Source):
    """A FIFO into which something else writes. It stays open, since its end would end its writer:
    where its last writer has gone the next one goes on."""

    def begin(self) -> None:
        """The old opening is given back after the new one was made: a writer always has a
        reader."""
        opened = self.host.open(self.value, os.O_RDONLY)
        self.close()
        self.descriptor = opened
        if not stat.S_ISFIFO(self.host.stat(opened).st_mode):
            self.close()
            raise OSError(0, "it is no FIFO", self.value)

    def stalls(self) -> bool:
        """Whether another FIFO has its name by now: that one's writer waits for a reader."""
        try:
            return not os.path.samestat(self.host.stat(self.value), self.host.stat(self.descriptor))
        except OSError:
            return False

    def rest(self) -> None:
        """It stays open: the next writer may be there already."""


class Growing(Source):
    """A file that something else appends to. It is read on from where it was left. Of one that is
    new, or was made shorter, the minutes before are read too, where they are of this counter.
    `known` is which file was read up to `place`."""

    place = -1
    known: os.stat_result | None = None

    def begin(self) -> None:
        self.close()
        self.descriptor = self.host.open(self.value, os.O_RDONLY)
        here = self.host.stat(self.descriptor)
        if not stat.S_ISREG(here.st_mode):
            self.close()
            raise OSError(0, "it is no file", self.value)
        if not self.known or not os.path.samestat(self.known, here) or here.st_size < self.place:
            start = max(0, here.st_size - TAIL)
            tail = self.host.read_at(self.descriptor, here.st_size - start, start)
            age = self.host.realtime() - here.st_mtime
            self.place = start + live_from(self.host, tail, start > 0, age)
        self.known = here

    def read(self) -> bytes:
        piece = self.host.read_at(self.descriptor, MOST, self.place)
        if piece:
            self.place += len(piece)
            return piece
        here = self.host.stat(self.descriptor)
        try:
            there = self.host.stat(self.value)
        except FileNotFoundError as error:
            raise Ended("its file was taken away") from error
        if not os.path.samestat(there, here):
            raise Ended("its file was replaced")
        if here.st_size < self.place:
            raise Ended("its file was made shorter")
        return b""


def live_from(host: Host, tail: bytes, is_cut: bool, age: float) -> int:
    """From which byte on the end of a log is of this counter; its length where none of it is.

    `is_cut`: it begins in the middle of a line. `age`: how long ago it was written to (s). A log
    that an earlier boot left has other starts than those of `age` ago, and so has one from before
    the host slept. Starts that fall begin another boot's lines."""
    begin = tail.find(b"\n") + 1 if is_cut else 0
    if (zeros := tail.rfind(b"\0")) >= 0:  # a power cut left them
        begin = tail.find(b"\n", zeros) + 1 or len(tail)
    place, last, live = begin, -1, begin
    for line in tail[begin:].splitlines(keepends=True):
        first = line.partition(b" ")[0]
        # A last line without its end may have half of its start.
        if first.isdigit() and len(first) <= DIGITS and line.endswith(b"\n"):
            if int(first) < last:
                live = place
            last = int(first)
        place += len(line)
    if last < 0:
        return begin
    late = host.monotonic() - age - last / 1e6
    return live if EARLY <= late <= LATE and slept(host) < AWAKE else len(tail)


def source_of(host: Host, kind: str, value: str) -> Source:
    return {"command": Command, "fifo": Fifo, "file": Growing}[kind](host, value)
