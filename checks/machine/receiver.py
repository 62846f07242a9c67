"""The receiver outside: moves a machine's line as the clock outside has it, with the code of the current minute. At most one edge is
under way: while the machine stands still edges are lost, as on a wire.
"""

import datetime
import multiprocessing
import os
import signal
import socket
import time
from collections.abc import Iterator
from dataclasses import dataclass
from multiprocessing.connection import Connection
from pathlib import Path
from typing import Protocol

from lab.receiver import sent

MODES = ("on", "dead", "inverted", "hum")
HUM = 0.01  # half a period of the mains, in seconds
LATE = 0.012  # how late a mark comes, as a receiver's filter makes it, in seconds
STUCK = 5.0  # an edge that isn't confirmed for so long is given up, in seconds
PRIORITY = 2  # it takes little of a processor, and that before QEMU, which has the real-time priority 1
PAST = 0.5  # an edge that is later than this isn't sent any more, in seconds


@dataclass
class Figures:
    """What became of the edges. An edge is lost where the one before is still under way."""

    moved: int = 0
    lost: int = 0
    slowest: float = 0.0  # from an edge to its confirmation, in seconds
    latest: float = 0.0  # from when an edge was due to when it was sent, in seconds

    def text(self) -> str:
        sent_late, confirmed = round(self.latest * 1e3), round(self.slowest * 1e3)
        return f"{self.moved} edges, {self.lost} lost; sent up to {sent_late} ms late, confirmed within {confirmed} ms"


def pulses(plan: str, utc: float) -> Iterator[tuple[float, float]]:
    """The reductions that are sent from this moment's minute on: when each begins and ends (UTC s)."""
    minute = int(utc // 60) * 60
    first = datetime.datetime.fromtimestamp(minute, datetime.timezone.utc).replace(tzinfo=None)
    for moment, width in sent(plan, first):
        yield minute + moment / 1e6, minute + (moment + width) / 1e6


def log_before(plan: str, utc: float, seconds: float, ahead: float) -> str:
    """A pulse log of the seconds before this moment, by a machine's counter that is `ahead` of UTC (s)."""
    lines = ""
    for begin, end in pulses(plan, utc - seconds):
        if end + LATE > utc:
            return lines
        if begin + ahead + LATE > 0:
            lines += f"{round((begin + ahead + LATE) * 1e6)} {round((end - begin) * 1e6)}\n"
    return lines


class Line:
    """The machine's line, over QEMU's socket."""

    def __init__(self, path: Path) -> None:
        self.path, self.figures = path, Figures()
        self.socket: socket.socket | None = None
        self.level: bool | None = None
        self.under_way = 0.0  # when the edge under way was sent; 0 without one (monotonic s)

    def hear(self) -> None:
        """Takes what the machine has confirmed."""
        if self.socket is None:
            return
        try:
            if not self.socket.recv(64):
                self.lose()
        except BlockingIOError:
            return
        except OSError:
            self.lose()
        if self.under_way:
            self.figures.slowest = max(self.figures.slowest, time.monotonic() - self.under_way)
        self.under_way = 0.0

    def lose(self) -> None:
        """The machine is off."""
        if self.socket is not None:
            self.socket.close()
        self.socket, self.level, self.under_way = None, None, 0.0

    def move(self, level: bool) -> None:
        """Sends a level that the line hasn't, where none is under way."""
        self.hear()
        if self.under_way and time.monotonic() - self.under_way > STUCK:
            self.level, self.under_way = None, 0.0
        if level == self.level:
            return
        if self.under_way:
            self.figures.lost += 1
            return
        try:
            if self.socket is None:
                self.socket = socket.socket(socket.AF_UNIX)
                self.socket.connect(str(self.path))
                self.socket.setblocking(False)
            self.socket.send(b"H" if level else b"L")
            self.level, self.under_way = level, time.monotonic()
            self.figures.moved += 1
        except OSError:
            self.lose()


class Moved(Protocol):
    """A line that the receiver moves: its level where it is known, and what became of its edges."""

    level: bool | None
    figures: Figures

    def hear(self) -> None:
        """Takes what was confirmed."""

    def move(self, level: bool) -> None:
        """Sends a level."""


def drive(line: Moved, plan: str, base: float, told: Connection) -> None:
    """Moves the line until the other end of `told` is closed. A mode of MODES may come by it, or an empty text; each is answered by the
    figures so far.
    """
    mode = "on"
    edges = ((moment, level) for pulse in pulses(plan, time.monotonic() + base) for moment, level in zip(pulse, (True, False)))
    at, level = next(edges)
    while True:
        due = at - base + LATE
        # The last millisecond is waited for by itself, since a host wakes late. What a machine confirms is taken meanwhile.
        wait = max(0.0, due - time.monotonic())
        if told.poll(min(wait - 0.001, HUM) if wait > 0.001 else 0):
            try:
                mode = told.recv() or mode
            except EOFError:
                return
            told.send(line.figures)
            line.figures = Figures()
        line.hear()
        if mode == "hum":
            line.move(not line.level)
        late = time.monotonic() - due
        if late < -0.001:
            continue
        time.sleep(max(0.0, -late))
        if mode in ("on", "inverted") and late < PAST:
            line.figures.latest = max(line.figures.latest, late)
            line.move(level != (mode == "inverted"))
        at, level = next(edges)


class Receiver:
    """The process that moves the line."""

    def __init__(self, line: Moved, base: float, plan: str = "dcf") -> None:
        theirs, self.ours = multiprocessing.Pipe()
        self.process = multiprocessing.Process(target=self._child, daemon=True, args=(line, plan, base, theirs))
        self.process.start()
        theirs.close()

    def _child(self, line: Moved, plan: str, base: float, told: Connection) -> None:
        signal.signal(signal.SIGINT, signal.SIG_IGN)
        os.sched_setscheduler(0, os.SCHED_RR, os.sched_param(PRIORITY))
        self.ours.close()
        drive(line, plan, base, told)

    def mode(self, name: str) -> Figures:
        """Goes on as one of MODES, or as before. Returns what became of the edges since it was asked last."""
        self.ours.send(name)
        figures = self.ours.recv() if self.ours.poll(10) else Figures()
        assert isinstance(figures, Figures)
        return figures

    def close(self) -> None:
        """Ends it."""
        self.ours.close()
        self.process.join(5)
        if self.process.is_alive():
            self.process.kill()
            self.process.join()
