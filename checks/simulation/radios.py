"""The radios: a transmitter that sends seconds, receivers that write what they receive of them.

A radio is a command of the supervisor's, or something of the host that writes into a FIFO or a
file. In calm times lines come five seconds at once.
"""

import math
from collections.abc import Sequence
from dataclasses import dataclass, field
from typing import TYPE_CHECKING

from checks.simulation.air import Air
from checks.simulation.disk import Disk, Inode, OpenFile
from checks.simulation.opened import Fifo, Open
from checks.simulation.processes import Process
from checks.simulation.world import World

if TYPE_CHECKING:
    from checks.simulation.judge import Judge

WRITTEN = 0.25  # how long after a second's start its line is written (s)
BATCH = 5  # seconds that are written at once in calm times
NOISE = b"\x00\xff noise 12 \n17 x\n-4 5\n99999999999999999999 1\n12 34 56\n"


@dataclass
class Radio:
    """One radio of the station. `source` is what names its source now; it isn't received before
    `silent`."""

    number: int
    kind: str
    source: str
    silent: float = 0.0
    received: float = 0.0
    holes: set[int] = field(default_factory=set)


class Transmitter:
    """Sends each second to all radios."""

    def __init__(self, world: World, air: Air, disk: Disk, judge: "Judge") -> None:
        self.world, self.air, self.disk, self.judge = world, air, disk, judge
        self.radios: list[Radio] = []
        self.receivers: dict[int, "Receiver"] = {}
        self.writers: dict[int, "Writer"] = {}
        self.sent = math.floor(world.true())
        self.since = world.now  # what began before isn't received: the host stood still
        self.turn = 0
        self.batch = lambda: 1
        self.again = 60.0
        self.jitter = 0.0  # how early or late a mark is at most (s)
        world.wakes.append(self.woken)

    def start(self) -> None:
        self.turn += 1
        true = self.world.true()
        ahead = math.floor(true - WRITTEN) + self.batch() + WRITTEN
        self.world.at(max(ahead - true, 0.01), self._tick, self.turn)

    def woken(self) -> None:
        self.since = self.world.now
        self.sent = max(self.sent, math.floor(self.world.true()) - 1)
        self.start()

    def _tick(self, turn: int) -> None:
        if turn != self.turn:
            return
        true = self.world.true()
        last = math.floor(true - WRITTEN + 1e-6)
        for radio in self.radios:
            self._send(radio, range(self.sent + 1, last + 1), true)
        self.sent = max(self.sent, last)
        self.start()

    def _send(self, radio: Radio, seconds: range, true: float) -> None:
        target = self.receivers.get(radio.number) if radio.kind == "command" \
            else self.writers.get(radio.number)
        if target is None or self.world.now < radio.silent:
            radio.received = max(radio.received, min(radio.silent, self.world.now))
            self._overdue(radio)
            return
        lines = []
        for second in seconds:
            ago = true - second
            if ago < self.world.now - self.since and second not in radio.holes:
                off = self.world.random.uniform(-1, 1) * self.jitter if self.jitter else 0.0
                lines.append(self.air.line(radio.number, target.source, second, ago, off))
        if lines and target.put(b"".join(line for line, _ in lines)):
            radio.received = self.world.now
            for _, mark in lines:
                self.judge.delivered(mark)
        self._overdue(radio)

    def _overdue(self, radio: Radio) -> None:
        """A command that gives nothing is to be started again, and is received then."""
        since = max(radio.received, self.judge.started_at, self.judge.lasts, self.since)
        if radio.kind == "command" and self.world.now - since > self.again \
                and self.judge.has_supervisor():
            self.judge.found("a radio isn't received any more", f"radio {radio.number}")


class Receiver(Process):
    """A radio's command, `receiver N SOURCE`. `fault`: `mute` (no pulses), `closed` (it has closed
    its output and lives on), `noise`, `old` (it says what an earlier counter had), `again` (it
    repeats its lines), `flood` (lines without end)."""

    fault = ""

    def __init__(self, world: World, words: Sequence[str], table: dict[int, Open],
                 transmitter: Transmitter) -> None:
        super().__init__(world, words, table)
        self.source = self.words[-1]
        self.number, self.transmitter = int(self.source.split(" ")[1]), transmitter
        self.half = self.before = b""

    def begin(self) -> None:
        self.world.at(self.world.random.uniform(0.01, 0.1), self._begin)

    def _begin(self) -> None:
        if self.alive:
            self.transmitter.receivers[self.number] = self

    def put(self, data: bytes) -> bool:
        """Writes lines, in pieces as a buffer has them. Whether it did."""
        if self.is_held() or self.fault in ("mute", "closed"):
            return False
        chance = self.world.random.random()
        if self.fault == "noise":
            data = NOISE + data
        elif self.fault == "flood":
            data = (b"7" * 400 + b"\n" + b"1 0\n" * 100) * 20 + data
        elif self.fault == "again":
            data, self.before = self.before + data, data
        elif self.fault == "old":
            data = b"%d 100\n" % (self.world.monotonic() * 1e6 - 3e9) + data
        if self.fault == "" and chance < 0.02 and not self.half:
            cut = max(1, int(len(data) * chance * 50))
            data, self.half = data[:cut], data[cut:]
            self.world.at(0.05, self._rest)
        return self._write(data)

    def _rest(self) -> None:
        half, self.half = self.half, b""
        if not self.is_held() and half:
            self._write(half)

    def _write(self, data: bytes) -> bool:
        out = self.table.get(1)
        if out is None:
            return False
        try:
            while data:
                taken = out.write(data[:4096])
                data = data[4096:] if taken == 4096 else data[taken:]
            return True
        except BlockingIOError:
            return False
        except OSError:
            self.end(-13)
            return False

    def close_output(self) -> None:
        """It closes its output and goes on."""
        self.fault = "closed"
        out = self.table.pop(1, None)
        if out:
            out.drop()
        self.world.disturb()


class Writer:
    """Something of the host that writes a radio's log into a FIFO or a file."""

    def __init__(self, world: World, disk: Disk, radio: Radio, path: str) -> None:
        self.world, self.disk, self.path, self.source = world, disk, path, radio.source
        self.kind = radio.kind
        self.open: Open | None = None
        self.away = 0.0

    def _opened(self) -> Open | None:
        inode: Inode | None = self.disk.find(self.path)
        if inode is None and self.kind == "file":
            inode = self.disk.create(self.path, by_host=True)
        if inode is None:
            return None
        if inode.fifo:
            return fifo_writer(inode.fifo)
        return OpenFile(self.disk, inode, 0o2001, self.path, False).take()

    def put(self, data: bytes) -> bool:
        if self.world.now < self.away:
            return False
        if self.open is None:
            self.open = self._opened()
        if self.open is None:
            return False
        try:
            return self.open.write(data) == len(data)
        except OSError:
            return False

    def leave(self, seconds: float) -> None:
        """It ends, perhaps in the middle of a line, and comes again."""
        if self.open:
            if self.world.random.random() < 0.5:
                self.put(b"123")
            self.open.drop()
            self.open = None
        self.away = self.world.now + seconds
        self.world.disturb()


def fifo_writer(fifo: Fifo) -> Open:
    fifo.pipe.world.changed = True
    return fifo.pipe.writer.take()
