"""One radio's log as the program reads it: when it has the time by it."""

from typing import TYPE_CHECKING

from checks.simulation.air import Mark
from checks.simulation.opened import PipeReader

if TYPE_CHECKING:
    from checks.simulation.program import Run

MINUTES = 4  # after this many minutes that agree it has the time
NEAR = 0.02  # pulses whose offsets differ by more don't agree (s)
PIECE = 65536


class Feed:
    """One radio's log as the program reads it."""

    def __init__(self, run: "Run", number: int, tag: int, reader: PipeReader) -> None:
        self.run, self.number, self.tag, self.reader = run, number, tag, reader
        self.rest = b""
        self.last = -1
        self.second = -1  # of the last pulse
        self.whole = 0  # pulses of this minute, each a second after the one before
        self.minutes = 0
        self.offset: float | None = None
        self.ended = False

    def read(self) -> None:
        while not self.ended and self.reader.readable():
            piece = self.reader.read(PIECE)
            if not piece:
                self.ended = True
                if self.rest:
                    self.run.judge.found("a line was cut off", f"{self.rest!r} of {self.run}")
                break
            *lines, self.rest = (self.rest + piece).split(b"\n")
            for line in lines:
                self.take(line)

    def take(self, line: bytes) -> None:
        words = line.split(b" ")
        try:
            start, width = int(words[0]), int(words[1])
        except (ValueError, IndexError):
            self.run.judge.found("a bad line reaches a run", f"{line!r}")
            return
        mark = self.run.air.known(width)
        if mark is None or start <= self.last:
            self.run.judge.found("a bad line reaches a run", f"{line!r} after {self.last}")
            return
        self.last = start
        self.run.judge.fed(self.run, self, mark, start)
        self.note(mark)

    def note(self, mark: Mark) -> None:
        """A pulse: it goes on a minute, or begins anew."""
        if self.offset is not None and abs(mark.offset - self.offset) > NEAR:
            self.minutes = 0
        follows = mark.second == self.second + 1
        self.offset, self.second = mark.offset, mark.second
        self.whole = self.whole + 1 if follows else 1
        if mark.second % 60 == 0:
            self.whole = 1
        elif mark.second % 60 == 59 and self.whole >= 60:
            self.minutes += 1
