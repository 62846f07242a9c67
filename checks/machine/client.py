"""What a client outside of a machine meets: each answer is judged by the clock outside."""

import select
import socket
import struct
import threading
import time
from collections.abc import Callable, Iterable
from pathlib import Path
from typing import NamedTuple

from lab.client import Answer
from lab.packets import LENGTH, UNIX, WHOLE, read, request

TINY = 2e-6  # what is left of a microsecond that was rounded twice, in seconds
TURN = 0.05  # how often `waits` looks, in seconds


class Judged(NamedTuple):
    """An answer. `sent` and `came` are of the monotonic clock outside; all are in seconds."""

    sent: float
    came: float
    has_time: bool
    error: float  # the least that explains both stamps: the server's time less the true one
    distance: float  # the root distance that it reports

    @property
    def is_wrong(self) -> bool:
        """Whether it is off by more than it reports."""
        return self.has_time and abs(self.error) > self.distance + TINY


def judged(answer: Answer, base: float) -> Judged:
    """An answer by the clock outside. `base` is UTC at the zero of its monotonic clock."""
    # By whole microseconds, since a double of that size has only a quarter of one.
    early, late = (round((moment + base + UNIX) * 1e6) for moment in (answer.left, answer.came))
    receive, transmit = (stamp * 1_000_000 // WHOLE for stamp in (answer.header.receive, answer.header.transmit))
    error = transmit - late if transmit > late else min(0, receive - early)
    return Judged(answer.left, answer.came, answer.has_time, error / 1e6, answer.distance)


def worst(answers: Iterable[Judged]) -> float:
    """The greatest error of an answer with the time, with its sign, in seconds."""
    return max((one.error for one in answers if one.has_time), key=abs, default=0.0)


def silence(answers: Iterable[Judged], began: float, ended: float) -> float:
    """The longest span between two moments without an answer that has the time, in seconds."""
    moments = [began, *(one.came for one in answers if one.has_time), ended]
    return max(after - before for before, after in zip(moments, moments[1:]))


class Client(threading.Thread):
    """Asks port 123 of the machine's loopback RATE times a second until `close`, but not while it `rests`."""

    def __init__(self, path: Path, base: float, rate: float = 10) -> None:
        super().__init__(daemon=True)
        self.path, self.base, self.rate = path, base, rate
        self.answers: list[Judged] = []
        self.rests = False
        self._sent: dict[int, float] = {}
        self._held, self._ends = b"", threading.Event()
        self._socket: socket.socket | None = None

    def since(self, moment: float) -> list[Judged]:
        """The answers whose requests were sent from this moment on (monotonic s)."""
        return [one for one in self.answers[:] if one.sent >= moment]

    def waits(self, holds: Callable[[Judged], bool], within: float) -> bool:
        """Whether an answer for which this holds comes in this time (s)."""
        seen, end = len(self.answers), time.monotonic() + within
        while time.monotonic() < end:
            for one in self.answers[seen:]:
                seen += 1
                if holds(one):
                    return True
            time.sleep(TURN)
        return False

    def close(self) -> None:
        """Ends it."""
        self._ends.set()
        self.join(5)

    def run(self) -> None:
        """Asks, and takes answers. A machine that is off is asked again when it is on."""
        due = time.monotonic()
        while not self._ends.is_set():
            wait = due - time.monotonic()
            if wait <= 0:
                if not self.rests:
                    self._ask()
                due = max(due + 1 / self.rate, time.monotonic())
            elif self._socket is None:
                time.sleep(wait)
            elif select.select([self._socket], [], [], wait)[0]:
                self._take(self._socket)
        self._lose()

    def _ask(self) -> None:
        stamp = time.monotonic_ns()
        try:
            if self._socket is None:
                self._socket, self._held = socket.socket(socket.AF_UNIX), b""
                self._socket.connect(str(self.path))
                self._socket.setblocking(False)
            self._sent[stamp] = stamp / 1e9
            self._socket.send(struct.pack(">H", 123) + request(stamp))
        except BlockingIOError:
            pass
        except OSError:
            self._lose()

    def _lose(self) -> None:
        if self._socket is not None:
            self._socket.close()
        self._socket = None

    def _take(self, link: socket.socket) -> None:
        try:
            got = link.recv(4800)
        except OSError:
            got = b""
        came = time.monotonic()
        if not got:
            self._lose()
            return
        self._held += got
        while len(self._held) >= LENGTH:
            header, self._held = read(self._held[:LENGTH]), self._held[LENGTH:]
            sent = self._sent.pop(header.origin, None) if header else None
            if header is not None and sent is not None:
                self.answers.append(judged(Answer(header, sent, came), self.base))
