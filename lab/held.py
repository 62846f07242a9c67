"""Runs of the built program that a supervisor holds: a bound socket, the signals, a station of the
example's MSF receiver, and a server that answers as told.
"""

import atexit
import contextlib
import os
import socket
import subprocess
import threading
import time
from pathlib import Path
from typing import IO, Callable

from lab.client import socket_on
from lab.packets import WHOLE, reply as packet, request
from lab.program import TOP, program

LOG = TOP / "examples" / "radios" / "msf.log"
# What the example's log says: its first whole minute, 2026-01-01 12:00 UTC in seconds since 1900,
# begins at 2 s of the counter.
MINUTE, MINUTE_AT = 3976257600, 2.0
ENDLESS = 1_000_000  # the most hearings that `--during` takes


class Wrong(Exception):
    """Something isn't as it should be."""


def need(holds: bool, what: str) -> None:
    """Raises `Wrong` where something does not hold."""
    if not holds:
        raise Wrong(what)


def asked(client: socket.socket, port: int, number: int = 1) -> tuple[float, float, bytes]:
    """Asks once: the monotonic clock before and after, and the answer. TimeoutError without one."""
    before = time.monotonic()
    client.sendto(request(number), ("127.0.0.1", port))
    answer = client.recv(1024)
    return before, time.monotonic(), answer


class Signal:
    """A pair of streams: the program has the one end, and `give` closes the other."""

    def __init__(self) -> None:
        self.ours, self.theirs = socket.socketpair()

    def give(self) -> None:
        self.ours.close()


class Held:
    """A run of `serve` with these words. `signals` are the names of those that it gets."""

    def __init__(self, folder: Path, station: str, words: str = "",
                 sockets: tuple[socket.socket, ...] = (), signals: str = "go end",
                 during: int = ENDLESS, out: IO[str] | int = subprocess.PIPE) -> None:
        self.signals = {name: Signal() for name in signals.split()}
        numbers = [one.fileno() for one in sockets]
        parts = [f"socket={number}" for number in numbers]
        for name, signal in self.signals.items():
            numbers.append(signal.theirs.fileno())
            parts.append(f"{name}={signal.theirs.fileno()}")
        held = {"RADIO_NTPD_SERVICE": " ".join(parts + words.split(" ") if words else parts)}
        path = folder / f"station-{time.monotonic_ns()}.toml"
        path.write_text(station)
        self.child = subprocess.Popen(
            [program(), "serve", "--station", str(path), "--during", str(during)],
            env=os.environ | held, pass_fds=numbers,
            stdin=subprocess.DEVNULL, stdout=out, stderr=subprocess.PIPE, text=True)
        atexit.register(self.child.kill)  # nothing where it has ended
        for signal in self.signals.values():
            signal.theirs.close()

    def give(self, name: str) -> None:
        """Closes our end of a signal."""
        self.signals[name].give()

    def ended(self, within: float = 10.0) -> tuple[int, list[str], str]:
        """Its status, lines and message once it has ended; else subprocess.TimeoutExpired."""
        try:
            said, told = self.child.communicate(timeout=within)
        except subprocess.TimeoutExpired:
            self.child.kill()
            self.child.communicate()
            raise
        for signal in self.signals.values():
            signal.ours.close()
        return self.child.returncode, said.splitlines(), told

    def end(self) -> tuple[float, int, list[str]]:
        """Gives the end. Returns after how many seconds the run has ended, its status and lines."""
        begun = time.monotonic()
        self.give("end")
        status, lines, _ = self.ended()
        return time.monotonic() - begun, status, lines


def station(port: int | None, server: int | None = None, polls: int = 1000) -> str:
    """A station of the example's MSF receiver, with a link and a server where they have a port."""
    text = f'start = 0\n[[radio]]\nplan = "msf"\nlog = "{LOG}"\n'
    if port is not None:
        text += f"[[link]]\nport = {port}\n"
    if server is not None:
        text += f'[[server]]\naddress = "127.0.0.1"\nport = {server}\npolls = {polls}\n'
    return text


class Server:
    """A server of 127.0.0.1. `answer` makes the datagrams for a request, each with its delay."""

    def __init__(self, answer: Callable[[int, bytes], list[tuple[float, bytes]]]) -> None:
        self.socket = socket_on()
        self.port = self.socket.getsockname()[1]
        self.answer = answer
        self.times: list[float] = []
        self.thread = threading.Thread(target=self.run, daemon=True)
        self.thread.start()

    def run(self) -> None:
        """Answers until the socket is closed."""
        with contextlib.suppress(OSError):
            while True:
                bytes_, sender = self.socket.recvfrom(1024)
                self.times.append(time.monotonic())
                for delay, answer in self.answer(len(self.times), bytes_):
                    time.sleep(delay)
                    self.socket.sendto(answer, sender)

    def gaps(self) -> list[float]:
        """The seconds between two requests."""
        return [after - before for before, after in zip(self.times, self.times[1:])]

    def close(self) -> None:
        """Ends its thread at the next request."""
        self.socket.close()


def reply(asked_: bytes, stratum: int = 1, refid: bytes = b"TEST",
          origin: int | None = None) -> bytes:
    """An answer to a request; a kiss code has stratum 0."""
    now = int((MINUTE - MINUTE_AT + time.monotonic()) * WHOLE)
    return packet(asked_, now, now, refid, stratum, origin)


def client() -> socket.socket:
    """A client that waits for half a second."""
    one = socket_on()
    one.settimeout(0.5)
    return one


def whole(status: int, lines: list[str]) -> None:
    """A run with a link that was told to end: its status, the link's line, its journal and page."""
    need(status == 0 and lines[-1:] == ["status 0"], f"it ends with {status} and {lines[-1:]}")
    need(any(line.endswith(" end linkend") for line in lines), "no link ended")
    need(any(line.startswith("j2 ") for line in lines), "there is no journal")
    need(any(line.startswith("page ") for line in lines), "there is no page")


def client_ready(port: int) -> socket.socket:
    """A client of a run that answers."""
    one = client()
    one.settimeout(5)
    asked(one, port)
    return one


def with_time(port: int) -> tuple[float, float, bytes]:
    """The first answer of a run that has a time, with the monotonic clock before and after."""
    one = client_ready(port)
    for _ in range(100):
        before, after, answer = asked(one, port)
        if answer[1] == 1:
            return before, after, answer
        time.sleep(0.02)
    raise Wrong("a run has no time after two seconds")
