"""A client that asks a server at a steady rate, and says what it met.

    python3 -m lab.kept_client PORT SECONDS RATE BASE

BASE is what the time is ahead of the monotonic clock, in seconds. It prints a line of JSON at the end, or when it gets SIGTERM, and at each
SIGUSR1 one of what it has met so far:
asked, answered, timed  requests, answers, answers with the time
silent                  the longest span without an answer within a second: from the first request that got none to the next that got one, in
                        seconds. It is counted in requests: a span in which this client itself was stalled isn't one without answers
untimed                 the same for answers with the time; before the first of them nothing counts
stalled                 by how much the machine stalled a bare echo server at worst, or this client, in seconds
error                   the greatest error of an answer with the time beyond its own way there and back, in seconds
wrong                   answers whose error is above the root distance that they say
silences, untimes       all those spans: when the first request of each was sent (monotonic s), how long it was (s), its requests
stalls                  the worst stall of each second that had one of 5 ms or more: that second (monotonic s), and how long it was (s)
"""

import argparse
import collections
import json
import select
import signal
import time

from lab.client import to_server
from lab.kept_machine import Echo
from lab.packets import UNIX, WHOLE, Header, read, request

STALL = 0.005  # a stall that is shorter is not told, in seconds
LOST = 1.0  # a request without an answer for so long is lost, in seconds


class Spans:
    """The spans between a first miss and the next hit. A request is `due` by the client's own count of them (s)."""

    def __init__(self) -> None:
        self.began: float | None = None
        self.at, self.missed = 0.0, 0
        self.all: list[tuple[float, float, int]] = []

    def miss(self, due: float, at: float) -> None:
        """A request without an answer, which was sent at this moment (monotonic s)."""
        if self.began is None:
            self.began, self.at, self.missed = due, at, 0
        self.missed += 1

    def finish(self, now: float) -> None:
        """What has begun hasn't ended."""
        if self.began is not None:
            self.hit(now)

    def hit(self, due: float) -> None:
        if self.began is not None and due > self.began:
            self.all.append((round(self.at, 3), round(due - self.began, 4), self.missed))
            self.began = None

    def longest(self) -> float:
        return max((seconds for _, seconds, _ in self.all), default=0.0)


class Stalls:
    """What the machine did to an echo or to this client: the worst of each second, in seconds."""

    def __init__(self) -> None:
        self.of: dict[int, float] = {}

    def note(self, at: float, seconds: float) -> None:
        """A stall that ended at this moment (monotonic s)."""
        self.of[int(at)] = max(seconds, self.of.get(int(at), 0.0))

    def worst(self) -> float:
        return max(self.of.values(), default=0.0)

    def long(self) -> list[tuple[int, float]]:
        return [(at, round(seconds, 4)) for at, seconds in sorted(self.of.items()) if seconds >= STALL]


class Client:
    """What one client met. At a change of run two processes answer on one socket, so answers may come in another order than requests."""

    def __init__(self, port: int, base: float, rate: float) -> None:
        self.base, self.rate = base, rate
        self.socket = to_server(port, 0)
        self.sent: dict[int, int] = {}  # the numbers of the requests that aren't answered yet, by their stamps
        self.open: collections.deque[tuple[int, int]] = collections.deque()  # numbers and stamps of those that aren't counted yet
        self.had_time: dict[int, bool] = {}  # of these, whether the answer had the time
        self.silence, self.untime = Spans(), Spans()
        self.asked = self.answered = self.timed = self.wrong = 0
        self.error = 0.0
        self.began = False  # whether an answer had the time

    def ask(self, stamp: int) -> None:
        """Sends a request at this moment (monotonic ns)."""
        self.sent[stamp] = self.asked
        self.open.append((self.asked, stamp))
        self.asked += 1
        try:
            self.socket.send(request(stamp))
        except OSError:
            pass  # the port was closed when the one before came

    def hear(self) -> None:
        while True:
            try:
                datagram = self.socket.recv(1024)
            except BlockingIOError:
                break
            except OSError:
                continue
            if header := read(datagram):
                self.take(header, time.monotonic_ns() / 1e9)
        self.settle(time.monotonic_ns() / 1e9 - LOST)

    def take(self, header: Header, came: float) -> None:
        """An answer that came at this moment (monotonic s)."""
        number = self.sent.pop(header.origin, None)
        if number is None:
            return
        self.answered += 1
        self.had_time[number] = header.leap != 3 and header.stratum != 0
        if not self.had_time[number]:
            return
        self.timed += 1
        # In whole numbers the stamps lie between the request's moment and the answer's.
        earliest, latest = (round((moment + self.base + UNIX) * 1e6) for moment in (header.origin / 1e9, came))
        error = max(0, earliest - header.receive * 1_000_000 // WHOLE, header.transmit * 1_000_000 // WHOLE - latest) / 1e6
        self.error = max(self.error, error)
        # What the stamps say to the microsecond is rounded twice.
        self.wrong += error > header.root_dispersion / 65536 + header.root_delay / 131072 + 2e-6

    def settle(self, until: float) -> None:
        """Counts requests in their order: those with an answer, and as lost those that were sent until this moment (monotonic s)."""
        while self.open and (self.open[0][0] in self.had_time or self.open[0][1] / 1e9 <= until):
            number, stamp = self.open.popleft()
            due, sent = number / self.rate, stamp / 1e9
            self.sent.pop(stamp, None)
            had_time = self.had_time.pop(number, None)
            if had_time is None:
                self.silence.miss(due, sent)
            else:
                self.silence.hit(due)
            if had_time:
                self.began = True
                self.untime.hit(due)
            elif self.began:
                self.untime.miss(due, sent)

    def finish(self) -> None:
        """Counts what was asked until now as lost where it has no answer."""
        self.settle(float("inf"))
        for spans in (self.silence, self.untime):
            spans.finish(self.asked / self.rate)

    def report(self) -> dict:
        return {
            "asked": self.asked, "answered": self.answered, "timed": self.timed, "silent": self.silence.longest(), "untimed": self.untime.longest(), "error": round(self.error, 6), "wrong": self.wrong,
            "silences": self.silence.all, "untimes": self.untime.all,
        }


def tell(client: Client, stalls: Stalls) -> None:
    """Prints what was met so far."""
    print(json.dumps({**client.report(), "stalled": round(stalls.worst(), 4), "stalls": stalls.long()}), flush=True)


def main() -> None:
    parser = argparse.ArgumentParser(description="Asks a server on the loopback, and reports silences and errors.")
    parser.add_argument("port", type=int)
    parser.add_argument("seconds", type=float)
    parser.add_argument("rate", type=float, help="requests a second")
    parser.add_argument("base", type=float, help="the receivers' time at the zero of the monotonic clock, in seconds")
    given = parser.parse_args()
    port, seconds, rate, base = given.port, given.seconds, given.rate, given.base
    stops, looks = [], []
    signal.signal(signal.SIGTERM, lambda *_: stops.append(1))
    signal.signal(signal.SIGUSR1, lambda *_: looks.append(1))
    echo, client, stalls = Echo(), Client(port, base, rate), Stalls()
    begin = due = time.monotonic()
    while not stops and due < begin + seconds:
        if looks:
            looks.pop()
            tell(client, stalls)
        wait = due - time.monotonic()
        if wait > 0:
            select.select([client.socket, echo.socket], [], [], wait)
            client.hear()
            stalls.note(time.monotonic(), echo.hear())
            continue
        stalls.note(time.monotonic(), -wait)
        client.ask(time.monotonic_ns())
        echo.ask()
        due = max(due + 1 / rate, time.monotonic())
    end = time.monotonic() + LOST
    while client.open and time.monotonic() < end:
        time.sleep(0.02)
        client.hear()
    client.finish()
    echo.close()
    tell(client, stalls)


if __name__ == "__main__":
    main()
