"""What a supervisor can hold of a run: its sockets, beginning, end, counter and pace, each seen on
the built program.

    python3 -m checks.service [--changes N] [--rate N] [--only WORD]

N changes from one run to the next, at N requests a second (default 5 and 500). Each wait has
a bound; the whole takes about half a minute. Exit status: 0 all as it should be, 1 something isn't,
2 invalid arguments, 130 stopped by SIGINT.
"""

import argparse
import socket
import subprocess
import sys
import tempfile
import threading
import time
from collections.abc import Callable
from pathlib import Path

from checks.handovers import changes, faults, killed, plain, systemd
from lab import held
from lab.client import socket_on
from lab.ends import run as run_program
from lab.held import (Held, Server, Wrong, asked, client, client_ready, need, reply, station,
                      whole, with_time)
from lab.packets import WHOLE, number_of, read, request
from lab.program import program

LATEST = 0.25  # seconds from the signal of the end to the end of the process
ENDS = 3  # tries, since a busy host may wake a process late


def is_silent(one: socket.socket) -> bool:
    """Whether nothing comes to a client within half a second."""
    try:
        one.recv(1024)
    except TimeoutError:
        return True
    return False


def begins(folder: Path) -> None:
    """What lay in the second of two sockets is answered once the run may begin, and not before; nor
    is a server asked before.
    """
    link, one = socket_on(), client()
    port = link.getsockname()[1]
    one.sendto(request(7), ("127.0.0.1", port))
    server = Server(lambda count, bytes_: [(0.0, reply(bytes_))])
    run = Held(folder, station(port, server.port), "pace=60", sockets=(socket_on(), link))
    need(is_silent(one), "a request is answered before the beginning")
    need(not server.times, "a server is asked before the beginning")
    run.give("go")
    need(number_of(one.recv(1024)) == 7, "what lay in the socket is not answered")
    whole(*run.end()[1:])


def waits_untouched(folder: Path) -> None:
    """Nothing is taken out of the socket before the beginning: another reader gets it whole."""
    link, one = socket_on(), client()
    port = link.getsockname()[1]
    run = Held(folder, station(port), sockets=(link,))
    for number in range(20):
        one.sendto(request(number), ("127.0.0.1", port))
    time.sleep(0.4)
    took, status, lines = run.end()
    link.settimeout(1)
    got = [link.recv(1024) for _ in range(20)]
    need(got == [request(number) for number in range(20)], "requests are gone before the beginning")
    whole(status, lines)
    need(took < 2 * LATEST, f"a run that has not begun ends after {took:.3f} s")


def hears_silence(folder: Path) -> None:
    """A silent hearing takes two seconds, also where the socket was told not to wait."""
    link = socket_on()
    link.setblocking(False)
    run = Held(folder, station(link.getsockname()[1]), sockets=(link,), signals="end",
               during=1)
    begun = time.monotonic()
    time.sleep(0.5)
    link.setblocking(False)
    status, lines, _ = run.ended()
    took = time.monotonic() - begun
    need(status == 0 and took >= 1.7, f"one hearing takes {took:.1f} s")


def took_to_end(folder: Path, words: str, flood: bool, server: int | None) -> float:
    """For how many seconds a run ends: silent or under datagrams, or while a request waits."""
    link = socket_on()
    port = link.getsockname()[1]
    run = Held(folder, station(port, server), words, (link,), "end")
    over = threading.Event()
    one = socket_on()

    def send() -> None:
        while not over.is_set():
            one.sendto(request(1), ("127.0.0.1", port))

    asked(client_ready(port), port)
    sender = threading.Thread(target=send, daemon=True)
    if flood:
        sender.start()
    time.sleep(0.3)
    took, status, lines = run.end()
    over.set()
    whole(status, lines)
    return took


def ends(folder: Path) -> None:
    """The end comes in time: without datagrams, under datagrams, while a request waits."""
    server = Server(lambda count, bytes_: [(0.0, reply(bytes_))])
    cases = (("", False, None), ("", True, None), ("pace=60", False, server.port))
    for words, flood, port in cases:
        least = min(took_to_end(folder, words, flood, port) for _ in range(ENDS))
        need(least <= LATEST, f"{words or 'a run'}, flood {flood}, ends after {least:.3f} s")
    server.close()


def counter(folder: Path) -> None:
    """The served time is that of the log by CLOCK_MONOTONIC, in each of two runs."""
    for _ in range(2):
        link = socket_on()
        port = link.getsockname()[1]
        run = Held(folder, station(port), sockets=(link,), signals="end")
        before, after, answer = with_time(port)
        header = read(answer)
        for stamp in (header.receive, header.transmit) if header else ():
            at = stamp / WHOLE - held.MINUTE + held.MINUTE_AT
            need(before - 0.05 <= at <= after + 0.05, f"{at - before:.3f} s from the counter")
        whole(*run.end()[1:])


def pace(folder: Path) -> None:
    """Four requests at once, then by the pace, whatever the answers: early, late or none."""
    late = {2: 0.5, 5: 0.7}
    server = Server(lambda count, bytes_: [(late.get(count, 0.0), reply(bytes_))])
    run = Held(folder, station(None, server.port), "pace=1", signals="ask end")
    time.sleep(0.5)
    need(not server.times, "a server is asked before it may be")
    run.give("ask")
    time.sleep(4.5)
    need(run.end()[1] == 0, "a run with a server does not end well")
    gaps = server.gaps()
    need(len(gaps) >= 5 and sum(gaps[:3]) < 0.9, f"the first requests do not come at once: {gaps}")
    need(all(0.99 <= gap < 1.4 for gap in gaps[3:]), f"the pace of 1 s is not kept: {gaps}")
    server.close()


def kisses(folder: Path) -> None:
    """`RATE` with the request's own timestamp doubles the pace, no other does; `DENY` ends it."""
    def kiss(count: int, bytes_: bytes) -> list[tuple[float, bytes]]:
        if count == 2:
            return [(0.0, reply(bytes_, 0, b"RATE", 0)), (0.0, reply(bytes_))]
        if count == 3:
            return [(0.0, reply(bytes_, 0, b"RATE")), (0.0, reply(bytes_))]
        if count == 5:
            return [(0.0, reply(bytes_, 0, b"DENY"))]
        return [(0.0, reply(bytes_))]

    server = Server(kiss)
    run = Held(folder, station(None, server.port), "pace=1", signals="end")
    time.sleep(6)
    need(run.end()[1] == 0, "a run whose server wants no more does not end well")
    gaps = server.gaps()
    need(len(server.times) == 5, f"{len(server.times)} requests, with a DENY at the fifth")
    need(gaps[0] < 0.5 and gaps[1] < 0.5, f"a RATE for no request of ours counts: {gaps}")
    doubled = all(1.99 <= gap < 2.4 for gap in gaps[2:])
    need(doubled, f"a RATE does not double the pace: {gaps}")
    server.close()


def main() -> int:
    parser = argparse.ArgumentParser(description=__doc__.splitlines()[0])
    parser.add_argument("--changes", type=int, default=5)
    parser.add_argument("--rate", type=int, default=500)
    parser.add_argument("--only", default="")
    words = parser.parse_args()
    program()  # it has to be there
    cases: tuple[Callable[..., str | None], ...] = (
        begins, waits_untouched, hears_silence, ends, counter, pace, kisses, faults, systemd,
        plain, killed, changes)
    bad = 0
    with tempfile.TemporaryDirectory() as name:
        for case in cases:
            if words.only not in case.__name__:
                continue
            begun = time.monotonic()
            more = (words.changes, words.rate) if case is changes else ()
            try:
                said = case(Path(name), *more)
                took = time.monotonic() - begun
                print(f"{case.__name__}: {said or 'as it should be'}, {took:.1f} s")
            except (Wrong, OSError, subprocess.TimeoutExpired) as problem:
                bad = 1
                print(f"service: {case.__name__}: {problem}", file=sys.stderr)
    return bad


if __name__ == "__main__":
    run_program(main)
