"""What the machine itself does to a check of the keeper: how slow its processor is, and for how long others' work stalls a program."""

import os
import socket
import struct
import subprocess
import sys
import time

from lab.client import socket_on, to_server

# Of `work` on the machine on which the bounds were measured, in seconds of processor time.
USUAL = 0.012
SLOWEST = 3.0  # a machine that is slower gets no more


def work() -> float:
    """How long a fixed piece of work takes, in seconds of processor time: others' work isn't in it. The best of five."""
    took = []
    for _ in range(5):
        began, total = time.process_time(), 0
        for one in range(200_000):
            total += one & 7
        took.append(time.process_time() - began)
    return min(took)


def slowness() -> float:
    """How many times slower this processor is than the usual one, 1 to 3."""
    return min(SLOWEST, max(1.0, work() / USUAL))


def python_start() -> float:
    """How long a Python that does nothing takes to begin and end here and now, in seconds."""
    began = time.monotonic()
    subprocess.run([sys.executable, "-c", "pass"], check=True)
    return time.monotonic() - began


class Echo:
    """A bare server that sends back what it gets, asked beside the keeper's: what is wrong with its answers is the machine's doing."""

    def __init__(self) -> None:
        link = socket_on()
        self.pid = os.fork()
        if self.pid == 0:
            try:
                _echo(link)
            finally:
                os._exit(0)
        self.socket = to_server(link.getsockname()[1], 0)
        link.close()
        self.waits_since: float | None = None

    def ask(self) -> None:
        """Asks where no answer is awaited."""
        if self.waits_since is None:
            self.waits_since = time.monotonic()
            self.socket.send(struct.pack(">d", self.waits_since))

    def hear(self) -> float:
        """How long the answer took that has come, in seconds; 0.0 where none has."""
        try:
            self.socket.recv(100)
        except OSError:
            return 0.0
        since, self.waits_since = self.waits_since, None
        return time.monotonic() - since if since is not None else 0.0

    def close(self) -> None:
        self.socket.send(b"")
        os.waitpid(self.pid, 0)
        self.socket.close()


def _echo(link: socket.socket) -> None:
    """Answers until an empty datagram comes or its parent has ended."""
    parent = os.getppid()
    link.settimeout(1)
    while os.getppid() == parent:
        try:
            datagram, who = link.recvfrom(100)
        except OSError:
            continue
        if not datagram:
            return
        link.sendto(datagram, who)
