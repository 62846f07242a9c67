"""A client on the loopback: ports, a request and its answer, and what a server's time is."""

import random
import socket
import time
from pathlib import Path
from typing import NamedTuple

from lab.packets import UNIX, WHOLE, Header, read, request

HOST = "127.0.0.1"


class Answer(NamedTuple):
    """A server's answer, and the monotonic clock when its request was sent and when it came, in seconds."""

    header: Header
    left: float
    came: float

    @property
    def refid(self) -> str:
        return self.header.refid.to_bytes(4, "big").rstrip(b"\0").decode("latin-1")

    @property
    def what(self) -> tuple[int, int, str]:
        """The leap indicator, the stratum, and the reference ID's letters."""
        return self.header.leap, self.header.stratum, self.refid

    @property
    def has_time(self) -> bool:
        return self.header.leap != 3 and self.header.stratum != 0

    @property
    def dispersion(self) -> float:
        """The root dispersion, in seconds."""
        return self.header.root_dispersion / 65536

    @property
    def distance(self) -> float:
        """The root distance without what the exchange took, in seconds."""
        return self.header.root_delay / 131072 + self.dispersion


def socket_on(address: str = HOST, port: int = 0) -> socket.socket:
    """A socket on a port, or on a free one."""
    one = socket.socket(socket.AF_INET, socket.SOCK_DGRAM)
    one.bind((address, port))
    return one


def to_server(port: int, wait: float | None) -> socket.socket:
    """A socket that sends to one server and receives of it alone; how long it waits, in seconds."""
    one = socket.socket(socket.AF_INET, socket.SOCK_DGRAM)
    one.connect((HOST, port))
    one.settimeout(wait)
    return one


def is_free(port: int) -> bool:
    try:
        socket_on("0.0.0.0", port).close()
    except OSError:
        return False
    return True


def free_port() -> int:
    """Ports from 32768 on may be taken by any socket that asks for none; so one below them."""
    return next(port for port in iter(lambda: random.randrange(20000, 32000), 0) if is_free(port))


def dropped(port: int) -> int:
    """How many datagrams the kernel has dropped at the sockets of a port."""
    rows = Path("/proc/net/udp").read_text(encoding="ascii").splitlines()[1:]
    return sum(int(row.split()[12]) for row in rows if row.split()[1].endswith(f":{port:04X}"))


def ask(port: int, wait: float = 1.0) -> Answer | None:
    """Asks a server once; None where no answer to that comes within this number of seconds."""
    with to_server(port, wait) as client:
        left = time.monotonic_ns()
        try:
            client.send(request(left))
            header = read(client.recv(1024))
        except OSError:
            return None
        came = time.monotonic_ns()
    return Answer(header, left / 1e9, came / 1e9) if header and header.origin == left else None


def offset(port: int, base: float, count: int) -> float:
    """By how much the served time is ahead of the monotonic clock and `base` (s), by the shortest of some exchanges."""
    best = (9.0, 0.0)
    with to_server(port, 0) as client:
        for _ in range(count):
            left = time.monotonic_ns()
            client.send(request(left))
            while time.monotonic_ns() - left < 20_000_000:
                try:
                    header = read(client.recv(1024))
                except BlockingIOError:
                    continue
                came = time.monotonic_ns()
                if header is None or header.origin != left:
                    continue  # it answers an earlier request, late
                middle = ((header.receive + header.transmit) // 2 * 1_000_000 // WHOLE) - round((base + UNIX) * 1e6)
                best = min(best, ((came - left) / 1e9, (middle - (left + came) / 2e3) / 1e6))
                break
    return best[1]
