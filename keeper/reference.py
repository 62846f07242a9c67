"""A server that is asked in turn: what a radio is compared with."""

import socket
import time
from dataclasses import dataclass

from keeper import ntp
from keeper.errors import Fault

WAIT = 1.0  # for an answer (s)
NEAREST = 5  # of the exchanges that lie nearest to a moment the one with the least delay counts


@dataclass(frozen=True)
class Exchange:
    """`at`: by the host's clock (Unix s). `offset`: the server's time less the host's clock (s).
    `delay`: there and back (s)."""

    at: float
    offset: float
    delay: float


class Server:
    """It is asked once in `pace` seconds. Raises Fault where it has no address."""

    def __init__(self, address: str, port: int, pace: float) -> None:
        self.pace, self.due, self.refused = pace, 0.0, 0
        self.found: list[Exchange] = []
        self.socket = socket.socket(socket.AF_INET, socket.SOCK_DGRAM)
        try:
            self.socket.connect((address, port))
        except (OSError, UnicodeError) as error:
            self.socket.close()
            why = getattr(error, "strerror", None) or error
            raise Fault(f"the server {address} can't be asked: {why}") from error

    def turn(self, now: float) -> None:
        """Asks where it is time to (`now` in monotonic s), and waits a second at most."""
        if now < self.due:
            return
        self.due = now + self.pace
        try:
            found = self._ask()
        except OSError:
            found = None
        if found:
            self.found.append(found)
        else:
            self.refused += 1

    def _ask(self) -> Exchange | None:
        """One exchange; None where there is no answer with a time. Raises OSError."""
        sent, end = time.time(), time.monotonic() + WAIT
        stamp = int((sent + ntp.EPOCH) * ntp.WHOLE) % 2**64
        self.socket.send(ntp.request(stamp))
        while (left := end - time.monotonic()) > 0:
            self.socket.settimeout(left)
            datagram, came = self.socket.recv(1024), time.time()
            said = ntp.answer(datagram)
            if said is None or said.origin != stamp:
                continue  # it isn't the answer to our request
            if not said.has_time():
                return None
            received, left = (ntp.unix_of(one, came) for one in (said.receive, said.transmit))
            offset = ((received - sent) + (left - came)) / 2
            return Exchange(came, offset, (came - sent) - (left - received))
        return None

    def offset_at(self, at: float) -> float | None:
        """What is to be added to the host's clock at a moment (Unix s); None where it isn't
        known."""
        nearest = sorted(self.found, key=lambda one: abs(one.at - at))[:NEAREST]
        return min(nearest, key=lambda one: one.delay).offset if nearest else None

    def words(self) -> str:
        """How good it is."""
        if not self.found:
            return f"it never answered with a time ({self.refused} refusals)"
        best = min(one.delay for one in self.found) * 1e3
        return (f"{len(self.found)} exchanges, the best of {best:.2f} ms there and back: its time "
                f"is known within {best / 2:.2f} ms")
