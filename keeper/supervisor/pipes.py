"""Pipes to the processes that we start."""

import os

from keeper.supervisor.host import Host

PIECE = 4096  # bytes that a pipe takes whole or not at all
TOP = os.path.dirname(os.path.dirname(os.path.dirname(os.path.abspath(__file__))))


class Outlet:
    """A pipe to a child that never waits. It is closed after a whole line where no line has more
    than 4096 bytes. `is_broken`: its reader has gone, or so much waits that it hangs."""

    def __init__(self, host: Host, descriptor: int, most: int) -> None:
        self.host, self.descriptor, self.most = host, descriptor, most
        self.pending = b""
        self.is_broken = False

    def give(self, lines: bytes) -> None:
        if not self.is_broken and self.descriptor >= 0:
            self.pending += lines
            self.push()

    def push(self) -> None:
        """Writes what waits, as far as the pipe takes it."""
        try:
            while self.pending:
                end = self.pending.rfind(b"\n", 0, PIECE) + 1 or PIECE
                took = self.host.write(self.descriptor, self.pending[:end])
                self.pending = self.pending[took:]
        except BlockingIOError:
            self.is_broken = len(self.pending) > self.most
        except OSError:
            self.is_broken = True

    def waits(self) -> bool:
        """Whether its reader hasn't read all yet."""
        try:
            return bool(self.pending or self.host.unread(self.descriptor))
        except OSError:
            return True

    def close(self) -> None:
        self.host.close(self.descriptor)
        self.descriptor, self.pending = -1, b""
