"""The gate of clients: denied nets, and the least gap between two requests of one client (docs/PROTOCOL.md, "Kiss
codes").
"""

import ipaddress
from typing import Sequence

from .notes import met

PASS, DENY, RATE = "", "DENY", "RATE"


class Gate:
    """A gate: the denied nets, the gap in microseconds, and a table of the clients that it remembers, the latest used
    first.
    """

    def __init__(self, nets: Sequence[str], gap: int, clients: int):
        self.nets = [ipaddress.ip_network(net, strict=False) for net in nets]
        self.gap, self.clients = gap, clients
        self.table: list[tuple[int, int]] = []

    def judge(self, address: int, at: int) -> str:
        """The code of a request that arrives at a moment."""
        if any(ipaddress.ip_address(address) in net for net in self.nets):
            return DENY
        if self.gap == 0:
            return PASS
        known = next((pair for pair in self.table if pair[0] == address), None)
        others = [pair for pair in self.table if pair[0] != address]
        if known and at < known[1] + self.gap:
            # The moment stays, so that asking within the gap doesn't prolong it.
            self.table = [known, *others]
            return RATE
        if len(others) == self.clients:
            met("gate: a client is forgotten")
        self.table = [(address, at), *others][: self.clients]
        return PASS
