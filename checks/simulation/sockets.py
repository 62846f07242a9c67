"""UDP sockets with queues that drop, clients that ask all the time, and who answers them."""

from typing import TYPE_CHECKING

from checks.simulation.opened import Open
from checks.simulation.world import World

if TYPE_CHECKING:
    from checks.simulation.program import Run

ROOM = 212_992  # of a socket's queue, in bytes
COST = 768  # of one datagram in it
SOON = 0.0002  # how long an answer is under way (s)
SILENCE = 0.5  # hearings a second of a link that nobody asks: each lasts two seconds


class Server(Open):
    """A socket bound to a port. Clients ask it `rate` times a second."""

    def __init__(self, world: World, port: int, rate: float) -> None:
        self.world, self.port, self.rate = world, port, rate
        self.runs: list["Run"] = []  # those that have it open as a link
        self.waiting: list[tuple["Client", bytes]] = []
        self.unread = 0.0  # datagrams of others that wait
        self.dropped = 0.0
        self.settled = world.now
        self.is_shut = False

    def answering(self) -> list["Run"]:
        return [one for one in self.runs if one.answers(self)]

    def settle(self) -> None:
        """Brings what clients sent since the last call to where it went."""
        span, self.settled = self.world.now - self.settled, self.world.now
        count = span * self.rate
        takers = self.answering()
        if takers:
            count += self.unread
            self.unread = 0.0
            each = max(span * SILENCE, count / len(takers))
            for one in takers:
                one.hearings[self.port] = one.hearings.get(self.port, 0.0) + each
        else:
            room = max(0.0, ROOM / COST - len(self.waiting) - self.unread)
            self.unread += min(room, count)
            self.dropped += max(0.0, count - room)

    def set_rate(self, rate: float) -> None:
        self.settle()
        self.rate = rate
        for one in self.runs:
            one.plan_deafness(self)

    def ask(self, client: "Client", data: bytes) -> None:
        self.settle()
        if self.unread + len(self.waiting) + 1 > ROOM / COST:
            self.dropped += 1
            return
        self.waiting.append((client, data))
        self.serve()

    def serve(self) -> None:
        """Whoever answers takes what waits."""
        takers = self.answering()
        if not takers:
            return
        waiting, self.waiting = self.waiting, []
        for client, data in waiting:
            run = self.world.random.choice(takers) if len(takers) > 1 else takers[0]
            self.world.at(SOON, self._reply, run, client, data)

    def _reply(self, run: "Run", client: "Client", data: bytes) -> None:
        if run.alive and not run.is_held():
            client.arrived(run.reply(data))

    def shut(self) -> None:
        self.is_shut = True
        self.world.served = True


class Client(Open):
    """The supervisor's own socket that asks a port."""

    def __init__(self, world: World, server: Server | None) -> None:
        self.world, self.server = world, server
        self.came: list[bytes] = []
        self.refused = False

    def readable(self) -> bool:
        return bool(self.came) or self.refused

    def write(self, data: bytes) -> int:
        if self.server is None or self.server.is_shut:
            self.refused = True
            self.world.changed = True
        else:
            self.server.ask(self, data)
        return len(data)

    def read(self, most: int) -> bytes:
        if self.came:
            return self.came.pop(0)[:most]
        if self.refused:
            self.refused = False
            raise ConnectionRefusedError(111, "Connection refused")
        raise BlockingIOError(11, "Resource temporarily unavailable")

    def arrived(self, reply: bytes) -> None:
        if self.holders > 0:
            self.came.append(reply)
            self.world.changed = True
