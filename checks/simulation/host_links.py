"""The part of the simulated host that has pipes and sockets."""

from checks.simulation.host_files import HostFiles
from checks.simulation.opened import Pipe, PipeWriter, pair
from checks.simulation.sockets import COST, Client, Server

OUTLET, INLET = 1 << 20, 1 << 16


class HostLinks(HostFiles):
    """Pipes to and from children, pairs, and UDP sockets."""

    def outlet(self) -> tuple[int, int]:
        self.enter("outlet")
        pipe = Pipe(self.world, OUTLET)
        return self.add(pipe.writer), self.add(pipe.reader)

    def inlet(self) -> tuple[int, int]:
        self.enter("inlet")
        pipe = Pipe(self.world, INLET)
        return self.add(pipe.reader), self.add(pipe.writer)

    def pair(self) -> tuple[int, int]:
        self.enter("pair")
        ours, theirs = pair(self.world)
        return self.add(ours), self.add(theirs)

    def unread(self, descriptor: int) -> int:
        self.enter("unread")
        outlet = self.at(descriptor)
        assert isinstance(outlet, PipeWriter)
        return len(outlet.pipe.data)

    def handed_over(self) -> list[int]:
        self.enter("handed_over")
        if not self.machine.kind.handed_over:
            return []
        return [self.add(self.machine.servers[port]) for port in self.machine.kind.ports]

    def bind(self, address: str, port: int) -> int:
        self.enter("bind")
        servers = self.machine.servers
        if port in servers and not servers[port].is_shut:
            raise OSError(98, "Address already in use")
        while not port or port in servers and not servers[port].is_shut:
            port = self.world.random.randrange(32768, 61000)
        is_public = port in self.machine.kind.ports
        server = Server(self.world, port, self.machine.kind.rate if is_public else 0.0)
        for one in [one for one, old in servers.items() if old.is_shut]:
            del servers[one]
        servers[port] = server
        return self.add(server)

    def port_of(self, descriptor: int) -> int:
        server = self.at(descriptor)
        assert isinstance(server, Server)
        return server.port

    def client(self, own: str, port: int) -> int:
        self.enter("client")
        return self.add(Client(self.world, self.machine.servers.get(port)))

    def queue(self, descriptor: int) -> tuple[int, int]:
        self.enter("queue")
        server = self.at(descriptor)
        assert isinstance(server, Server)
        server.settle()
        return (int(server.unread) + len(server.waiting)) * COST, int(server.dropped)
