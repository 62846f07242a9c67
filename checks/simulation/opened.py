"""What descriptors stand for: pipes, pairs of sockets, FIFOs. Each counts who has it open."""

from collections.abc import Callable

from checks.simulation.world import World

PIPE_BUF = 4096
REACT = 0.0003  # how soon a process reads what was written for it (s)


class Open:
    """An open end. `holders` counts the descriptors of all processes for it."""

    holders = 0
    on_state_disk = False

    def take(self) -> "Open":
        self.holders += 1
        return self

    def drop(self) -> None:
        self.holders -= 1
        if self.holders == 0:
            self.shut()

    def shut(self) -> None:
        """The last descriptor was closed."""

    def readable(self) -> bool:
        return False

    def read(self, most: int) -> bytes:
        raise OSError(22, "Invalid argument")

    def write(self, data: bytes) -> int:
        raise OSError(22, "Invalid argument")


class Pipe:
    """Bytes on their way. `listener` is told when there is something for the reader, who is a
    process of ours; `swallows` where whatever is written is read at once and forgotten."""

    def __init__(self, world: World, room: int) -> None:
        self.world, self.room = world, room
        self.data = bytearray()
        self.reader = PipeReader(self)
        self.writer = PipeWriter(self)
        self.listener: Callable[[], None] | None = None
        self.swallows = False
        self.told = False

    def tell(self) -> None:
        self.world.changed = True
        if self.listener and not self.told:
            self.told = True
            self.world.at(REACT, self._tell)

    def _tell(self) -> None:
        self.told = False
        if self.listener:
            self.listener()

    def put(self, data: bytes) -> int:
        """How many bytes were taken, as a descriptor that never waits has it."""
        if self.reader.holders <= 0:
            raise BrokenPipeError(32, "Broken pipe")
        room = self.room - len(self.data)
        if room <= 0 or len(data) <= PIPE_BUF and room < len(data):
            raise BlockingIOError(11, "Resource temporarily unavailable")
        if self.swallows:
            return len(data)
        self.data += data[:room]
        self.tell()
        return min(room, len(data))

    def at_end(self) -> bool:
        return self.writer.holders <= 0 and not self.data

    def get(self, most: int) -> bytes:
        if not self.data:
            if self.writer.holders > 0:
                raise BlockingIOError(11, "Resource temporarily unavailable")
            return b""
        found = bytes(self.data[:most])
        del self.data[:most]
        return found


class PipeReader(Open):
    def __init__(self, pipe: Pipe) -> None:
        self.pipe = pipe

    def readable(self) -> bool:
        return bool(self.pipe.data) or self.pipe.writer.holders <= 0

    def read(self, most: int) -> bytes:
        return self.pipe.get(most)

    def shut(self) -> None:
        self.pipe.listener = None
        self.pipe.data.clear()


class PipeWriter(Open):
    def __init__(self, pipe: Pipe) -> None:
        self.pipe = pipe

    def write(self, data: bytes) -> int:
        return self.pipe.put(data)

    def shut(self) -> None:
        self.pipe.tell()


class Fifo:
    """A FIFO's pipe."""

    def __init__(self, world: World) -> None:
        self.pipe = Pipe(world, 65536)


class FifoReader(Open):
    """The supervisor's end. Without a writer it reads as an end; it wakes nobody before the first
    one came."""

    def __init__(self, fifo: Fifo) -> None:
        self.fifo = fifo
        self.met = fifo.pipe.writer.holders > 0
        fifo.pipe.reader.take()

    def readable(self) -> bool:
        pipe = self.fifo.pipe
        if pipe.writer.holders > 0:
            self.met = True
        return bool(pipe.data) or self.met and pipe.writer.holders <= 0

    def read(self, most: int) -> bytes:
        self.met = self.met or bool(self.fifo.pipe.data)
        return self.fifo.pipe.get(most)

    def shut(self) -> None:
        self.fifo.pipe.reader.drop()


class PairEnd(Open):
    """One end of a stream socket pair. It can be read once the other end is shut."""

    def __init__(self, world: World) -> None:
        self.world = world
        self.other: PairEnd | None = None
        self.is_shut = False
        self.listeners: list[Callable[[], None]] = []

    def readable(self) -> bool:
        return self.other is None or self.other.is_shut

    def read(self, most: int) -> bytes:
        if not self.readable():
            raise BlockingIOError(11, "Resource temporarily unavailable")
        return b""

    def shut(self) -> None:
        self.is_shut = True
        self.world.disturb()
        if self.other:
            for one in self.other.listeners:
                self.world.at(REACT, one)


def pair(world: World) -> tuple[PairEnd, PairEnd]:
    ours, theirs = PairEnd(world), PairEnd(world)
    ours.other, theirs.other = theirs, ours
    return ours, theirs
