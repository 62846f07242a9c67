"""Files by name, on a disk that loses what was not synced, and in memory that a boot clears.

Contents and names are lost apart. What is older than the kernel's own write-back is on the disk.
"""

import os
import random
from collections.abc import Iterator

from checks.simulation.opened import Fifo, Open
from checks.simulation.world import World

WRITE_BACK = 300.0  # what was written so long ago is on the disk without a sync (s)


class Inode:
    """A file's content. Up to `safe` it is on the disk; `steps` has when it grew to what size
    since then, `old` what was on the disk before it was written over."""

    def __init__(self, number: int, kind: str, now: float) -> None:
        self.number, self.kind = number, kind
        self.data = bytearray()
        self.safe = 0
        self.steps: list[tuple[float, int]] = []
        self.old: tuple[float, bytes] | None = None
        self.modified = now
        self.links = 0
        self.fifo: Fifo | None = None
        self.locked: Open | None = None

    def grown(self, now: float) -> None:
        self.steps.append((now, len(self.data)))
        if len(self.steps) > 64 and self.steps[32][0] < now - WRITE_BACK:
            self.safe, self.old = max(self.safe, self.steps[32][1]), None
            del self.steps[:33]

    def over(self, now: float) -> None:
        """It is about to be cut off or written over."""
        if self.old is None:
            self.old = now, bytes(self.data[:self.safe])
        self.safe, self.steps = 0, []

    def sync(self) -> None:
        self.safe, self.steps, self.old = len(self.data), [], None

    def after_cut(self, now: float, chance: random.Random) -> None:
        """What the disk has of it after the power was cut."""
        safe = max([self.safe] + [size for at, size in self.steps if at < now - WRITE_BACK])
        if self.old and self.old[0] < now - WRITE_BACK:
            self.old = None
        whole = bytes(self.data)
        if self.old and chance.random() < 0.5:
            kept = self.old[1]
        elif safe >= len(whole):
            kept = whole
        else:
            some = chance.randrange(safe, len(whole) + 1)
            noughts = chance.randrange(len(whole) - some + 1)
            kept = chance.choice((whole[:safe], whole[:some], whole[:some] + bytes(noughts)))
        self.data = bytearray(kept)
        self.sync()
        self.locked = None


class Folder:
    """Names of files. `changes` are those since the last sync: when, and names with their files."""

    def __init__(self, is_memory: bool) -> None:
        self.is_memory = is_memory
        self.names: dict[str, Inode] = {}
        self.safe: dict[str, Inode] = {}
        self.changes: list[tuple[float, dict[str, Inode | None]]] = []

    def put(self, now: float, change: dict[str, Inode | None]) -> None:
        """Gives names to files, or takes them away (None): all at once."""
        for name, inode in change.items():
            before = self.names.pop(name, None)
            if before:
                before.links -= 1
            if inode:
                self.names[name] = inode
                inode.links += 1
        self.changes.append((now, change))
        if len(self.changes) > 64 and self.changes[32][0] < now - WRITE_BACK:
            self._settle(33)

    def _settle(self, count: int) -> None:
        for _, change in self.changes[:count]:
            for name, inode in change.items():
                self.safe.pop(name, None)
                if inode:
                    self.safe[name] = inode
        del self.changes[:count]

    def sync(self) -> None:
        self._settle(len(self.changes))

    def after_cut(self, now: float, chance: random.Random) -> None:
        """Names come to the disk in their order, to some moment."""
        if self.is_memory:
            self.names, self.safe, self.changes = {}, {}, []
        old = sum(1 for one in self.changes if one[0] < now - WRITE_BACK)
        self._settle(chance.randint(old, len(self.changes)))
        self.changes = []
        self.names = dict(self.safe)
        for one in self.names.values():
            one.links = 1


class Disk:
    """All folders. `room` bytes are left on the disk; while it is frozen whoever writes waits."""

    def __init__(self, world: World, memory: tuple[str, ...]) -> None:
        self.world, self.memory = world, memory
        self.folders: dict[str, Folder] = {}
        self.serial = 0
        self.full = self.full_memory = False
        self.frozen = 0.0
        self.written = 0

    def folder(self, path: str) -> Folder:
        try:
            return self.folders[path]
        except KeyError:
            raise FileNotFoundError(2, "No such file or directory", path) from None

    def is_memory(self, path: str) -> bool:
        return path.startswith(self.memory)

    def split(self, path: str) -> tuple[Folder, str]:
        head, name = os.path.split(path)
        return self.folder(head), name

    def find(self, path: str) -> Inode | None:
        head, name = os.path.split(path)
        folder = self.folders.get(head)
        return folder.names.get(name) if folder else None

    def make_folder(self, path: str) -> None:
        if path not in self.folders:
            if path not in ("/", ""):
                self.make_folder(os.path.dirname(path))
            self.folders[path] = Folder(self.is_memory(path))

    def create(self, path: str, kind: str = "file", by_host: bool = False) -> Inode:
        """A new file. What others make (`by_host`) is on another disk."""
        folder, name = self.split(path)
        if not by_host and (self.full_memory if folder.is_memory else self.full):
            raise OSError(28, "No space left on device", path)
        self.serial += 1
        inode = Inode(self.serial, kind, self.world.realtime())
        if kind == "fifo":
            inode.fifo = Fifo(self.world)
        folder.put(self.world.now, {name: inode})
        return inode

    def inodes(self) -> Iterator[tuple[str, Inode]]:
        for path, folder in self.folders.items():
            for name, inode in folder.names.items():
                yield f"{path}/{name}", inode

    def cut(self, chance: random.Random) -> None:
        """The power is cut: what the disk has then."""
        now = self.world.now
        for folder in self.folders.values():
            folder.after_cut(now, chance)
        for _, inode in self.inodes():
            inode.after_cut(now, chance)

    def clear(self, path: str) -> None:
        """A folder in memory goes with its service."""
        for one in [one for one in self.folders if one == path or one.startswith(path + "/")]:
            del self.folders[one]


class OpenFile(Open):
    """A descriptor of a file."""

    def __init__(self, disk: Disk, inode: Inode, flags: int, path: str, on_state: bool) -> None:
        self.disk, self.inode, self.flags = disk, inode, flags
        self.place = 0
        self.on_state_disk, self.in_memory = on_state, disk.is_memory(path)

    def readable(self) -> bool:
        return True

    def read(self, most: int) -> bytes:
        found = self.read_at(most, self.place)
        self.place += len(found)
        return found

    def read_at(self, most: int, place: int) -> bytes:
        return bytes(self.inode.data[place:place + most])

    def write(self, data: bytes) -> int:
        inode, now = self.inode, self.disk.world.now
        if self.disk.full_memory if self.in_memory else self.disk.full and self.on_state_disk:
            if len(data) > 8 and self.disk.world.random.random() < 0.3:
                data = data[:len(data) // 2]
            else:
                raise OSError(28, "No space left on device")
        place = len(inode.data) if self.flags & os.O_APPEND else self.place
        if place < len(inode.data):
            inode.over(now)
        if place > len(inode.data):
            inode.data += bytes(place - len(inode.data))
        inode.data[place:place + len(data)] = data
        self.place = place + len(data)
        inode.grown(now)
        inode.modified = self.disk.world.realtime()
        if self.on_state_disk:
            self.disk.written += len(data)
        return len(data)

    def truncate(self, size: int) -> None:
        self.inode.over(self.disk.world.now)
        if size < len(self.inode.data):
            del self.inode.data[size:]
        else:
            self.inode.data += bytes(size - len(self.inode.data))
        self.inode.grown(self.disk.world.now)
        self.inode.modified = self.disk.world.realtime()

    def shut(self) -> None:
        if self.inode.locked is self:
            self.inode.locked = None
