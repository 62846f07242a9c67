"""Files that are whole or not there, and the names of days."""

import contextlib
import errno
import logging
import os
import time
from collections.abc import Iterator

from keeper.supervisor.host import Host

PIECE = 1 << 16  # bytes that are read or written in one go
PART = ".part"

log = logging.getLogger(__name__)


class Note:
    """Says where something begins to be refused, and where it goes on again. `text` is said as
    long as it is refused."""

    def __init__(self, refused: str, again: str) -> None:
        self.refused, self.again, self.text = refused, again, ""

    def take(self, why: str) -> None:
        """Why it is refused now, nothing where it isn't."""
        before, self.text = self.text, f"{self.refused}: {why}" if why else ""
        if why and not before:
            log.error("%s", self.text)
        elif before and not why:
            log.info("%s", self.again)


def written(what: str) -> Note:
    return Note(f"{what} can't be written", f"{what} can be written again")


def why(fault: BaseException | None) -> str:
    """What a job raised; nothing where it raised nothing."""
    return getattr(fault, "strerror", None) or str(fault) if fault else ""


def day_of(unix: float) -> str:
    """The day of UTC of a moment (Unix s)."""
    return time.strftime("%Y%m%d", time.gmtime(unix))


@contextlib.contextmanager
def opened(host: Host, path: str, flags: int, mode: int = 0o640) -> Iterator[int]:
    """A file's descriptor. Raises OSError."""
    descriptor = host.open(path, flags, mode)
    try:
        yield descriptor
    finally:
        host.close(descriptor)


def read_all(host: Host, path: str, most: int, from_end: bool = False) -> bytes:
    """A file's bytes: at most `most` of its beginning, or of its end. Raises OSError."""
    with opened(host, path, os.O_RDONLY | os.O_NOFOLLOW) as descriptor:
        size = host.stat(descriptor).st_size
        place, pieces = max(0, size - most) if from_end else 0, []
        end = min(size, place + most)
        while place < end and (piece := host.read_at(descriptor, min(PIECE, end - place), place)):
            pieces.append(piece)
            place += len(piece)
        return b"".join(pieces)


def write_all(host: Host, descriptor: int, data: bytes) -> None:
    """Writes all of it. Raises OSError where the disk takes less."""
    place = 0
    while place < len(data):
        wrote = host.write(descriptor, data[place:place + PIECE])
        if not wrote:
            raise OSError(errno.ENOSPC, os.strerror(errno.ENOSPC))
        place += wrote


def put(host: Host, path: str, data: bytes, mode: int = 0o644, sync: bool = True) -> None:
    """Puts a file in its place: whole, or not at all. Raises OSError, and then leaves nothing."""
    part = path + PART
    remove_any(host, part)  # of one that was killed, or somebody else's link
    try:
        flags = os.O_WRONLY | os.O_CREAT | os.O_EXCL | os.O_NOFOLLOW
        with opened(host, part, flags, mode) as descriptor:
            write_all(host, descriptor, data)
            if sync:
                host.sync(descriptor)
        host.rename(part, path)
    except OSError:
        with contextlib.suppress(OSError):
            host.remove(part)
        raise
    if sync:
        host.sync(os.path.dirname(path))


def remove_any(host: Host, path: str) -> None:
    with contextlib.suppress(FileNotFoundError):
        host.remove(path)


def whole(text: bytes) -> bytes:
    """A log without what a power cut left at its end: zeros, or half a line."""
    text = text.partition(b"\0")[0]
    return text[:text.rfind(b"\n") + 1]
