"""One keeper for a state folder: a lock on a file in it that nobody else may open, or hold."""

import errno
import os

from keeper.supervisor.host import Host
from keeper.errors import Fault

NAME = "keeper.lock"
FULL = (errno.ENOSPC, errno.EDQUOT, errno.EROFS)


def take(host: Host, folder: str) -> int:
    """The lock's descriptor. The host gives it back when the keeper ends, however that is. Raises
    Fault where another keeper has it, and OSError."""
    path, how = os.path.join(folder, NAME), os.O_RDWR | os.O_CREAT | os.O_NOFOLLOW
    try:
        descriptor = host.open(path, how, 0o600)
    except OSError as error:
        if error.errno not in FULL:
            raise
        # On a disk that takes nothing clients are served all the same.
        descriptor = host.open(folder, os.O_RDONLY | os.O_DIRECTORY)
    try:
        host.lock(descriptor)
    except BlockingIOError as error:
        host.close(descriptor)
        raise Fault(f"another keeper has {folder}") from error
    return descriptor


def is_taken(folder: str) -> bool:
    """Whether a keeper has this folder, by the host's list of locks, which everybody may read."""
    try:
        inode = str(os.lstat(os.path.join(folder, NAME)).st_ino)
        with open("/proc/locks", encoding="ascii") as file:
            locks = [words for words in map(str.split, file) if len(words) > 5]
    except OSError:
        return False
    return any((one[1], one[3], one[5].rpartition(":")[2]) == ("FLOCK", "WRITE", inode)
               for one in locks)
