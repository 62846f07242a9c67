"""Calls that the host refuses for a while: each call that makes something, and each of a disk."""

import errno
import os
import random

ROOM = (errno.EMFILE, errno.ENFILE, errno.ENOMEM)
DISK = (errno.EIO, errno.ENOSPC, errno.EACCES, errno.EROFS)
CAUSES: dict[str, tuple[int, ...]] = {
    "spawn": (errno.EMFILE, errno.ENOMEM, errno.EAGAIN, errno.EACCES, errno.ENOENT),
    "outlet": ROOM, "inlet": ROOM, "pair": ROOM,
    "bind": (errno.EADDRINUSE, errno.EACCES, errno.EMFILE, errno.ENOBUFS),
    "client": (errno.EMFILE, errno.ENOBUFS, errno.EADDRNOTAVAIL),
    "send": (errno.ENOBUFS, errno.EPERM, errno.ENETDOWN),
    "open": (errno.EMFILE, errno.ENFILE, *DISK),
    "read_file": (errno.EIO,), "write_file": (errno.EIO, errno.ENOSPC), "read_at": (errno.EIO,),
    "truncate": (errno.EIO,), "sync": (errno.EIO, errno.ENOSPC),
    "sync_folder": (errno.EIO, errno.EMFILE), "stat": (errno.EACCES, errno.EIO),
    "fstat": (errno.EIO,), "names": (errno.EMFILE, errno.EACCES, errno.EIO),
    "rename": (errno.ENOSPC, errno.EIO), "remove": (errno.EIO, errno.EROFS),
    "make_folder": (errno.ENOSPC, errno.EACCES), "boot": (errno.EMFILE, errno.ENFILE),
    "lock": (errno.ENOLCK,),
}
OF_DISK = frozenset(("open", "read_file", "write_file", "read_at", "truncate", "sync",
                     "sync_folder", "stat", "fstat", "names", "rename", "remove", "make_folder"))


class Refusals:
    """What is refused now: by call its cause, how likely, and until when."""

    def __init__(self, chance: random.Random) -> None:
        self.chance = chance
        self.calls: dict[str, tuple[int, float, float]] = {}

    def begin(self, call: str, code: int, likely: float, until: float) -> None:
        self.calls[call] = code, likely, until

    def end(self, call: str) -> None:
        self.calls.pop(call, None)

    def ask(self, call: str, now: float) -> None:
        """Raises OSError where the call is refused."""
        found = self.calls.get(call)
        if found is None:
            return
        code, likely, until = found
        if now > until:
            del self.calls[call]
        elif self.chance.random() < likely:
            raise OSError(code, os.strerror(code))
