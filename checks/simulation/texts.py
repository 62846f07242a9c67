"""What the program writes: replies, and its journal."""

import struct
from collections.abc import Sequence

from checks.simulation.world import UNIX
from lab.grammar import page_of_none

NTP = 2_208_988_800  # from 1900 to 1970 (s)


def reply_of(offset: float | None, monotonic: float, asked: bytes) -> bytes:
    """A reply to a request: with the time, or without it where the offset isn't known."""
    shift = 0.0 if offset is None else offset + UNIX + NTP
    now = int((shift + monotonic) * 2**32) % 2**64
    first, stratum, word = (0x24, 1, b"DCF\0") if offset is not None else (0xE4, 0, b"INIT")
    head = struct.pack(">BBBbII4sQ", first, stratum, 6, -20, 0, 328, word, now)
    return head + asked[40:48] + struct.pack(">QQ", now, now)


def journal_of(pid: int, hearings: Sequence[float]) -> bytes:
    """The journal of a run: its first line tells which."""
    lines = [f"j2 1 0 0 {pid} verdict 3976257900 0"]
    lines += [f"link {place} answered {int(count)} dropped 0 again 0 kissed 0 unkept 0 end linkend"
              for place, count in enumerate(hearings)]
    lines += [page_of_none(1), "status 0", ""]
    return "\n".join(lines).encode()
