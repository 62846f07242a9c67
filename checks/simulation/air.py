"""What is on the air: seconds of the true time, as pulses whose every line is known again.

A pulse's width is its number, so that whoever reads a line can say of which radio, source, boot
and second it is.
"""

from dataclasses import dataclass

from checks.simulation.world import World

FIRST, MANY = 100_000, 1_800_000  # widths from the first on tell pulses apart (us)
KEPT = 4000  # pulses of a radio that are known again


@dataclass
class Mark:
    """A pulse that was received. `offset` is the true time less the monotonic clock (s). `off`: how
    late it was received (us). `row`: as many were delivered in a row up to it."""

    radio: int
    source: str
    epoch: int
    second: int
    at: float
    offset: float
    start: int
    off: int = 0
    row: int = 0


class Air:
    """All pulses that were received, by their widths."""

    def __init__(self, world: World) -> None:
        self.world = world
        self.marks: dict[int, Mark] = {}
        self.serial = 0

    def line(self, radio: int, source: str, second: int, ago: float,
             late: float = 0.0) -> tuple[bytes, Mark]:
        """The line of a pulse that began this many seconds ago, and was received late (s)."""
        width = FIRST + self.serial % MANY
        self.serial += 1
        off = round(late * 1e6)
        start = round((self.world.monotonic() - ago) * 1e6) + off
        mark = Mark(radio, source, self.world.epoch, second, self.world.now,
                    self.world.offset(), start, off)
        self.marks[width] = mark
        if len(self.marks) > 4 * KEPT:
            for one in list(self.marks)[:KEPT]:
                del self.marks[one]
        return b"%d %d\n" % (max(0, start), width), mark

    def known(self, width: int) -> Mark | None:
        return self.marks.get(width)
