"""The modem lines of a machine's second serial port, a 16550: DCD is moved from outside. QEMU has a terminal at the port, which has no
such lines, and asks for them a hundred times a second; a small library answers that.
"""

import mmap
import os
from pathlib import Path

from checks.machine.image import run
from checks.machine.receiver import Figures

SOURCE = Path(__file__).with_name("modem.c")
POLL = 0.01  # how often QEMU asks, and so by how much at most an edge comes late, in seconds


class Modem:
    """One port. Its files are in a folder. It is a line of the receiver: `move` puts DCD on or off."""

    def __init__(self, folder: Path) -> None:
        self.library, self.state = folder / "modem.so", folder / "modem"
        run("gcc", "-O2", "-Wall", "-shared", "-fPIC", "-o", self.library, SOURCE, "-ldl")
        self.ends = os.openpty()
        self.terminal = Path(os.ttyname(self.ends[1]))
        self.state.write_bytes(b"L")
        with open(self.state, "r+b") as file:
            self.held = mmap.mmap(file.fileno(), 1)
        self.figures = Figures()
        self.level: bool | None = False

    def words(self) -> list[str]:
        """QEMU's arguments."""
        return ["-chardev", f"serial,id=modem,path={self.terminal}", "-device", "isa-serial,chardev=modem"]

    def environment(self) -> dict[str, str]:
        """What QEMU has in its environment."""
        return {"LD_PRELOAD": str(self.library), "DCD": str(self.state)}

    def hear(self) -> None:
        """Nothing is confirmed."""

    def move(self, level: bool) -> None:
        """Puts DCD on or off."""
        self.figures.moved += level != self.level
        self.level = level
        self.held[0] = ord("H" if level else "L")

    def close(self) -> None:
        """Gives the terminal back."""
        for end in self.ends:
            os.close(end)
