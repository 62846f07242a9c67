"""Processes: what they have open, how they end, what signals do to them."""

import signal
from collections.abc import Callable, Sequence

from checks.simulation.opened import Open
from checks.simulation.world import World

ENDS_SOON = 0.002  # how soon a process that got a signal is gone (s)


class Process:
    """A leader of a group. `table` has its descriptors by their numbers.

    `ignores_term`: SIGTERM does nothing. `stopped`: it was sent SIGSTOP, and does nothing until
    SIGCONT. `keeps_open`: what it started has its descriptors after it, until its group is
    killed."""

    ignores_term = False
    keeps_open = False

    def __init__(self, world: World, words: Sequence[str], table: dict[int, Open]) -> None:
        self.world, self.words, self.table = world, list(words), table
        self.pid = 0
        self.alive = True
        self.status: int | None = None
        self.stopped = False
        self.ended_at = 0.0
        self.is_gone = False  # its group too
        self.born = world.now
        self.when_ended: list[Callable[[], None]] = []

    def begin(self) -> None:
        """It runs from now on."""

    def is_held(self) -> bool:
        return self.stopped or not self.alive

    def got(self, number: int) -> None:
        """A signal to its group."""
        if number == signal.SIGKILL:
            self.end(-signal.SIGKILL)
            self.let_go()
        elif number == signal.SIGSTOP:
            self.stopped = True
            self.world.disturb()
        elif number == signal.SIGCONT:
            if self.stopped:
                self.stopped = False
                self.world.disturb()
                self.resumed()
        elif number in (signal.SIGTERM, signal.SIGINT) and not self.ignores_term:
            self.world.at(ENDS_SOON, self._by_signal, number)

    def _by_signal(self, number: int) -> None:
        if self.stopped:
            return  # it is taken once it goes on; nothing here waits for that
        self.keeps_open = False
        self.end(-number)

    def resumed(self) -> None:
        """It goes on after SIGCONT."""

    def end(self, status: int) -> None:
        if not self.alive:
            return
        self.alive, self.status, self.ended_at = False, status, self.world.now
        self.world.disturb()
        if not self.keeps_open:
            self.let_go()
        for one in self.when_ended:
            one()

    def let_go(self) -> None:
        """Closes all that it has open."""
        if not self.is_gone:
            self.is_gone = True
            table, self.table = self.table, {}
            for one in table.values():
                one.drop()


class Dull(Process):
    """A program that can't be run to any use: it ends at once with 127."""

    def begin(self) -> None:
        self.world.at(0.005, self.end, 127)
