"""The bounds on time of checks/keeper.sh, and for how much of them a busy or a slow machine answers.

A bound is that of a quiet machine with a processor of the usual speed, times as many as this one is slower. To it comes what others' work
may add: at a change of run the keeper, the old server, the new one and the client wait for one another, so each may be stalled as
a bare echo server was, asked by the same client at the same rate. No bound grows beyond MOST, so a keeper that is silent for a second
is refused on any machine.

A case that fails for such a bound alone is run again, three times in all. What is wrong beside it is never excused.
"""

from collections.abc import Callable

from lab.kept import TooLate, Wrong
from lab.kept_machine import slowness

# Without an answer and without the time, in seconds. A planned change of run, as the guide for operators promises it:
CHANGE = (0.050, 0.100)
# A server that was killed: its end has to be seen, and the one that stands by has to begin while no old one answers.
KILLED = (0.250, 0.400)
# What goes on in one run loses nothing.
NOTHING = (0.0, 0.0)
# A flood that uses up a run's hearings: it has to be noticed first, by three requests without an answer, beside two processors' worth of flood.
FLOODED = 1.5
# A start with the last minutes at hand, in which several Python processes begin.
WARM, PYTHONS, LONGEST_START = 2.0, 3, 20.0
# Ten changes, each after three seconds: on a machine of which others have the most, each takes a quarter of a minute.
CHANGES = 300.0
# After the keeper has ended its processes are killed ones that the host has yet to take away.
GONE = 5.0

HANDED = 4  # parts that wait for one another at a change of run
MOST = 0.9
TRIES = 3
SLOW = slowness()


class Late:
    """The bounds that a case didn't keep, as sentences. It goes on after them, so that nothing else is overlooked."""

    def __init__(self) -> None:
        self.said: list[str] = []

    def due(self, took: float, bound: float, what: str) -> int:
        """One more thing looked at."""
        if took > bound:
            self.said.append(f"{what}: {took:.3f} s, bound {bound:.3f}")
        return 1

    def take(self) -> list[str]:
        said, self.said = self.said, []
        return said


LATE = Late()


def bound(usual: float, stalled: float, most: float = MOST) -> float:
    """A bound on this machine, where it stalled a part by so much at worst (all in seconds)."""
    return min(most, usual * SLOW + HANDED * stalled)


def attempt(case: Callable[[float], int], base: float) -> tuple[int, list[str]]:
    """A case once: how many things it has looked at, and what came too late. Raises Wrong for all else."""
    LATE.take()
    try:
        looked = case(base)
    except TooLate as late:
        return 0, [*LATE.take(), str(late)]
    return looked, LATE.take()


def tried(case: Callable[[float], int], base: float) -> int:
    """A case that comes too late is run again. Raises Wrong."""
    for turn in range(1, TRIES + 1):
        looked, late = attempt(case, base)
        if not late:
            return looked
        print(f"  {case.__name__}, try {turn} of {TRIES}, came too late: {'; '.join(late)}", flush=True)
    raise Wrong(f"it comes too late each time: {'; '.join(late)}")
