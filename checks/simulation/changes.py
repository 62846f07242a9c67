"""Thousands of changes of run: descriptors, processes, files and memory stay where they were."""

import gc

from checks.simulation.history import History
from checks.simulation.machine import Kind
from checks.simulation.play import Maker, Play

CYCLE = 2  # of a run (s)
PULSES = ("Pulse", "Heard")
BEGIN = 60  # changes after which is counted first


class Changes(Play):
    """A history without a fault whose runs follow one another. `counts` has what there was at
    several moments: changes, descriptors, processes, open ends, files but journals, objects."""

    def __init__(self, maker: Maker, changes: int) -> None:
        kind = Kind(cycle=CYCLE)
        span = (BEGIN + changes) * (CYCLE + 0.2) + 20.0
        super().__init__(History(1, kind, span), maker)
        self.counts: list[tuple[int, ...]] = []
        for part in range(5):
            at = (BEGIN + changes * part / 4) * (CYCLE + 0.2)
            self.world.at(at, self._count)

    def _count(self) -> None:
        host, machine = self.machine.kills, self.machine
        gc.collect()
        files = [path for path, _ in machine.disk.inodes() if "/journals/" not in path]
        alive = [one for one in machine.processes if one.alive]
        self.counts.append((
            self.judge.kept.runs, len(host.table), len(alive),
            sum(one.holders for one in host.table.values()), len(files), self._objects()))

    def _objects(self) -> int:
        """Objects of the supervisor's own modules, but for the pulses of the last 15 minutes."""
        return sum(1 for one in gc.get_objects()
                   if type(one).__module__.startswith("keeper.supervisor")
                   and type(one).__name__ not in PULSES)

    def grown(self) -> list[str]:
        """What there is more of at the end than after the first changes."""
        first, last = self.counts[1], self.counts[-1]
        names = ("descriptors", "processes", "holders", "files", "objects")
        return [f"{name}: {before} after {first[0]} changes, {after} after {last[0]}"
                for name, before, after, more in zip(names, first[1:], last[1:], (6, 3, 12, 3, 40))
                if after > before + more]
