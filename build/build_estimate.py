"""How long a build of crates still takes: by their lines, by what the proved ones took, and by what has to wait for what.

On a machine on which `tick_units` takes 44 s, with two builds side by side, the seconds of 56 crates were fitted by their lines.
"""

# The seconds that a line took there on one processor, and how many lines that are seen in a build weigh as much as that.
SECONDS_A_LINE, WEIGHT = 0.025, 10000
# A line that a crate stands on is loaded, which takes this part of its time; the program also has the code of all lines made.
LOADED, CODE = 0.045, 0.04
# Processors wait for one another: so much longer the whole takes.
SPREAD = 1.25
# A crate that takes longer than its lines say still takes this part of it.
LAST = 0.1


def sizes_of(below: dict[str, list[str]], lines: dict[str, int]) -> dict[str, float]:
    """Returns in lines how large the work on each crate is, with what it loads. `below` are the crates in order, each with those that
    it stands on; the last one is the program."""
    all_below: dict[str, set[str]] = {}
    sizes: dict[str, float] = {}
    for name, libraries in below.items():
        all_below[name] = set(libraries).union(*(all_below[library] for library in libraries))
        sizes[name] = lines[name] + LOADED * sum(lines[library] for library in all_below[name])
    program = next(reversed(below))
    sizes[program] += CODE * sum(lines.values())
    return sizes


class Estimate:
    """The crates of a build, when they were begun, and what those that are proved took. Moments are seconds of one clock."""

    def __init__(self, below: dict[str, list[str]], sizes: dict[str, float], processors: int):
        self.below, self.sizes, self.processors = below, sizes, processors
        self.begun: dict[str, float] = {}
        self.waiting = set(below)
        self.seen_size = self.seen_seconds = 0.0

    def begin(self, names: set[str], now: float) -> None:
        """These crates are being proved."""
        for name in names & self.waiting:
            self.begun.setdefault(name, now)

    def end(self, name: str, now: float) -> None:
        """A crate is proved. One that was kept was never begun, and says nothing of how long the others take."""
        self.waiting.discard(name)
        if name in self.begun:
            self.seen_size += self.sizes[name]
            self.seen_seconds += now - self.begun.pop(name)

    def left(self, now: float) -> float:
        """Returns about how many seconds are left: those of the longest chain of crates, or of all on all processors."""
        pace = self._pace(now)
        total = 0.0
        chains: dict[str, float] = {}
        for name, libraries in self.below.items():
            own = self._own(name, pace, now)
            total += own
            chains[name] = own + max((chains[library] for library in libraries), default=0.0)
        return max(SPREAD * total / self.processors, *chains.values())

    def _pace(self, now: float) -> float:
        """Returns the seconds that a line takes, by what was seen. Of a crate that is in hand for longer than its lines say, LAST is
        taken to be left: so the pace changes with each second, and not only when the crate is proved."""
        size, seconds = WEIGHT + self.seen_size, SECONDS_A_LINE * WEIGHT + self.seen_seconds
        due = seconds / size
        for name, since in self.begun.items():
            whole = (now - since) / (1 - LAST)
            if whole > due * self.sizes[name]:
                size += self.sizes[name]
                seconds += whole
        return seconds / size

    def _own(self, name: str, pace: float, now: float) -> float:
        """Returns the seconds that a crate still takes."""
        if name not in self.waiting:
            return 0.0
        whole = self.sizes[name] * pace
        return max(whole - (now - self.begun.get(name, now)), whole * LAST)
