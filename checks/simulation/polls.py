"""The servers that a run asks: four times at first, then once in `pace`; what they answer, and
whether they may be asked now."""

from typing import TYPE_CHECKING

if TYPE_CHECKING:
    from checks.simulation.program import Run

FIRST, APART = 4, 2.0  # requests at first, and how far apart (s)
TAKEN, LATE = 0.03, 3.0  # how long an answer takes; one that is late is taken no more (s)
ENOUGH = 3  # answers that a run has before it serves
ASKS = 15.0  # a run asks for so long at most before it serves (s)
SETTLED, LONG = 60.0, 130.0  # without a fault; a reload may wait a minute before it is taken (s)
OPERATORS = 8  # `polls` of the operator's own station file


class Polls:
    """One run's requests to one server."""

    def __init__(self, run: "Run", polls: int, pace: float) -> None:
        self.run, self.left, self.pace = run, polls, pace
        self.sent = self.answers = 0
        self.since: float | None = None

    def begin(self) -> None:
        """The run was told to ask, or to serve."""
        if self.since is None:
            self.since = self.run.world.now
            self._ask()

    def is_calm(self, seconds: float = SETTLED) -> bool:
        judge = self.run.judge
        return self.run.world.now - max(judge.lasts, judge.started_at) > seconds

    def _ask(self) -> None:
        run = self.run
        if run.is_held() or run.is_ending or self.since is None:
            return
        if not self.left:
            run.judge.found("a run's polls are used up", str(run))
            return
        if not run.served and run.world.now - self.since > ASKS and self.is_calm():
            run.judge.found("a run that stands by asks servers", str(run))
        self.left, self.sent = self.left - 1, self.sent + 1
        how = run.judge.machine.server
        if how != "lost":
            run.world.at(LATE if how == "late" else TAKEN, self._answered, how == "late")
        run.world.at(APART if self.sent < FIRST else self.pace, self._ask)

    def _answered(self, is_late: bool) -> None:
        self.answers += not is_late

    def serves(self) -> None:
        """The run serves from now on, by a change without a fault. After a flood that is at once,
        and at a reload that isn't put off."""
        judge = self.run.judge
        is_due = self.is_calm(LONG) and not any("flood" in one.kind for one in judge.faults)
        if is_due and judge.kept.runs and self.answers < ENOUGH:
            judge.found("a run serves without its servers' answers", str(self.run))
