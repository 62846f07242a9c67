"""Plays a history: the supervisor over the simulated host, which systemd starts again."""

import logging
from collections.abc import Callable
from typing import Protocol

from checks.simulation import faults
from checks.simulation.history import History
from checks.simulation.host import SimHost
from checks.simulation.judge import Finding
from checks.simulation.machine import RUNTIME, Machine
from checks.simulation.world import Killed
from keeper.config import Settings
from keeper.errors import Fault

AGAIN = 1.0  # after which systemd starts it again (s)
CALM = 100.0  # without a fault before the end (s)
ENDS = 15.0  # within which it ends then (s)
OPEN, EACH = 12, 5  # descriptors that it has at most: its own, and for each radio


class Turns(Protocol):
    """What is played: `keeper.supervisor.supervisor.Supervisor`, or a test's own."""

    status: int

    def begin(self) -> None: ...

    def turn(self) -> bool: ...


Maker = Callable[[SimHost, Settings], Turns]


class Sentences(logging.Handler):
    """Takes what the supervisor says. An exception that nobody foresaw is a finding."""

    def __init__(self, machine: Machine) -> None:
        super().__init__()
        self.judge = machine.judge

    def emit(self, record: logging.LogRecord) -> None:
        self.judge.said(record.levelno, record.getMessage())
        fault = record.exc_info[1] if record.exc_info else None
        if fault is not None:
            last = fault.__traceback__
            while last and last.tb_next:
                last = last.tb_next
            where = f"{last.tb_frame.f_code.co_qualname}:{last.tb_lineno}" if last else "?"
            self.judge.found("an exception that nobody foresaw", f"{fault!r} in {where}")


class Play:
    """One history. `findings` has what the judge found; `turns` counts the loop's rounds."""

    def __init__(self, history: History, maker: Maker) -> None:
        self.history, self.maker = history, maker
        self.machine = Machine(history.seed, history.kind)
        self.world, self.judge = self.machine.world, self.machine.judge
        self.turns = self.starts = 0
        self.is_stopped = self.was_killed = False
        for event in history.events:
            self.world.at(event.at, faults.apply, self.machine, event)
        self.machine.planned = [event.at for event in history.events] + [history.ends]
        self.world.at(history.ends, self._stop)
        self.last = history.ends + CALM + ENDS

    @property
    def findings(self) -> list[Finding]:
        return self.judge.findings

    def _stop(self) -> None:
        """The faults are over: what they left is mended, and the end is asked for after a while."""
        self.machine.program, self.machine.disk.full = "", False
        self.machine.disk.full_memory = False
        self.machine.refusals.calls.clear()
        self.machine.disk.frozen = self.machine.slow = 0.0
        self.world.at(CALM, self._term)
        self.machine.planned = [self.world.now + CALM]

    def _term(self) -> None:
        self.is_stopped = True
        if self.machine.kills:
            count = len(self.machine.kills.table)
            if count > OPEN + EACH * len(self.machine.kind.radios):
                self.judge.found("descriptors are left", f"{count} are open")
        self.judge.fault("the end")
        self.judge.is_over = True
        if self.machine.kills:
            self.machine.kills.came.append(15)

    def run(self) -> "Play":
        """Plays it to its end."""
        handler = Sentences(self.machine)
        keeper = logging.getLogger("keeper")
        keeper.addHandler(handler)
        keeper.propagate, keeper.level = False, logging.INFO
        try:
            while self.world.now < self.last and not self.is_stopped:
                self._live()
                if self.machine.given_up:
                    return self
                self.machine.run_to(min(self.last, self.world.now + AGAIN))
        finally:
            keeper.removeHandler(handler)
        self._after()
        return self

    def _live(self) -> None:
        """One life of the supervisor's process."""
        host = SimHost(self.machine)
        self.starts += 1
        self.judge.started()
        try:
            supervisor = self.maker(host, self.machine.settings)
            supervisor.begin()
            host.begun = True
            while self.world.now < self.last:
                self.turns += 1
                if not supervisor.turn():
                    break
            else:
                self.judge.found("it doesn't end", f"within {ENDS} s of SIGTERM")
            self._ended(supervisor.status)
        except Killed:
            self.was_killed = True
        except (OSError, Fault) as error:
            if host.begun:
                self.judge.found("an exception leaves the loop", repr(error))
        except Exception as error:
            self.judge.found("an exception leaves the loop", repr(error))
        host.die()

    def _ended(self, status: int) -> None:
        """It ended by itself."""
        if not any("restart" in one.kind or "term" in one.kind or one.kind == "the end"
                   for one in self.judge.faults):
            self.judge.found("it ended by itself", f"status {status}")
        if status not in (0, 1):
            self.judge.found("its exit status", str(status))

    def _after(self) -> None:
        """What is left once all has ended."""
        self.machine.run_to(self.world.now + 5.0)
        alive = [one for one in self.machine.processes if one.alive]
        if alive:
            self.judge.found("processes are left", str([one.words[:2] for one in alive]))
        self.judge.kept.journals("at the end")
        self.judge.kept.logs()
        for path, _ in self.machine.disk.inodes():
            if any("refuse remove" in one.kind for one in self.judge.faults):
                break
            was_cut = self.was_killed or self.judge.kept.cuts > 0
            is_part = path.endswith(".part") and not was_cut
            if is_part or path.startswith(RUNTIME) and path.endswith(".out"):
                self.judge.found("a file is left", path)


def play(history: History, maker: Maker) -> Play:
    return Play(history, maker).run()
