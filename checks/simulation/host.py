"""The simulated host, as `keeper.supervisor.host.Host` describes it, for one supervisor's life."""

import heapq
from collections import deque
from collections.abc import Callable, Iterable, Mapping, Sequence
from concurrent.futures import Future

from checks.simulation.host_links import HostLinks
from checks.simulation.machine import Machine
from checks.simulation.processes import Process
from checks.simulation.world import Killed
from keeper.config import Settings
from keeper.errors import Fault
from keeper.supervisor.host import Child, Task, do

TURN = 0.0251  # the loop waits no longer (s)
TURNS = 3000  # in a second; more is a loop that spins
LEAST = 0.00005  # what a wait takes at least (s)
PASSED_OVER = 1.9  # at most, in calm times: less than any limit of the supervisor (s)
SHORT = 0.02  # a wait up to here is for something that is due (s)
PERMITTED = 30.0  # how often systemd wants to be told (s)


class SimHost(HostLinks):
    """One supervisor's process: its descriptors, its children, its jobs. `fuse` counts the calls
    down after which `blow` is done."""

    watchdog = PERMITTED

    def __init__(self, machine: Machine) -> None:
        super().__init__(machine)
        self.family: dict[int, tuple[Process, bool]] = {}
        self.came: list[int] = []
        self.given: deque[tuple[Task, Callable[[], None]]] = deque()
        self.works = False
        self.second, self.turns = 0, 0
        self.pinged = self.world.now
        machine.kills = self

    # Clocks

    def monotonic(self) -> float:
        return self.world.monotonic()

    def boottime(self) -> float:
        return self.world.boottime()

    def realtime(self) -> float:
        return self.world.realtime()

    def rtc(self) -> int | None:
        return self.world.rtc()

    def boot(self) -> str:
        self.enter("boot")
        return self.world.boot()

    # Waiting

    def wait(self, readers: Iterable[int], seconds: float) -> set[int]:
        self.enter("wait")
        world = self.world
        watched = [(one, self.at(one)) for one in set(readers)]
        if seconds > TURN:
            self.judge.found("the loop waits too long", f"{seconds:.3f} s")
        self._count()
        self.machine.run_to(max(world.now + LEAST, min(world.late, world.now + 60.0)))
        until = world.now + max(0.0, seconds - LEAST)
        if seconds > SHORT and world.next_due() > world.now + SHORT:
            until = max(until, world.now + min(PASSED_OVER, self.machine.calm()))
        world.changed = True
        while True:
            if world.changed:
                world.changed = False
                found = {one for one, opened in watched if opened.readable()}
                if found:
                    break
            if world.next_due() > until:
                world.now = until
                break
            world.step()
            if self.gone:
                raise Killed
            self.judge.look()
            if world.now == world.disturbed:
                until = min(until, world.now + max(0.0, seconds))
        self.judge.look()
        return found

    def _count(self) -> None:
        """Turns in this second, and whether systemd still hears of us."""
        if int(self.world.now) != self.second:
            self.second, self.turns = int(self.world.now), 0
        self.turns += 1
        if self.turns > TURNS:
            self.judge.found("the loop spins", f"{TURNS} turns in a second")
            self.machine.given_up = True
            raise Killed
        if self.world.now - self.pinged > 2 * PERMITTED:
            self.judge.found("systemd isn't told for long", f"{self.world.now - self.pinged:.0f} s")
            self.pinged = self.world.now

    def signals(self) -> list[int]:
        came, self.came = self.came, []
        return came

    def aside(self, job: Callable[[], None]) -> Task:
        self.enter("aside")
        task: Task = Task()
        self.given.append((task, job))
        if not self.works:
            self._plan()
        return task

    def _plan(self) -> None:
        self.works = True
        self.world.at(self.machine.slow or self.world.random.uniform(0.001, 0.02), self._work)

    def _work(self) -> None:
        if self.gone:
            return
        frozen = self.machine.disk.frozen - self.world.now
        if frozen > 0:
            self.world.at(frozen + 0.001, self._work)
            return
        task, job = self.given.popleft()
        self.in_job = True
        do(task, job)
        self.in_job = False
        if isinstance(task.exception(), Killed):
            raise Killed
        self.world.changed = True
        self.works = False
        if self.given:
            self._plan()

    def settings(self, path: str) -> Future[Settings]:
        task: Future[Settings] = Future()
        try:
            self.enter("spawn")
        except OSError as error:
            task.set_exception(Fault(f"the files can't be judged: {error.strerror}"))
            return task
        found, after = self.machine.judged()
        if isinstance(found, Exception):
            self.world.at(after, task.set_exception, found)
        elif found:
            self.world.at(after, task.set_result, found)
        return task

    # Processes

    def spawn(self, words: Sequence[str], *, standard: tuple[int, int, int],
              handed: Sequence[int] = (), environment: Mapping[str, str] | None = None,
              gentle: bool = False) -> Child:
        self.enter("spawn")
        if self.machine.program == "missing" and words[0].startswith("/usr"):
            raise FileNotFoundError(2, "No such file or directory", words[0])
        given = [(place, one) for place, one in enumerate(standard) if one not in (-1, 2)]
        given += [(one, one) for one in handed]
        table = {place: self.at(one).take() for place, one in given}
        process = self.machine.spawn(words, table, environment or {})
        self.family[process.pid] = process, gentle
        return process.pid

    def status(self, child: Child) -> int | None:
        process = self.family[child][0]
        return None if process.alive else process.status

    def kill(self, child: Child, number: int) -> None:
        self.enter("kill")
        if child not in self.family:
            self.judge.found("a signal to what was released", str(child))
            return
        self.family[child][0].got(number)

    def release(self, child: Child) -> None:
        self.enter("release")
        process, _ = self.family.pop(child)
        process.got(9)

    # systemd

    def notify(self, text: str) -> None:
        self.pinged = self.world.now

    # Its end

    def die(self) -> None:
        """The process is gone, whatever the way: all that it had open is closed."""
        if self.gone:
            return
        self.gone = True
        self.machine.kills = None
        for process, gentle in self.family.values():
            if not gentle:
                process.got(15)
            self.world.at(2.0 if gentle else 1.0, process.got, 9)
        for one in list(self.table.values()):
            one.drop()
        self.table.clear()
        heapq.heapify(self.free)
        self.world.disturb()
