"""What each event of a history does to the machine."""

from collections.abc import Callable, Sequence

from checks.simulation.helpers import Reporter
from checks.simulation.history import Event
from checks.simulation.machine import LEAP, STATE, Machine
from checks.simulation.processes import Process
from checks.simulation.program import Run
from checks.simulation.radios import Receiver
from checks.simulation.refusals import OF_DISK

OFF = 20.0  # the power is off for so long (s)


def apply(machine: Machine, event: Event) -> None:
    """Does what an event says."""
    name, _, whom = event.kind.partition("-")
    special = SPECIAL.get(event.kind)
    lasts = float(event.more[-1]) if event.kind in LASTING else 0.0
    machine.judge.fault(str(event), lasts)
    machine.world.disturb()
    if special:
        special(machine, event.more)
    elif whom == "run":
        _each(machine.runs(True), name)
    elif whom == "next":
        _each(machine.runs(False), name)
        _sleeps(machine, machine.runs(False))
    elif whom == "receiver":
        found = machine.transmitter.receivers.get(int(event.more[0]))
        _each([found] if found and found.alive else [], name)
    elif whom == "reporter":
        _each([one for one in machine.processes if isinstance(one, Reporter) and one.alive], name)
    elif name == "hup":
        _reload(machine, whom)
    machine.judge.look()


def _each(processes: Sequence[Process], what: str) -> None:
    for one in processes:
        _harm(one, what)


def _sleeps(machine: Machine, runs: Sequence[Process]) -> None:
    """What is wrong with a run that stands by shows only where it is to serve: the fault is in
    force as long as the run lives."""
    fault = machine.judge.faults[-1]
    for one in runs:
        fault.ends = float("inf")
        one.when_ended.append(lambda: setattr(fault, "ends", machine.world.now))


def _harm(one: Process, what: str) -> None:
    if what == "kill":
        one.got(9)
    elif what == "die":
        one.end(one.world.random.choice((1, -11, -6, 5)))
    elif what == "stop":
        one.got(19)
    elif what == "stubborn":
        one.ignores_term, one.stopped = True, False
        setattr(one, "fault", "mute")
    elif what == "orphan":
        one.keeps_open = True
        one.end(1)
    elif what == "hang" and isinstance(one, Reporter):
        one.hang()
    elif what == "close" and isinstance(one, Receiver):
        one.close_output()
    elif what == "lag" and isinstance(one, Run):
        one.lag = one.world.random.uniform(0.2, 8.0)
    elif isinstance(one, Run):
        one.fault = {"spin": "spins", "deaf": "deaf"}[what]
        one.ignores_term = what == "spin"
    else:
        setattr(one, "fault", what)


def _reload(machine: Machine, how: str) -> None:
    machine.said = how
    radios = machine.transmitter.radios
    commands = [one for one in radios if one.kind == "command"]
    if how == "source" and commands:
        machine.version += 1
        one = machine.world.random.choice(commands)
        one.source = f"receiver {one.number} v{machine.version}"
        machine.judge.replaced(one.number)
        machine.settings = machine.make_settings()
    elif how == "swap" and len(commands) > 1:
        machine.version += 1
        first, second = commands[:2]
        first.source, second.source = (f"receiver {first.number} s{machine.version}",
                                       f"receiver {second.number} t{machine.version}")
        machine.judge.replaced(first.number)
        machine.judge.replaced(second.number)
        machine.settings = machine.make_settings()
    elif how == "cycle":
        machine.kind.cycle = 700 if machine.kind.cycle != 700 else 650
        machine.settings = machine.make_settings()
    if machine.kills:
        machine.kills.came.append(1)


def _kill(machine: Machine, more: tuple[str, ...]) -> None:
    host = machine.kills
    if host is None:
        return
    if more:
        host.fuse, host.blow, host.stands = int(more[0]), host.die, False
    else:
        host.die()


def _stand(machine: Machine, more: tuple[str, ...]) -> None:
    """The supervisor is stopped within a turn, after some calls, for so long."""
    host = machine.kills
    if host is None:
        return

    def now() -> None:
        host.stands = False
        machine.judge.stands = machine.world.now + float(more[1])
        machine.run_to(machine.judge.stands)

    host.fuse, host.blow, host.stands = int(more[0]), now, True


def _cut(machine: Machine, more: tuple[str, ...]) -> None:
    host = machine.kills

    def now() -> None:
        machine.judge.slept(OFF)
        machine.cut(OFF)
        if host:
            host.die()

    if more and host:
        host.fuse, host.blow, host.stands = int(more[0]), now, False
    else:
        now()


def _term(machine: Machine, more: tuple[str, ...]) -> None:
    if machine.kills:
        machine.kills.came.append(15)


def _term_twice(machine: Machine, more: tuple[str, ...]) -> None:
    _term(machine, more)
    machine.world.at(machine.world.random.uniform(0.0, 0.3), _term, machine, more)


def _sleep(machine: Machine, more: tuple[str, ...]) -> None:
    machine.world.sleep(float(more[0]), True)
    machine.judge.slept(float(more[0]))


def _jump(machine: Machine, more: tuple[str, ...]) -> None:
    machine.world.sleep(float(more[0]), False)
    machine.judge.jumped(float(more[0]))


def _set(machine: Machine, more: tuple[str, ...]) -> None:
    machine.world.set_by += float(more[0])


def _refuse(machine: Machine, more: tuple[str, ...]) -> None:
    call, code, likely, lasts = more
    if call in OF_DISK:
        _trouble(machine, float(lasts))
    until = machine.world.now + float(lasts)
    machine.refusals.begin(call, int(code), float(likely), until)
    machine.world.at(float(lasts), machine.refusals.end, call)


def _trouble(machine: Machine, lasts: float) -> None:
    """A disk is in trouble: what it should have isn't certain."""
    machine.judge.trouble_at = machine.world.now + lasts


def _full(machine: Machine, more: tuple[str, ...]) -> None:
    _trouble(machine, float(more[0]))
    machine.disk.full = True
    machine.world.at(float(more[0]), setattr, machine.disk, "full", False)


def _full_run(machine: Machine, more: tuple[str, ...]) -> None:
    """The runtime folder takes nothing."""
    _trouble(machine, float(more[0]))
    machine.disk.full_memory = True
    machine.world.at(float(more[0]), setattr, machine.disk, "full_memory", False)


def _freeze(machine: Machine, more: tuple[str, ...]) -> None:
    _trouble(machine, float(more[0]))
    machine.disk.frozen = machine.world.now + float(more[0])


def _slow(machine: Machine, more: tuple[str, ...]) -> None:
    _trouble(machine, float(more[0]) + 2.0)
    machine.slow = 1.5
    machine.world.at(float(more[0]), setattr, machine, "slow", 0.0)


def _late(machine: Machine, more: tuple[str, ...]) -> None:
    machine.world.late = max(machine.world.late, machine.world.now + float(more[0]))


def _program(machine: Machine, wrong: str, lasts: str) -> None:
    machine.program = wrong
    machine.world.at(float(lasts), setattr, machine, "program", "")


def _flood(machine: Machine, more: tuple[str, ...]) -> None:
    for port in machine.kind.ports:
        if port in machine.servers:
            server = machine.servers[port]
            server.set_rate(float(more[0]))
            machine.world.at(float(more[1]), server.set_rate, machine.kind.rate)


def _remove(machine: Machine, is_folder: bool) -> None:
    """Somebody removes logs, or their folder."""
    _trouble(machine, 0.0)
    folder = machine.disk.folders.get(f"{STATE}/logs")
    if folder:
        folder.put(machine.world.now, {name: None for name in folder.names})
        if is_folder:
            del machine.disk.folders[f"{STATE}/logs"]


def _leap_gone(machine: Machine, more: tuple[str, ...]) -> None:
    """The leap second file goes, and comes again."""
    folder, name = machine.disk.split(LEAP)
    inode = folder.names.get(name)
    if inode:
        folder.put(machine.world.now, {name: None})
        machine.world.at(float(more[0]), lambda: folder.put(machine.world.now, {name: inode}))


def _server(machine: Machine, how: str, lasts: str) -> None:
    """A server's answers come late, or are lost."""
    machine.server = how
    machine.world.at(float(lasts), setattr, machine, "server", "")


def _file(machine: Machine, more: tuple[str, ...], what: str) -> None:
    """A radio's file is replaced or made shorter; a FIFO's writer goes and comes."""
    writer = machine.transmitter.writers.get(int(more[0]))
    if writer is None:
        return
    inode = machine.disk.find(writer.path)
    if what == "leave" or writer.kind == "fifo" and what == "shorten":
        writer.leave(machine.world.random.choice((0.0, 0.5, 3.0)))
    elif what == "replace":
        writer.leave(0.0)
        machine.disk.create(writer.path, writer.kind, by_host=True)
    elif inode:
        inode.over(machine.world.now)
        inode.data.clear()


def _fade(machine: Machine, more: tuple[str, ...]) -> None:
    machine.transmitter.radios[int(more[0])].silent = machine.world.now + 10 * float(more[1])


LASTING = ("stand", "full", "freeze", "slow-disk", "late", "bad-program", "no-program", "full-run",
           "refuse", "flood", "leap-gone", "server-late", "server-lost")
SPECIAL: dict[str, Callable[[Machine, tuple[str, ...]], None]] = {
    "kill": _kill, "cut": _cut, "restart": _term, "term-late": _term_twice, "sleep": _sleep,
    "stand": _stand, "jump": _jump, "set": _set, "refuse": _refuse, "full": _full,
    "full-run": _full_run, "freeze": _freeze, "slow-disk": _slow, "late": _late, "flood": _flood,
    "fade": _fade,
    "bad-program": lambda machine, more: _program(machine, "bad", more[0]),
    "no-program": lambda machine, more: _program(machine, "missing", more[0]),
    "leap-gone": _leap_gone,
    "server-late": lambda machine, more: _server(machine, "late", more[0]),
    "server-lost": lambda machine, more: _server(machine, "lost", more[0]),
    "remove-logs": lambda machine, more: _remove(machine, True),
    "remove-log": lambda machine, more: _remove(machine, False),
    "leave": lambda machine, more: _file(machine, more, "leave"),
    "replace": lambda machine, more: _file(machine, more, "replace"),
    "shorten": lambda machine, more: _file(machine, more, "shorten"),
}
