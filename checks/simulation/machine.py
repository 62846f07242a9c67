"""The machine around the supervisor: its disk, sockets, processes, radios and files, and systemd
that starts it again. What lives on when the supervisor is killed lives here."""

import dataclasses
from collections.abc import Mapping, Sequence
from typing import Any

from checks.simulation import helpers, processes
from checks.simulation.air import Air
from checks.simulation.disk import Disk
from checks.simulation.judge import Judge
from checks.simulation.opened import Open
from checks.simulation.polls import OPERATORS
from checks.simulation.program import Run
from checks.simulation.radios import BATCH, Radio, Receiver, Transmitter, Writer
from checks.simulation.refusals import Refusals
from checks.simulation.sockets import Server
from checks.simulation.world import World
from keeper.config import Radio as RadioSettings
from keeper.config import Settings
from keeper.errors import Fault

STATE, RUNTIME, FEEDS = "/var/lib/radio", "/run/radio", "/srv/radio"
PROGRAM, LEAP = "/usr/bin/radio_ntpd", f"{FEEDS}/leap"
JITTER = 0.015  # how early or late marks are at most that are steadied (s)
CALM = 4.0  # after so long without a disturbance, and before the next one, time is passed over (s)
BUSY, SOME = 1.0, 0.1  # after so long already, a little of it (s)
FAR = 1e9


@dataclasses.dataclass
class Kind:
    """What a station is like: its radios' kinds of source, its ports, and its keeper.toml."""

    radios: tuple[str, ...] = ("command",)
    ports: tuple[int, ...] = (5123,)
    cycle: int = 600
    stall: int = 60
    handed_over: bool = True
    rate: float = 5.0  # requests of clients a second, on each port
    extras: tuple[str, ...] = ()  # `servers`, `steady`, `leap`: what the station has besides


class Machine:
    """All but the supervisor. `planned` has the moments of the faults to come, in their order."""

    def __init__(self, seed: int, kind: Kind) -> None:
        self.world = World(seed)
        self.kind = kind
        self.judge = Judge(self.world, self)
        self.disk = Disk(self.world, ("/run",))
        self.air = Air(self.world)
        self.transmitter = Transmitter(self.world, self.air, self.disk, self.judge)
        self.refusals = Refusals(self.world.random)
        self.servers: dict[int, Server] = {}
        self.processes: list[processes.Process] = []
        self.pids = 1000
        self.program = ""  # what is wrong with the program's file
        self.planned: list[float] = []
        self.version = 0
        self.said = ""  # how the next reload is judged
        self.server = ""  # its answers: "late" or "lost"
        self.kills: Any = None  # the supervisor's own process
        self.given_up = False  # its loop spins: there is nothing more to see
        self.slow = 0.0  # how long a job of the disk takes (s)
        for path in (STATE, FEEDS, "/run", "/etc/radio"):
            self.disk.make_folder(path)
        for number, source in enumerate(kind.radios):
            path = f"{FEEDS}/{number}"
            radio = Radio(number, source, f"receiver {number} a" if source == "command" else path)
            self.transmitter.radios.append(radio)
            if source != "command":
                self.disk.create(path, source)
                self.transmitter.writers[number] = Writer(self.world, self.disk, radio, path)
        if "leap" in kind.extras:
            self.disk.create(LEAP, by_host=True)
        self.transmitter.jitter = JITTER if "steady" in kind.extras else 0.0
        self.settings = self.make_settings()
        self.transmitter.batch = lambda: max(1, min(BATCH, int(self.calm())))
        if kind.handed_over:
            self.hand_over()
        self.transmitter.again = kind.stall + 75.0
        self.transmitter.start()

    def hand_over(self) -> None:
        """systemd binds the sockets, and has them for as long as the host runs."""
        for port in self.kind.ports:
            self.servers[port] = Server(self.world, port, self.kind.rate)
            self.servers[port].take()

    def calm(self) -> float:
        """For how long time may be passed over, since nothing happened for a while and nothing is
        about to (s)."""
        now = self.world.now
        if now - self.world.disturbed < BUSY:
            return 0.0
        while self.planned and self.planned[0] < now:
            self.planned.pop(0)
        ahead = self.planned[0] - now if self.planned else FAR
        if now - max(self.world.disturbed, self.judge.lasts) < CALM:
            return SOME
        return max(SOME, ahead - CALM)

    def run_to(self, when: float) -> None:
        """Lets time pass to a moment. The judge looks at each change."""
        while self.world.next_due() <= when:
            self.world.step()
            self.judge.look()
        self.world.run_to(when)

    # The files that the operator writes

    def make_settings(self) -> Settings:
        """What both files say now. A radio's `delay` tells which source it is."""
        rows, radios = [], []
        for one in self.transmitter.radios:
            tag = self.judge.tag(one.source)
            rows.append({"plan": "dcf", "log": "x", "delay": tag})
            radios.append(RadioSettings(
                kind=one.kind, value=one.source, name=f"radio {one.number}",
                stall=float(self.kind.stall), plan="dcf", delay=tag / 1e6,
                steady="steady" in self.kind.extras))
        ports = list(self.kind.ports)
        text: dict[str, Any] = {"bound": 1000, "radio": rows,
                                "link": [{"port": port} for port in ports]}
        servers = [("192.0.2.7", 123)] if "servers" in self.kind.extras else []
        if servers:
            text["server"] = [{"address": "192.0.2.7", "polls": OPERATORS}]
        leap = LEAP if "leap" in self.kind.extras else None
        if leap:
            text["leap_file"] = leap
        values: dict[str, Any] = {
            "path": "/etc/radio/keeper.toml", "station": "/etc/radio/station.toml", "text": text,
            "program": PROGRAM, "folder": STATE, "runtime": RUNTIME, "cycle": self.kind.cycle,
            "days": 30, "pace": 16, "radios": radios, "links": ports, "servers": servers,
            "denied": [], "gap": 0.0, "bound": 1.0, "leap_file": leap, "room": 1 << 30}
        known = {one.name for one in dataclasses.fields(Settings)}
        return Settings(**{key: value for key, value in values.items() if key in known})

    def judged(self) -> tuple[Settings | Exception | None, float]:
        """What a reload's judge finds, None where it hangs; and after how long."""
        after = self.world.random.uniform(0.1, 1.5)
        if self.said == "hang":
            return None, after
        if self.said == "bad":
            return Fault("/etc/radio/keeper.toml: cycle: 1 isn't within 2 to 604800", 78), after
        return ValueError("junk") if self.said == "junk" else self.settings, after

    # Processes

    def spawn(self, words: Sequence[str], table: dict[int, Open],
              environment: Mapping[str, str]) -> processes.Process:
        made: processes.Process
        if words[0] == PROGRAM and words[1] == "serve":
            service = environment.get("RADIO_NTPD_SERVICE", "")
            made = Run(self.world, words, table, service, self.air, self.judge)
            if self.program:
                made = processes.Dull(self.world, words, table)
        elif words[-1].startswith("receiver "):
            made = Receiver(self.world, words, table, self.transmitter)
        else:
            made = helpers.Reporter(self.world, words, table)
        self.pids += 1
        made.pid = self.pids
        self.processes = [one for one in self.processes if not one.is_gone] + [made]
        self.world.disturb()
        self.judge.spawned()
        made.begin()
        return made

    def runs(self, serving: bool) -> list[Run]:
        """The programs that run and serve, or stand by."""
        return [one for one in self.processes if isinstance(one, Run) and one.alive
                and one.served == serving and not one.is_ending]

    # The power

    def cut(self, off: float) -> None:
        """The power is cut, and comes back after this many seconds."""
        self.judge.before_cut()
        for one in self.processes:
            one.when_ended = []
            if isinstance(one, Run):
                one.printed = one.served = False
                one.fault = "spins"
            one.end(-9)
            one.let_go()
        self.disk.frozen = 0.0
        self.disk.cut(self.world.random)
        self.disk.clear("/run/radio")
        self.servers.clear()
        if self.kind.handed_over:
            self.hand_over()
        self.judge.after_cut()
        for writer in self.transmitter.writers.values():
            writer.open = None
            if writer.kind == "fifo":
                self.disk.create(writer.path, "fifo", by_host=True)
        self.world.reboot(off)
