"""A machine with the package, its receiver and a client outside: what each case begins with."""

import time
from collections.abc import Sequence
from dataclasses import dataclass, field
from pathlib import Path
from types import TracebackType

from checks.machine.client import Client, Judged
from checks.machine.image import image
from checks.machine.modem import POLL, Modem
from checks.machine.receiver import LATE, Figures, Line, Receiver, log_before
from checks.machine.vm import Fitting, Machine, accelerated
from lab.held import Wrong
from lab.kept import base_now

STATION = 'bound = 1000\n[[radio]]\nplan = "dcf"\nlog = "x"\ndelay = {delay}\n[[link]]\nport = 123\n'
KEEPER = """station = "station.toml"
state = "/var/lib/radio_ntpd"
runtime = "/run/radio_ntpd"
[[radio]]
command = "/opt/machine/radio.sh {number} {port} {feeders}"
steady = true
"""
# Five whole minutes and what is left of the first: with a bound of 1000 the fourth verdict gives the time.
MINUTES = 380.0
BEFORE = 800.0  # of pulses that a receiver is given from before its first edge, in seconds
TIME = 900.0  # a machine that stalls may lose some minutes, in seconds
FEEDERS = "/usr/lib/radio_ntpd/feeders"
PACKAGE, SOURCES = "/root/radio-ntpd.deb", "/root/sources.tar"


@dataclass
class Result:
    """What a case found: sentences with figures, and those that say what is wrong."""

    figures: list[str] = field(default_factory=list)
    faults: list[str] = field(default_factory=list)

    def need(self, holds: bool, what: str) -> None:
        """A figure, which is a fault where it is out of its bound."""
        (self.figures if holds else self.faults).append(what)
        print(f"    {'held' if holds else 'WRONG'}: {what}", flush=True)

    def right(self, name: str, answers: list[Judged]) -> None:
        """Needs some answers, and none of them wrong."""
        wrong = [one for one in answers if one.is_wrong]
        errors = sorted(one.error for one in answers if one.has_time)
        told = f"off by {errors[0] * 1e3:+.1f} to {errors[-1] * 1e3:+.1f} ms" if errors else "none with the time"
        self.need(bool(answers) and not wrong, f"{name}: {len(answers)} answers, {len(wrong)} wrong, {told}")


class Trial:
    """One machine for a case, with fittings, and with these files as disks: the package, and the sources. Its own files are in `work`. It
    ends with the `with`. With a modem its receiver moves DCD of a serial port.
    """

    def __init__(self, drives: list[Path], work: Path, fittings: Sequence[Fitting] = ()) -> None:
        self.drives, self.work, self.fittings, self.result = drives, work, fittings, Result()
        self.modem = next((one for one in fittings if isinstance(one, Modem)), None)
        self.feeders = FEEDERS
        self.servers = ""  # that its station has, as its file says it
        # UTC at the zero of the monotonic clock outside: fixed once, so that no step moves it.
        self.base = base_now()
        self.receiver: Receiver | None = None
        self.clients: list[Client] = []
        self.sources = 0  # that the keeper was given

    def __enter__(self) -> "Trial":
        self.machine = Machine(image(self.work), self.work, self.drives, self.fittings)
        try:
            self.say(f"the machine is up after {self.machine.start():.0f} s, by {'KVM' if accelerated() else 'software emulation'}")
            self.receiver = Receiver(self.modem or Line(self.work / "line"), self.base)
        except BaseException:
            self.machine.cut()
            raise
        return self

    def __exit__(self, kind: type[BaseException] | None, error: BaseException | None, trace: TracebackType | None) -> None:
        for client in self.clients:
            client.close()
        if self.receiver is not None:
            self.receiver.close()
        self.machine.cut()
        if self.modem is not None:
            self.modem.close()
        # The disk is as large as a case lets it grow; what a case needs of it was read before.
        for name in ("disk", "beneath"):
            (self.work / name).unlink(missing_ok=True)

    def say(self, text: str) -> None:
        """A line about how far it is, with the true time."""
        print(f"  {time.strftime('%H:%M:%S', time.gmtime(time.monotonic() + self.base))} {text}", flush=True)

    def mode(self, name: str = "") -> Figures:
        """How the receiver goes on, where it is named. Returns what became of the edges since it was asked last."""
        return self.receiver.mode(name) if self.receiver is not None else Figures()

    def client(self, rate: float = 10) -> Client:
        """A client outside, which asks from now on. The one before it ends."""
        while self.clients:
            self.clients.pop().close()
        self.clients.append(Client(self.work / "ntp", self.base, rate))
        self.clients[-1].start()
        return self.clients[-1]

    def bring(self, path: str = PACKAGE) -> None:
        """Puts one of its two files, the package or the sources, into the machine, which has it as a disk. Raises Wrong."""
        number = (PACKAGE, SOURCES).index(path)
        size = self.drives[number].stat().st_size
        self.machine.must(f"head -c {size} /dev/vd{'bc'[number]} > {path}")

    def port(self) -> str:
        """What its receiver lies on."""
        return "serial" if self.modem else "gpio"

    def install(self) -> None:
        """The package, with a station of this line, where it isn't there yet. Raises Wrong."""
        if self.sources:
            return
        self.bring()
        self.machine.must(f"dpkg --install {PACKAGE}", 400)
        late = LATE + (POLL / 2 if self.modem else 0)
        self.machine.put("/etc/radio_ntpd/station.toml", STATION.format(delay=round(late * 1e6)) + self.servers)
        self.settle()

    def settle(self) -> None:
        """Writes the keeper's file, each time with another source: what was received before isn't read back. Raises Wrong."""
        self.machine.put("/etc/radio_ntpd/keeper.toml", KEEPER.format(number=self.sources, port=self.port(), feeders=self.feeders))
        self.sources += 1

    def receive(self) -> None:
        """Starts the service anew, with a receiver that has received since the machine's clock began, at most for BEFORE seconds."""
        past = log_before("dcf", time.monotonic() + self.base, BEFORE, self.machine.ahead() - self.base)
        name = "/run/radio_ntpd/before"
        self.settle()
        self.machine.must("install -d -o radio_ntpd -g radio_ntpd /run/radio_ntpd")
        self.machine.put(name, past)
        self.machine.must(f"chown radio_ntpd {name} && systemctl enable radio_ntpd && systemctl restart radio_ntpd", 200)

    def served(self) -> Client:
        """The package's service is started. Returns a client that has got the time. Raises Wrong."""
        self.install()
        time.sleep(max(0.0, self.machine.booted + MINUTES - time.monotonic()))
        self.receive()
        client = self.client()
        self.say(f"the time came {self.time(client, 120):.0f} s after the service")
        return client

    def time(self, client: Client, within: float = TIME) -> float:
        """Waits until the client gets the time. Returns after how long (s). Raises Wrong."""
        began = time.monotonic()
        if not client.waits(lambda one: one.has_time, within):
            raise Wrong(f"no time after {within:.0f} s. {self.fair()} {self.status()}")
        return time.monotonic() - began

    def fair(self) -> str:
        """What the host gave the machine, and what became of the line's edges since it was asked last."""
        return f"{self.machine.starving()} The line: {self.mode().text()}."

    def status(self) -> str:
        """What `radio_keeper status` says."""
        told = self.machine.ask("radio_keeper status", 60)
        return str(told["text"]).strip() if told else "status gives no answer"

    def level(self) -> str:
        """The word that `radio_keeper status` begins with."""
        return self.status().partition(":")[0]

    def journal(self, lines: int = 4) -> str:
        """The last lines of the unit's log."""
        told = self.machine.ask(f"journalctl -u radio_ntpd -n {lines} -o cat --no-pager", 60)
        return " / ".join(str(told["text"]).splitlines()) if told else "journalctl gives no answer"
