"""A host for tests: its clocks go by `wait` alone, its processes are made up, its files, pipes and
sockets are real ones."""

import os
import select
import signal
import socket
import struct
import tomllib
from collections.abc import Callable, Iterable, Mapping, Sequence
from concurrent.futures import Future

from keeper import config
from keeper.ntp import EPOCH
from keeper.supervisor.host import Child
from keeper.supervisor.host import Host, Task, do

JOURNAL = "page 0 0 0 494e4954 0 0 0 0 1048576 0000000000000000 0 0\nstatus 0\n"


def dup(descriptor: int) -> int:
    return -1 if descriptor < 0 else os.dup(descriptor)


class Process:
    """A made-up process: it has copies of what it was handed."""

    def __init__(self, host: "FakeHost", words: Sequence[str], standard: tuple[int, int, int],
                 handed: Sequence[int], environment: Mapping[str, str]) -> None:
        self.host, self.words, self.environment = host, list(words), dict(environment)
        self.input, self.output = dup(standard[0]), dup(standard[1])
        self.handed = {one: dup(one) for one in handed}
        self.status: int | None = None
        self.frozen = False
        self.signals: list[int] = []

    def turn(self) -> None:
        """What it does of itself."""

    def end(self, status: int) -> None:
        if self.status is None:
            self.status = status
            for one in (self.input, self.output, *self.handed.values()):
                if one >= 0:
                    os.close(one)

    def kill(self, number: int) -> None:
        self.signals.append(number)
        if number == signal.SIGKILL or (number == signal.SIGTERM and not self.frozen):
            self.end(-number)


class Reporter(Process):
    """Reads all that it is told, and ends with it."""

    def turn(self) -> None:
        if self.status is not None or self.frozen:
            return
        os.set_blocking(self.input, False)
        try:
            while os.read(self.input, 65536):
                pass
            self.end(0)
        except BlockingIOError:
            pass


class Program(Process):
    """`serve` with links that are handed over. It has the time once it has read `needs` pulses."""

    def __init__(self, *words: object) -> None:
        super().__init__(*words)  # type: ignore[arg-type]
        self.needs, self.pulses = self.host.needs, 0
        self.heard: dict[int, int] = {}
        self.was_told: set[str] = set()
        station = self.handed[int(self.words[3].rpartition("/")[2])]
        self.station = tomllib.loads(os.read(station, 1 << 20).decode())
        self.feeds = [self.handed[int(one["log"].rpartition("/")[2])]
                      for one in self.station.get("radio", [])]
        for one in self.feeds:
            os.set_blocking(one, False)
        self.lines: list[bytes] = [b""] * len(self.feeds)
        told = [one.partition("=") for one in self.environment["RADIO_NTPD_SERVICE"].split(" ")]
        self.numbers = {name: self.handed[int(value)] for name, _, value in told
                        if name in ("ask", "go", "end")}
        links = [socket.socket(fileno=self.handed[int(value)]) for name, _, value in told
                 if name == "socket"]
        self.links = {one.getsockname()[1]: one for one in links}
        for link in links:
            link.setblocking(False)

    def told(self, name: str) -> bool:
        """Whether a signal was given; it stays so."""
        if name not in self.was_told and self.status is None:
            poll = select.poll()
            poll.register(self.numbers[name], select.POLLIN)
            if poll.poll(0):
                self.was_told.add(name)
        return name in self.was_told

    def has_time(self) -> bool:
        return self.pulses >= self.needs

    def turn(self) -> None:
        if self.status is not None or self.frozen:
            return
        for place, feed in enumerate(self.feeds):
            try:
                while piece := os.read(feed, 65536):
                    self.lines[place] += piece
            except BlockingIOError:
                pass
        self.pulses = sum(one.count(b"\n") for one in self.lines)
        if self.told("end"):
            self.print_journal()
        elif self.told("go"):
            for port, link in self.links.items():
                self.answer(port, link)

    def answer(self, port: int, link: socket.socket) -> None:
        while True:
            try:
                datagram, who = link.recvfrom(1024)
            except BlockingIOError:
                return
            self.heard[port] = self.heard.get(port, 0) + 1
            kind = (0x24, 1, 400, b"DCF\0") if self.has_time() else (0xE4, 0, 16 << 16, b"INIT")
            stamp = int((self.host.realtime() + EPOCH) * 2**32) % 2**64
            head = struct.pack(">BBBbII4sQ", *kind[:2], 6, -20, 0, *kind[2:], stamp)
            link.sendto(head + datagram[40:48] + struct.pack(">QQ", stamp, stamp), who)

    def print_journal(self) -> None:
        rows = "".join(
            f"link {place} answered {self.heard.get(one['port'], 0)} dropped 0 again 0 kissed 0 "
            f"unkept 0 end linkend\n" for place, one in enumerate(self.station.get("link", [])))
        os.write(self.output, (rows + JOURNAL).encode())
        self.end(0)

    def end(self, status: int) -> None:
        if self.status is None:
            for one in self.links.values():
                one.detach()
        super().end(status)


class FakeHost(Host):
    """`processes` are all that were started. `refuses` has an exception for each call that is to be
    refused. `said` are sentences, `told` messages for systemd."""

    def __init__(self) -> None:
        super().__init__()
        self.now, self.asleep, self.ahead = 50_000.0, 0.0, 1.7e9
        self.paused: float | None = None  # what the real-time clock went on alone (s)
        self.processes: list[Process] = []
        self.refuses: dict[str, Exception] = {}
        self.said: list[str] = []
        self.told: list[str] = []
        self.needs = 0
        self.known: dict[int, Process] = {}
        self.disk_hangs = False
        self.hanging: list[tuple[Task, Callable[[], None]]] = []

    def _refuse(self, call: str) -> None:
        if call in self.refuses:
            raise self.refuses[call]

    def monotonic(self) -> float:
        return self.now

    def boottime(self) -> float:
        return self.now + self.asleep

    def realtime(self) -> float:
        return self.now + self.asleep + self.ahead

    def rtc(self) -> int | None:
        return None if self.paused is None else int(self.realtime() + self.paused)

    def boot(self) -> str:
        return "a boot"

    def wait(self, readers: Iterable[int], seconds: float) -> set[int]:
        for one in self.processes:
            one.turn()
        found = super().wait(readers, 0)
        self.now += 0.0001 if found else max(0.0001, seconds)
        return found

    def aside(self, job: Callable[[], None]) -> Task:
        task: Task = Task()
        self.hanging.append((task, job))
        if not self.disk_hangs:
            self.disk_goes_on()
        return task

    def settings(self, path: str) -> Future[config.Settings]:
        self.judging: Future[config.Settings] = Future()
        if "settings" in self.refuses:
            self.judging.set_exception(self.refuses["settings"])
        return self.judging

    def disk_goes_on(self) -> None:
        self.disk_hangs = False
        while self.hanging:
            do(*self.hanging.pop(0))

    def spawn(self, words: Sequence[str], *, standard: tuple[int, int, int],
              handed: Sequence[int] = (), environment: Mapping[str, str] | None = None,
              gentle: bool = False) -> Child:
        self._refuse("spawn")
        kinds = {"serve": Program, "keeper.reporter": Reporter}
        kind = next((kinds[one] for one in words if one in kinds), Process)
        process = kind(self, words, standard, handed, environment or {})
        self.processes.append(process)
        self.known[len(self.processes)] = process
        return len(self.processes)

    def status(self, child: Child) -> int | None:
        return self.known[child].status

    def kill(self, child: Child, number: int) -> None:
        self.known[child].kill(number)

    def release(self, child: Child) -> None:
        self.known.pop(child).kill(signal.SIGKILL)

    def outlet(self) -> tuple[int, int]:
        self._refuse("outlet")
        return super().outlet()

    def client(self, own: str, port: int) -> int:
        self._refuse("client")
        return super().client(own, port)

    def bind(self, address: str, port: int) -> int:
        self._refuse("bind")
        return super().bind(address, port)

    def sync(self, what: int | str) -> None:
        self._refuse("sync")

    def notify(self, text: str) -> None:
        self.told.append(text)

    def programs(self) -> list[Program]:
        """The runs that live, in the order of their start."""
        return [one for one in self.processes if isinstance(one, Program) and one.status is None]

    def close_all(self) -> None:
        for one in self.processes:
            one.end(-9)
        os.close(self.life)
        os.close(self.alive)
