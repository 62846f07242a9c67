"""A keeper of a station of receivers in software, and clients that ask it."""

import json
import os
import pathlib
import shlex
import shutil
import signal
import subprocess
import sys
import tempfile
import time
from collections.abc import Callable

from lab import receiver
from lab.client import free_port
from lab.program import TOP, program

PLANS = ("dcf", "msf", "wwvb")
FOREVER = 10**7  # that a receiver in software goes on, in seconds
WAIT = 30.0  # for what has to come, on a busy machine, in seconds


class Wrong(Exception):
    """Something isn't as it should be."""


class TooLate(Wrong):
    """What has to come didn't come in time."""


def base_now() -> float:
    """What the host's clock is ahead of the monotonic one (s), by the shortest of some readings."""
    readings = []
    for _ in range(200):
        before, clock, after = time.monotonic(), time.time(), time.monotonic()
        readings.append((after - before, clock - (before + after) / 2))
    return min(readings)[1]


def parent_of(process: int) -> tuple[int, str]:
    """The parent of a process and its state; (0, Z) where it is gone."""
    try:
        words = pathlib.Path(f"/proc/{process}/stat").read_text().rpartition(")")[2].split()
    except OSError:
        return 0, "Z"
    return int(words[1]), words[0]


def descendants(process: int) -> list[int]:
    """The processes that this one has started, and those that these have."""
    parents = {int(one.name): parent_of(int(one.name))[0] for one in pathlib.Path("/proc").glob("[0-9]*")}
    found = [process]
    for one in found:
        found += [child for child, parent in parents.items() if parent == one]
    return found[1:]


def radio(plan: str, base: float, history: int = 15, more: str = "") -> str:
    """The command of a receiver in software that begins with the last minutes. `base`: UTC less the monotonic clock, in seconds."""
    words = receiver.command("--plan", plan, "--live", FOREVER, "--since", f"0,{base!r}", "--history", history, *more.split())
    return f"exec {shlex.join(words)}"


class Kept:
    """A keeper of a station in a folder of its own. `radios` are the tables of its file, plan and keys."""

    RATE = 200  # of its clients' requests, a second

    def __init__(self, radios: list[tuple[str, str]], top: str = "", station: str = "") -> None:
        self.port = free_port()
        self.folder = pathlib.Path(tempfile.mkdtemp(prefix="kept."))
        rows = "".join(f'[[radio]]\nplan = "{plan}"\nlog = "x"\n' for plan, _ in radios)
        (self.folder / "station.toml").write_text(f"{station}\n{rows}[[link]]\nport = {self.port}\n")
        tables = "".join(f"[[radio]]\n{keys}\n" for _, keys in radios)
        (self.folder / "keeper.toml").write_text(f'station = "station.toml"\n{top}\n{tables}')
        self.child: subprocess.Popen | None = None
        self.clients: list[Asking] = []

    def __enter__(self) -> "Kept":
        return self

    def __exit__(self, *_: object) -> None:
        """Nothing of it stays, whatever happened."""
        for client in self.clients:
            client.process.kill()
            client.process.wait()
        self.kill()
        shutil.rmtree(self.folder)

    @property
    def process(self) -> subprocess.Popen:
        """The keeper. Raises Wrong where it wasn't started."""
        if self.child is None:
            raise Wrong("the keeper wasn't started")
        return self.child

    def client(self, base: float, rate: float = RATE) -> "Asking":
        """A client that asks its link."""
        self.clients.append(Asking(self.port, base, rate))
        return self.clients[-1]

    def start(self) -> None:
        words = [str(TOP / "radio_keeper"), "run", "--config", str(self.folder / "keeper.toml")]
        self.said_at = (self.folder / "said").stat().st_size if (self.folder / "said").exists() else 0
        with open(self.folder / "said", "ab") as said:
            self.child = subprocess.Popen(words, stdin=subprocess.DEVNULL, stdout=said, stderr=said, env={**os.environ, "RADIO_NTPD": program()})

    def text(self) -> str:
        """What it has said since it was started last."""
        return (self.folder / "said").read_bytes()[self.said_at :].decode()

    def waits(self, what: str, seconds: float = WAIT, times: int = 1) -> None:
        """Waits until it has said this `times` times."""
        end = time.monotonic() + seconds
        while self.text().count(what) < times:
            if self.process.poll() is not None:
                raise Wrong(f"the keeper has ended with {self.process.returncode}: {self.text()}")
            if time.monotonic() > end:
                raise TooLate(f"the keeper doesn't say {what!r} within {seconds} s: {self.text()}")
            time.sleep(0.02)

    def waits_for(self, holds: Callable[[dict], bool], seconds: float = WAIT) -> None:
        """Waits until this holds of its state, which it renews every ten seconds."""
        end = time.monotonic() + seconds
        while not holds(self.state()):
            if time.monotonic() > end:
                raise TooLate(f"its state says {self.state()} after {seconds} s: {self.text()}")
            time.sleep(0.1)

    def state(self) -> dict:
        return json.loads((self.folder / "state/state.json").read_text())

    def journals(self) -> list[pathlib.Path]:
        """In the order in which they were written."""
        return sorted((self.folder / "state/journals").glob("*.journal"), key=lambda one: one.stat().st_mtime_ns)

    def serving(self) -> int:
        """The process that serves."""
        return json.loads((self.folder / "state/service.json").read_text())["run"]["pid"]

    def stop(self, wait: float = 60) -> int:
        """SIGTERM, and its exit status."""
        self.process.send_signal(signal.SIGTERM)
        try:
            return self.process.wait(wait)
        except subprocess.TimeoutExpired as error:
            raise Wrong(f"the keeper doesn't end within {wait} s: {self.text()}") from error

    def kill(self) -> None:
        if self.child and self.child.poll() is None:
            self.child.kill()
            self.child.wait()


class Asking:
    """A client beside: `look` gives what it has met so far, `report` ends it and gives all. Both raise Wrong where it has ended by itself."""

    def __init__(self, port: int, base: float, rate: float, seconds: float = 100_000) -> None:
        words = [sys.executable, "-B", "-m", "lab.kept_client", str(port), str(seconds), str(rate), repr(base)]
        self.process = subprocess.Popen(words, stdout=subprocess.PIPE, cwd=TOP)

    def look(self) -> dict:
        self.process.send_signal(signal.SIGUSR1)
        assert self.process.stdout
        return self._told(self.process.stdout.readline())

    def report(self) -> dict:
        self.process.send_signal(signal.SIGTERM)
        return self._told(self.process.communicate(timeout=30)[0])

    def _told(self, line: bytes) -> dict:
        if not line:
            raise Wrong(f"the client has ended by itself, with {self.process.wait()}")
        return json.loads(line)
