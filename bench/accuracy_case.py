"""One case of accuracy.py: a receiver in software, a keeper of it, and the clients that judge."""

import pathlib
import shutil
import signal
import statistics
import subprocess
import time
from typing import NamedTuple

from bench.chrony import Reading, chrony_readings, tracking
from lab import receiver
from lab.client import ask
from lab.kept import Kept
from lab.packets import UNIX, WHOLE
from lab.program import TOP, program

FEEDERS = TOP / "feeders"

QUICK = 0.001  # an exchange that took longer, in seconds, was kept waiting by the host's other work, and says nothing of the server's time
AFTER = 180  # for how long after a fade clients may be told of a page without the drift in it, in seconds
LONGER = 120  # for how long a receiver goes on after the end, in seconds, so that the keeper doesn't start it again
HISTORY = 12  # minutes of pulses that a receiver gives at once as it begins
JUDGE = "server 127.0.0.1 port {port} noselect minpoll 0 maxpoll 0\nlogdir {folder}\nlog measurements\n"
BRIDGED = "refclock SOCK {folder}/radio.sock refid DCF poll 4 filter 1 precision 1e-3 delay 0.01\n"
OWN = "port 0\ncmdport 0\nbindcmdaddress {folder}/cmd\npidfile {folder}/pid\n"


class Plan(NamedTuple):
    """What is run. Times are in seconds since the beginning, `jitter` in milliseconds, `outliers` a share of 1."""

    plan: str
    seconds: int
    jitter: float
    outliers: float
    fade: tuple[int, int]
    change: int


def chronyd(folder: pathlib.Path, text: str) -> subprocess.Popen | None:
    """Starts a chronyd that touches no clock, in a folder of its own; None where it isn't installed."""
    if not shutil.which("chronyd"):
        return None
    folder.mkdir(mode=0o700)
    (folder / "conf").write_text((text + OWN).format(folder=folder))
    words = ["chronyd", "-x", "-u", "root", "-d", "-f", str(folder / "conf")]
    return subprocess.Popen(words, stdout=subprocess.DEVNULL, stderr=(folder / "said").open("w"))


class Case:
    """A receiver whose pulses a keeper gives to a server, and chrony_sock.py to a chronyd of its own."""

    def __init__(self, plan: Plan, steady: bool, ppm: float, seed: int, since: tuple[float, float], folder: pathlib.Path) -> None:
        """`since` says which UTC, in seconds since 1970, a moment of the monotonic clock had."""
        self.plan, self.steady, self.ppm, self.since, self.folder = plan, steady, ppm, since, folder
        folder.mkdir()
        self.pulses = folder / "pulses.log"
        self.pulses.touch()
        keys = f"command = '''{self.command(seed)}'''\nstall = 86400\n" + ("steady = true\n" if steady else "")
        self.kept = Kept([(plan.plan, keys)], station="bound = 16000")
        self.readings: list[Reading] = []
        self.bridged: list[Reading] = []
        self.children: list[subprocess.Popen] = []
        self.judge: subprocess.Popen | None = None  # the chronyd that asks the server
        self.other: subprocess.Popen | None = None  # the chronyd that has the pulses by its socket

    def command(self, seed: int) -> str:
        """The receiver and its feeder, for the keeper's file. The pulses go into a file too."""
        plan = self.plan
        words = ["--plan", plan.plan, "--form", "edges", "--live", plan.seconds + LONGER, "--history", HISTORY]
        words += ["--jitter", plan.jitter, "--outliers", plan.outliers, "--ppm", self.ppm, "--seed", seed]
        words += ["--since", "{!r},{!r}".format(*self.since), "--fade", "{}:{}".format(*plan.fade)]
        return f"{' '.join(receiver.command(*words))} | {FEEDERS / 'edges_to_log.py'} | tee {self.pulses}"

    def start(self) -> None:
        bridge = self.folder / "bridge"
        self.judge = chronyd(self.folder / "judge", JUDGE.replace("{port}", str(self.kept.port)))
        self.other = chronyd(bridge, BRIDGED)
        self.children += [child for child in (self.judge, self.other) if child]
        if self.other:
            log = self.pipe(["tail", "-n", "+1", "-f", self.pulses], None)
            if self.steady:
                log = self.pipe([FEEDERS / "steady.py"], log.stdout)
            decode = self.pipe([program(), "decode", "--plan", self.plan.plan, "--log", "/dev/stdin"], log.stdout)
            self.pipe([FEEDERS / "chrony_sock.py", bridge / "radio.sock"], decode.stdout)
        self.kept.start()
        self.kept.waits(" serves ")

    def pipe(self, words: list, source) -> subprocess.Popen:
        """Starts a program that reads from this source and writes into a pipe."""
        child = subprocess.Popen([str(word) for word in words], stdin=source or subprocess.DEVNULL, stdout=subprocess.PIPE)
        if source:
            source.close()
        self.children.append(child)
        return child

    def change(self) -> None:
        """Has the keeper end its run and begin another."""
        self.kept.process.send_signal(signal.SIGHUP)

    def look(self) -> None:
        """Asks the chronyd that has the pulses by its socket, and the server itself where no chronyd does."""
        if self.other:
            self.bridged += tracking(self.folder / "bridge" / "cmd")
        if not self.judge and (answer := ask(self.kept.port, 0.3)) is not None and answer.has_time:
            unix = time.time() - time.monotonic() + (answer.left + answer.came) / 2
            took = answer.came - answer.left
            self.readings.append(Reading(unix, answer.header.transmit / WHOLE - UNIX - unix, answer.distance + took / 2, took))

    def end(self) -> None:
        """Ends all that was started, and takes what the judge has written; the keeper's files come into the case's folder."""
        try:
            if self.kept.process:
                self.kept.stop()
        finally:
            for child in reversed(self.children):
                child.terminate()
                child.wait()
            shutil.copytree(self.kept.folder, self.folder / "keeper", dirs_exist_ok=True)
            self.kept.__exit__()
        if self.judge:
            self.readings = chrony_readings(self.folder / "judge" / "measurements.log")

    def error(self, reading: Reading) -> float:
        """By how much a reading is off what the receiver's sender sent then, in seconds."""
        return reading.offset - (reading.unix - self.since[1]) * (1 / (1 + self.ppm * 1e-6) - 1)

    def name(self) -> str:
        return f"{'steady' if self.steady else 'raw':6} {self.ppm:4g}"

    def stretches(self) -> list[str]:
        """What clients of the server saw before the fade, in it, soon after it, up to the change of run, and after that."""
        fade, change, end = self.plan.fade, self.plan.change, self.plan.seconds
        ends = (("before the fade", 30, fade[0]), ("in the fade", *fade), ("soon after it", fade[1], fade[1] + AFTER), ("later", fade[1] + AFTER, change), ("after the change", change, end))
        rows = []
        for name, first, past in ends:
            seen = [(self.error(one), one.distance) for one in self.readings if first <= one.unix - self.since[1] < past and one.took < QUICK]
            if seen:
                error, said = max(seen, key=lambda one: abs(one[0]))
                within = sum(abs(error) <= distance for error, distance in seen) / len(seen)
                mean = statistics.mean(error for error, _ in seen)
                rows.append(f"{self.name()} {name:16} {1000 * mean:8.2f} {1000 * error:7.2f} {1000 * said:9.1f} {100 * within:7.1f}")
        return rows

    def row(self, name: str, readings: list[Reading], begin: float, every: float) -> str:
        """What clients saw from `begin` on, asking once in `every` seconds."""
        seen = [(self.error(one), one.distance) for one in readings if one.unix >= begin and one.took < QUICK]
        answered = sum(one.unix >= begin for one in readings)
        what = f"{name:6} {self.name()}"
        if len(seen) < 2:
            return f"{what}  no time"
        errors = [error for error, _ in seen]
        within = sum(abs(error) <= distance for error, distance in seen) / len(seen)
        share = answered * every / (self.plan.seconds - (begin - self.since[1]))
        return (
            f"{what} {1000 * statistics.mean(errors):8.2f} {1000 * statistics.pstdev(errors):7.2f} {1000 * max(abs(one) for one in errors):7.2f}"
            f" {100 * within:7.1f} {100 * min(1, share):9.1f} {100 * len(seen) / answered:6.1f}"
        )
