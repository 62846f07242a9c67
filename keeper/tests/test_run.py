"""`radio_keeper run` as its user has it, over a stand-in of the program."""

import json
import os
import pathlib
import signal
import socket
import struct
import subprocess
import sys
import tempfile
import time
import unittest
from collections.abc import Callable

TOP = pathlib.Path(__file__).resolve().parent.parent.parent
PROGRAM = TOP / "keeper/tests/fake_program.py"
RECEIVER = """import sys, time
shift, second = time.time() - time.monotonic(), int(time.time()) - 300
while True:
    if second > time.time():
        time.sleep(max(0, second - time.time()) + 0.1)
    print(int((second - shift) * 1e6), 100000, flush=True)
    second += 1
"""
# Hands a bound socket over as systemd does, and goes on as the keeper.
HAND = """import os, socket, sys
link = socket.socket(socket.AF_INET, socket.SOCK_DGRAM)
link.bind(("0.0.0.0", int(sys.argv[1])))
if link.fileno() != 3:
    os.dup2(link.fileno(), 3)
os.set_inheritable(3, True)
os.environ.update(LISTEN_PID=str(os.getpid()), LISTEN_FDS="1")
os.execv(sys.argv[2], sys.argv[2:])
"""


def ask(port: int) -> tuple[int, int] | None:
    """The leap indicator and the stratum of an answer, None where none comes."""
    with socket.socket(socket.AF_INET, socket.SOCK_DGRAM) as client:
        client.settimeout(3)
        client.connect(("127.0.0.1", port))
        try:
            client.send(bytes([0x23, 0, 6, 0xEC]) + bytes(36) + struct.pack(">Q", 7))
            said = client.recv(1024)
        except OSError:
            return None
        return said[0] >> 6, said[1]


def children(parent: int) -> list[int]:
    """The processes below one, as /proc has them."""
    found = []
    for name in os.listdir("/proc"):
        if name.isdigit():
            try:
                stat = pathlib.Path(f"/proc/{name}/stat").read_text().rpartition(")")[2].split()
            except OSError:
                continue
            if int(stat[1]) == parent and stat[0] != "Z":
                found += [int(name), *children(int(name))]
    return found


class Kept(unittest.TestCase):
    def setUp(self) -> None:
        folder = tempfile.TemporaryDirectory()
        self.addCleanup(folder.cleanup)
        self.folder = pathlib.Path(folder.name)
        with socket.socket(socket.AF_INET, socket.SOCK_DGRAM) as trial:
            trial.bind(("127.0.0.1", 0))
            self.port = trial.getsockname()[1]
        (self.folder / "station.toml").write_text(
            f'[[radio]]\nplan = "dcf"\nlog = "x"\n[[link]]\nport = {self.port}\n')
        (self.folder / "receiver.py").write_text(RECEIVER)
        self.settings()
        self.keeper: subprocess.Popen[bytes] | None = None
        self.addCleanup(self.end)

    def settings(self, more: str = "") -> None:
        (self.folder / "keeper.toml").write_text(
            f'station = "station.toml"\nprogram = "{PROGRAM}"\nruntime = "run"\n{more}\n'
            f'[[radio]]\ncommand = "exec {sys.executable} {self.folder}/receiver.py"\n')

    def begin(self, *before: str) -> None:
        words = [*before, str(TOP / "radio_keeper"), "run", "--config", "keeper.toml"]
        with open(self.folder / "said", "wb") as said:
            self.keeper = subprocess.Popen(words, cwd=self.folder, stderr=said)

    def said(self) -> str:
        return (self.folder / "said").read_text()

    def waits(self, until: Callable[[], object] | str, seconds: float = 120.0) -> None:
        end = time.monotonic() + seconds
        while not (until in self.said() if isinstance(until, str) else until()):
            self.assertLess(time.monotonic(), end, f"{until} doesn't come: {self.said()}")
            time.sleep(0.05)

    def facts(self) -> dict:
        return json.loads((self.folder / "run/service.json").read_text())

    def command(self, *words: str) -> subprocess.CompletedProcess[str]:
        return subprocess.run([TOP / "radio_keeper", *words], cwd=self.folder, text=True,
                              capture_output=True, timeout=60)

    def end(self) -> int:
        if self.keeper is None:
            return 0
        keeper, self.keeper = self.keeper, None
        keeper.send_signal(signal.SIGTERM)
        try:
            return keeper.wait(20)
        finally:
            keeper.kill()


class Runs(Kept):
    def test_a_start_a_kill_of_the_run_a_reload_and_an_end(self) -> None:
        self.begin()
        self.waits(" has the time after")  # of run 1, on a host that is not busy
        self.assertEqual(ask(self.port), (0, 1))
        self.waits(lambda: len(list((self.folder / "run").glob("*.out"))) == 2)
        os.kill(self.facts()["run"]["pid"], signal.SIGKILL)
        self.assertEqual(ask(self.port), (0, 1))
        self.waits("(died) serves")
        self.settings("cycle = 77")
        done = self.command("reload")
        self.assertEqual((done.returncode, done.stderr), (0, ""))
        self.waits("(reload) serves")
        self.assertEqual(ask(self.port), (0, 1))
        self.settings("cycle = 0")
        done = self.command("reload")
        self.assertEqual(done.returncode, 78)
        self.assertIn("cycle: 0 isn't within 2 to 604800", done.stderr)
        self.assertEqual(ask(self.port), (0, 1))
        self.waits(lambda: "the run before ended by itself" in self.command("status").stdout)
        began = time.monotonic()
        mine = children(self.keeper.pid)  # type: ignore[union-attr]
        self.assertEqual(self.end(), 1)  # a run was killed
        self.assertLess(time.monotonic() - began, 10)
        self.waits(lambda: not [one for one in mine if os.path.exists(f"/proc/{one}")], 5)
        self.assertEqual(len(list((self.folder / "state/journals").glob("*.journal"))), 2)
        self.assertEqual(list((self.folder / "run").glob("*.out")), [])
        self.assertIn("the keeper was stopped", self.command("status").stdout)

    def test_a_keeper_that_is_killed_leaves_nothing_but_its_journal(self) -> None:
        self.begin()
        self.waits(" has the time after")  # of run 1, on a host that is not busy
        self.waits(lambda: len(list((self.folder / "run").glob("*.out"))) == 2)
        keeper = self.keeper
        assert keeper is not None
        mine = children(keeper.pid)
        self.assertGreater(len(mine), 4)
        keeper.kill()
        keeper.wait()
        self.keeper = None
        self.waits(lambda: not [one for one in mine if os.path.exists(f"/proc/{one}")], 10)
        self.begin()
        self.waits(" has the time after")  # of run 1, on a host that is not busy
        self.assertEqual(ask(self.port), (0, 1))
        self.waits(lambda: list((self.folder / "state/journals").glob("*.journal")))
        self.assertEqual(self.end(), 0)

    def test_a_socket_that_systemd_hands_over(self) -> None:
        self.begin(sys.executable, "-c", HAND, str(self.port))
        self.waits(" has the time after")  # of run 1, on a host that is not busy
        self.assertEqual(ask(self.port), (0, 1))
        self.assertEqual(self.end(), 0)

    def test_two_keepers_and_files_that_are_refused(self) -> None:
        self.begin()
        self.waits("(start) serves")
        done = self.command("run", "--config", "keeper.toml")
        self.assertEqual(done.returncode, 71)
        self.assertIn("another keeper has", done.stderr)
        self.assertEqual(self.end(), 0)
        self.settings("nosuch = 1")
        self.assertEqual(self.command("run", "--config", "keeper.toml").returncode, 78)

    def test_what_the_reporter_draws(self) -> None:
        self.begin()
        names = ("state.json", "status.html", "radio_ntpd.prom")
        self.waits(lambda: all((self.folder / "run" / one).exists() for one in names))
        self.waits(lambda: json.loads((self.folder / "run/state.json").read_text())["radios"][0]
                   ["verdicts_hour"] >= 4)
        self.assertEqual(self.end(), 0)
        saved = json.loads((self.folder / "state/state.json").read_text())
        self.assertEqual((saved["keeper_pid"], saved["alarms"][0]["event"]), (0, "time-gained"))


if __name__ == "__main__":
    unittest.main()
