"""What is handed over to a held run, and from run to run: cases of service.py."""

import os
import signal
import socket
import subprocess
import sys
import threading
import time
from pathlib import Path

from lab import held
from lab.client import dropped, socket_on
from lab.held import Held, client_ready, need, station, whole
from lab.packets import number_of, request
from lab.program import TOP, program


def faults(folder: Path) -> None:
    """A word that is not valid: nothing can be opened, and the message names the word."""
    link = socket_on()
    port, number = link.getsockname()[1], link.fileno()
    stream = held.Signal()
    tcp = socket.socket()
    tcp.bind(("127.0.0.1", 0))
    os.set_inheritable(stream.theirs.fileno(), True)
    os.set_inheritable(tcp.fileno(), True)
    os.set_inheritable(number, True)
    path = folder / "faults.toml"
    path.write_text(station(port))
    good, pair, other = (f"socket={n}" for n in (number, stream.theirs.fileno(), tcp.fileno()))
    end = f"end={number}"
    for words, named in (("sock=9", "sock=9"), (f"{good} {good}", good),
                         ("pace=1 pace=2", "pace=2"), ("socket=2", "socket=2"),
                         ("pace=x", "pace=x"), ("end=999", "end=999"),
                         ("pace=01", "pace=01"), ("pace=1  end=9", "none of"), (pair, pair),
                         (other, other), ("pace=65536", "pace=65536"), (f"{good} {end}", end),
                         (" ", "none of"), (end, end), ("", f"port {port}")):
        env = os.environ | {"RADIO_NTPD_SERVICE": words}
        ran = subprocess.run([program(), "serve", "--station", str(path)], capture_output=True,
                             text=True, env=env, close_fds=False, timeout=10)
        told = ran.returncode == 2 and ran.stdout == "status 2 open link 0\n"
        need(told, f"{words!r}: {ran.stdout!r}")
        need(named in ran.stderr, f"{words!r}: the message is {ran.stderr!r}")
    for one in (link, tcp, stream.theirs, stream.ours):
        one.close()


def systemd(folder: Path) -> None:
    """Sockets of systemd are taken where they are this process's, and the variable is set."""
    link = socket_on()
    port = link.getsockname()[1]
    path = folder / "systemd.toml"
    path.write_text(station(port))
    shell = ('exec 3<&"$1"; export LISTEN_PID=$(($2 + $$)) LISTEN_FDS=1; '
             'exec "$3" serve --station "$4" --during 1')
    for variable, off, due in ((True, 0, 0), (True, 1, 2), (False, 0, 2)):
        env = os.environ | ({"RADIO_NTPD_SERVICE": ""} if variable else {})
        words = [str(link.fileno()), str(off), program(), str(path)]
        child = subprocess.Popen(["bash", "-c", shell, "", *words], pass_fds=[link.fileno()],
                                 env=env, stdout=subprocess.PIPE, stderr=subprocess.DEVNULL,
                                 text=True)
        if due == 0:
            client_ready(port)
        said, _ = child.communicate(timeout=10)
        need(child.returncode == due, f"LISTEN_FDS with {variable}, {off}: {said[-80:]!r}")
    link.close()


def plain(folder: Path) -> None:
    """Without the variable a run opens its own port and ends by its hearings."""
    link, one = socket_on(), held.client()
    port = link.getsockname()[1]
    link.close()
    path = folder / "plain.toml"
    path.write_text(station(port))
    env = {name: value for name, value in os.environ.items() if name != "RADIO_NTPD_SERVICE"}
    child = subprocess.Popen([program(), "serve", "--station", str(path), "--during", "1"], env=env,
                             stdout=subprocess.PIPE, stderr=subprocess.DEVNULL, text=True)
    answered = False
    for number in range(10):
        try:
            held.asked(one, port, number)
            answered = True
            break
        except TimeoutError:
            continue
    said, _ = child.communicate(timeout=10)
    need(answered and child.returncode == 0, f"a plain run ends with {child.returncode}")
    need(" end count\n" in said, "the link of a plain run does not end by its hearings")


class Asker(threading.Thread):
    """Asks at a rate until it is told to stop, and notes which requests were answered."""

    def __init__(self, port: int, rate: int) -> None:
        super().__init__(daemon=True)
        self.port, self.rate, self.sent, self.over = port, rate, 0, False
        self.answered: set[int] = set()
        self.socket = socket_on()
        self.socket.settimeout(1)
        self.reader = threading.Thread(target=self.read, daemon=True)
        self.reader.start()

    def read(self) -> None:
        while not self.over or len(self.answered) < self.sent:
            try:
                self.answered.add(number_of(self.socket.recv(1024)))
            except TimeoutError:
                if self.over:
                    return

    def run(self) -> None:
        begun = time.monotonic()
        while not self.over:
            self.sent += 1
            self.socket.sendto(request(self.sent), ("127.0.0.1", self.port))
            time.sleep(max(0.0, begun + self.sent / self.rate - time.monotonic()))

    def stop(self) -> int:
        """Stops, and returns how many requests were not answered."""
        self.over = True
        self.join()
        self.reader.join()
        return self.sent - len(self.answered)


def changes(folder: Path, count: int, rate: int) -> str:
    """Run after run on one socket: each request is answered but those that the kernel dropped."""
    link = socket_on()
    port = link.getsockname()[1]
    run = Held(folder, station(port), sockets=(link,))
    run.give("go")
    client_ready(port)
    asker = Asker(port, rate)
    asker.start()
    for _ in range(count):
        follower = Held(folder, station(port), sockets=(link,))
        time.sleep(0.1)
        follower.give("go")
        time.sleep(0.05)
        whole(*run.end()[1:])
        run = follower
    lost = asker.stop()
    drops = dropped(port)
    whole(*run.end()[1:])
    need(lost <= drops, f"{lost} of {asker.sent} requests are not answered, {drops} were dropped")
    return f"{asker.sent} requests over {count} changes, {lost} not answered, {drops} dropped"


# A supervisor of two runs on one socket, of which the first may begin. It writes their numbers.
SUPERVISOR = """
import socket, sys, time
from pathlib import Path
from lab import held
folder, number, port = sys.argv[1:]
link = socket.socket(fileno=int(number))
runs = []
for one in range(2):
    with open(f"{folder}/killed-{one}", "w") as out:
        station = held.station(int(port))
        runs.append(held.Held(Path(folder), station, sockets=(link,), out=out))
runs[0].give("go")
print(*[run.child.pid for run in runs], flush=True)
time.sleep(60)
"""


def is_whole(output: Path) -> bool:
    """Whether a run has written all that it writes at its end."""
    lines = output.read_text().splitlines()
    return lines[-1:] == ["status 0"] and any(line.startswith("page ") for line in lines)


def alive(numbers: list[int]) -> list[int]:
    """Those of these processes that run."""
    return [number for number in numbers if Path(f"/proc/{number}/exe").exists()]


def killed(folder: Path) -> None:
    """A supervisor is killed: both its programs end by themselves, with their journals whole."""
    link = socket_on()
    port = link.getsockname()[1]
    words = [str(folder), str(link.fileno()), str(port)]
    supervisor = subprocess.Popen([sys.executable, "-B", "-c", SUPERVISOR, *words],
                                  pass_fds=[link.fileno()], cwd=TOP,
                                  stdout=subprocess.PIPE, text=True)
    assert supervisor.stdout is not None
    numbers = [int(word) for word in supervisor.stdout.readline().split()]
    client_ready(port)
    supervisor.send_signal(signal.SIGKILL)
    begun = time.monotonic()
    supervisor.wait()
    outputs = [folder / "killed-0", folder / "killed-1"]
    while time.monotonic() < begun + 5 and (alive(numbers) or not all(map(is_whole, outputs))):
        time.sleep(0.01)
    need(not alive(numbers), "a run outlives its supervisor")
    need(all(map(is_whole, outputs)), "a run whose supervisor was killed does not end whole")
    link.close()
