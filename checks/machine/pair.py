"""Two machines on one wire, each with a radio and the other as a server. A client outside asks both."""

import time
from pathlib import Path

from checks.machine.client import silence
from checks.machine.trial import MINUTES, Trial

NET = "10.45.67"
SERVER = '[[server]]\naddress = "{}"\nport = 123\n'
DEVICE = "$(ls /sys/class/net | grep -vx lo)"
DEAD, APART = 100.0, 60.0  # without the radio, without the wire, in seconds
SETTLED = 40.0  # that both serve before something is done to one, in seconds
FROM_OTHER = 90.0  # from the start of a machine without its radio to the time, by the other one, in seconds
NEITHER = 2.0  # the longest span in which a client of both gets the time of none, in seconds


class Wire:
    """One end of a network between two machines; `number` is 1 or 2."""

    def __init__(self, path: Path, number: int) -> None:
        self.path, self.number = path, number

    def words(self) -> list[str]:
        """QEMU's arguments. The first end has to be there before the second."""
        end = f"stream,id=wire,server={'on' if self.number == 1 else 'off'},addr.type=unix,addr.path={self.path}"
        return ["-netdev", end, "-device", f"virtio-net-pci,netdev=wire,id=card,romfile=,mac=52:54:00:45:67:0{self.number}"]

    def environment(self) -> dict[str, str]:
        """Nothing."""
        return {}


def connect(trial: Trial, number: int) -> None:
    """Gives a machine its address, and its station the other one as a server. Raises Wrong."""
    trial.machine.must(f"ip address add {NET}.{number}/24 dev {DEVICE} && ip link set {DEVICE} up")
    trial.servers = SERVER.format(f"{NET}.{3 - number}")
    trial.install()


def met(pair: tuple[Trial, Trial], name: str, began: float) -> None:
    """What the client of both met since then: none wrong, and all the while one with the time."""
    both = [one for trial in pair for one in trial.clients[0].since(began)]
    pair[0].result.right(name, both)
    span = silence(sorted(both, key=lambda one: one.came), began, time.monotonic())
    each = ", ".join(f"{sum(one.has_time for one in trial.clients[0].since(began))}" for trial in pair)
    pair[0].result.need(span <= NEITHER, f"{name}: answers with the time: {each}; the longest span without any {span:.2f} s")


def case(trial: Trial) -> None:
    """One of two loses its radio, its time, and its network."""
    folder = trial.work / "other"
    folder.mkdir()
    with Trial(trial.drives, folder, [Wire(trial.work / "wire", 2)]) as other:
        pair = trial, other
        for number, one in enumerate(pair, 1):
            connect(one, number)
        time.sleep(max(0.0, other.machine.booted + MINUTES - time.monotonic()))
        for one in pair:
            one.receive()
        for one in pair:
            trial.say(f"the time came after {one.time(one.client()):.0f} s")
        lose(pair)
        trial.say(other.fair())


def lose(pair: tuple[Trial, Trial]) -> None:
    """What one of them loses, one after the other."""
    trial = pair[0]
    time.sleep(SETTLED)
    began = time.monotonic()
    trial.mode("dead")
    time.sleep(DEAD)
    met(pair, f"without a radio for {DEAD:.0f} s", began)
    began = time.monotonic()
    trial.settle()
    trial.machine.must("systemctl restart radio_ntpd", 200)
    took = trial.time(trial.clients[0], 300)
    trial.result.need(took <= FROM_OTHER, f"started without its radio: the time came after {took:.0f} s, from the other one")
    met(pair, "without its own time", began)
    trial.mode("on")
    trial.receive()
    trial.time(trial.clients[0])
    time.sleep(SETTLED)
    began = time.monotonic()
    trial.machine.tell("set_link", name="card", up=False)
    time.sleep(APART)
    met(pair, f"without the wire for {APART:.0f} s", began)
    trial.machine.tell("set_link", name="card", up=True)
    time.sleep(SETTLED)
    met(pair, "with the wire again", began)
