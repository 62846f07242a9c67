"""The first evening on a machine: the commands of docs/FIRST_EVENING.md as they stand there, with the package, up to a service on port
123 and a client; then the host is started anew.
"""

import re
import shlex
import time

from checks.machine.client import Client
from checks.machine.trial import PACKAGE, TIME, Trial
from lab.program import TOP

PAGE = TOP / "docs" / "FIRST_EVENING.md"
WATCHED = 60.0  # that a client asks once it has the time, in seconds
# The page says what to write with the package in place of paths of the folder.
PACKAGED = (("./radio_ntpd ", "/usr/sbin/radio_ntpd "), ("./radio_keeper ", "radio_keeper "), ("feeders/", "/usr/lib/radio_ntpd/feeders/"))
# What the page says of the two files of a service.
SERVICE = """sudo cp station.toml keeper.toml /etc/radio_ntpd/ &&
sudo sed -i 's/^port = 12300/port = 123/' /etc/radio_ntpd/station.toml &&
sudo sed -i '1i state = "/var/lib/radio_ntpd"\\nruntime = "/run/radio_ntpd"' /etc/radio_ntpd/keeper.toml"""


def step(page: str, number: int) -> str:
    """The indented command of a step of the page, as it is with the package."""
    parts = re.split(r"^(?=\*\*\d+\. |## )", page, flags=re.M)
    part = next(one for one in parts if one.startswith(f"**{number}. "))
    command = "\n".join(line[4:] for line in part.splitlines() if line.startswith("    "))
    for before, after in PACKAGED:
        command = command.replace(before, after)
    return command


class Evening:
    """The operator `op`, and what the page has him see."""

    def __init__(self, trial: Trial) -> None:
        self.trial, self.page = trial, PAGE.read_text(encoding="utf-8")

    def op(self, command: str, limit: float = 60) -> tuple[int, str]:
        """Status and text of a command of the operator."""
        return self.trial.machine.shell(f"su - op -c {shlex.quote(command)}", limit)

    def sees(self, number: int, pattern: str, limit: float = 60) -> None:
        """A step of the page, whose text has to match."""
        status, text = self.op(step(self.page, number), limit)
        last = " / ".join(text.splitlines()[-3:])
        self.trial.result.need(re.search(pattern, text, re.M) is not None, f"step {number} ends with {status}: {last[:300]}")

    def prepare(self) -> None:
        """From the package to the two files."""
        self.trial.bring()
        status, text = self.op(f"sudo apt-get install -y {PACKAGE}", 600)
        self.trial.result.need(status == 0, f"apt-get install ends with {status}: {text.splitlines()[-1:]}")
        self.sees(2, r"(RISING EDGE.*\n.*FALLING EDGE.*\n.*){8}")
        self.sees(3, "^$|stopped|ended", 400)
        self.sees(4, r" verdict \d+.*\n(.*\n)*.* verdict ")
        self.op(step(self.page, 5))
        self.op(step(self.page, 6))

    def serve(self) -> Client:
        """The two files where the service has them; it is started. Returns a client."""
        self.op(SERVICE)
        status, text = self.op("cd / && sudo radio_keeper check", 200)
        self.trial.result.need("nothing to mend" in text, f"check ends with {status}: {text[-300:]}")
        status, text = self.op("sudo systemctl enable --now radio_ntpd", 200)
        self.trial.result.need(status == 0, f"the service starts with {status} {text[-100:]}")
        return self.trial.client()

    def has_time(self, name: str, client: Client) -> None:
        """The client gets the time, which is right for a minute."""
        took = self.trial.time(client)
        began = time.monotonic()
        time.sleep(WATCHED)
        self.trial.result.right(f"{name}, the time after {took:.0f} s", client.since(began))
        self.trial.say(self.trial.fair())

    def start_anew(self) -> None:
        """Starts the host anew, and waits until it takes commands. Raises Wrong."""
        machine = self.trial.machine
        name = "cat /proc/sys/kernel/random/boot_id"
        boot = machine.must(name)
        machine.ask("systemctl reboot", 5)
        end = time.monotonic() + 600
        while time.monotonic() < end:
            told = machine.ask(name, 15)
            if told is not None and told["text"] != boot:
                return
        machine.answers(0)


def serial(trial: Trial) -> None:
    """The receiver lies on DCD of a serial port: step 2 of the page, and the service."""
    trial.install()
    status, text = trial.machine.shell("timeout 10 /usr/lib/radio_ntpd/feeders/serial_edges.py /dev/ttyS1", 60)
    trial.result.need(re.search(r"(rising\n.*falling\n.*){8}", text) is not None, f"ten seconds of edges end with {status}: {text[-200:]}")
    client = trial.served()
    began = time.monotonic()
    while trial.level() != "OK" and time.monotonic() - began < TIME:
        time.sleep(WATCHED / 2)
    took, said = time.monotonic() - began, trial.status()
    trial.result.need(said.startswith("OK"), f"after {took:.0f} s status says: {said[:300]}")
    trial.result.right("a serial port", client.since(began))


def case(trial: Trial) -> None:
    """The evening, the service, a client on the host, and a new start."""
    one = Evening(trial)
    one.prepare()
    client = one.serve()
    one.has_time("the first start", client)
    status, text = one.op("/usr/sbin/chronyd -Q -t 10 'server 127.0.0.1 iburst'", 90)
    trial.result.need("System clock wrong by" in text, f"chronyd -Q ends with {status}: {' / '.join(text.splitlines()[-2:])}")
    said = one.op("radio_keeper status")[1].splitlines()
    trial.result.need(said[:1] != [] and said[0].startswith("OK: time from DCF, stratum 1"), f"status begins: {said[:1]}")
    one.start_anew()
    one.has_time("after a new start of the host", client)
