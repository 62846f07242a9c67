"""From an installation by `install --do` to the Debian package, as the page of the first evening has it."""

import time

from checks.machine.receiver import LATE
from checks.machine.trial import PACKAGE, SOURCES, STATION, Trial

SETTINGS = "/etc/radio_ntpd/keeper.toml /etc/radio_ntpd/station.toml"
WARM = 60.0  # from the package's start to the time, in seconds: what was received before is read back
WATCHED = 20.0  # that a client asks once it has the time, in seconds


def case(trial: Trial) -> None:
    """`install --do` serves; it is removed, the package is installed without a terminal, and serves with the same settings."""
    machine = trial.machine
    trial.bring()
    trial.bring(SOURCES)
    machine.must(f"cd /root && mkdir sources && tar -xf {SOURCES} -C sources && dpkg-deb -x {PACKAGE} unpacked", 200)
    program = machine.must("find /root/unpacked -name radio_ntpd -type f -size +100k").strip()
    machine.must(f"cd /root/sources && ./radio_keeper install --do --program {program}", 200)
    machine.must("usermod -aG gpio radio_ntpd")
    machine.put("/etc/radio_ntpd/station.toml", STATION.format(delay=round(LATE * 1e6)))
    trial.feeders = "/usr/local/lib/radio_ntpd/feeders"
    trial.settle()
    client = trial.served()
    began, before = time.monotonic(), machine.must(f"sha256sum {SETTINGS}")
    machine.must("cd /root/sources && ./radio_keeper install --remove --do", 200)
    status, text = machine.shell(f"apt-get install -y {PACKAGE}", 400)
    trial.result.need(status == 0, f"apt-get install without a terminal ends with {status}: {' / '.join(text.splitlines()[-2:])}")
    trial.result.need(machine.must(f"sha256sum {SETTINGS}") == before, "both files are as they were")
    machine.must("sed -i s:/usr/local:/usr: /etc/radio_ntpd/keeper.toml")
    status, text = machine.shell("cd / && radio_keeper check", 200)
    trial.result.need("nothing to mend" in text, f"check ends with {status}: {text[-300:]}")
    machine.must("systemctl enable --now radio_ntpd", 200)
    took = trial.time(client)
    trial.result.need(took <= WARM, f"the package: the time came after {took:.0f} s")
    time.sleep(WATCHED)
    trial.result.right("from the removal on", client.since(began))
