"""Cases of what happens in a machine: its clock is set, chronyd steers it, its disk fills, its line dies, its package is exchanged."""

import time

from checks.machine.client import Client, silence, worst
from checks.machine.receiver import LATE
from checks.machine.trial import FEEDERS, PACKAGE, Trial

STEPS = ("+10 seconds", "+3 days", "-5 days", "+2 days", "+3 years", "-3 years", "-10 seconds")
MOVED = 0.005  # by how much more than before answers may be off after a step of the clock, in seconds
CHRONY = "port 0\nserver 127.0.0.1 iburst\nmakestep 0.1 3\nmaxslewrate 10\ndriftfile /var/lib/chrony/drift\n"
SOCK = "port 0\nrefclock SOCK /run/chrony.dcf.sock refid DCF poll 4 filter 1 precision 1e-3 delay 0.01\nmakestep 0.1 3\n"
BRIDGE = f"/opt/machine/radio.sh 0 {{}} {FEEDERS} | {FEEDERS}/steady.py | /usr/sbin/radio_ntpd decode --plan dcf --log /dev/stdin"
BRIDGE += f" | {FEEDERS}/chrony_sock.py /run/chrony.dcf.sock --delay {round(LATE * 1e6)}"
STEERED = 600  # how long chronyd steers the machine's clock, in seconds
NEAR = 0.01  # how far that clock is off at most by then, in seconds
# How long the disk takes nothing, in seconds: in five minutes a log needs a new block.
FULL, FROZEN = 300, 25
SILENCE = 1.0  # the longest span without an answer that has the time, in seconds
FILL = "runuser -u radio_ntpd -- dd if=/dev/zero of=/var/lib/radio_ntpd/filler bs=64k"
# The receiver's mode, how long it lasts (s), and what `status` has to say of it.
SPOILS = (("dead", 100.0, ("no pulse", "stalled", "waiting")), ("inverted", 130.0, ("inverted", "--low")), ("hum", 100.0, ("hum", "noise")))
WELL = 75.0  # between two of them, in seconds


def clock(trial: Trial) -> None:
    """The clock is set by seconds, days and years: no answer changes, and no alarm stands for days."""
    client = trial.served()
    time.sleep(20)
    before, well = worst(client.since(time.monotonic() - 15)), trial.level()
    for step in STEPS:
        began = time.monotonic()
        trial.machine.must(f'date --set "$(date) {step}"')
        first = trial.status().splitlines()[:1]
        trial.result.need("no keeper runs" not in " ".join(first), f"{step}: at once status begins: {first}")
        time.sleep(15)
        answers = client.since(began)
        trial.result.right(step, answers)
        moved, lacks = worst(answers) - before, sum(not one.has_time for one in answers)
        trial.result.need(abs(moved) <= MOVED and not lacks, f"{step}: {lacks} without the time; the worst moved by {moved * 1e3:+.1f} ms")
    trial.result.need(trial.level() == well, f"status was {well} before, and then {trial.level()}")


def offset(trial: Trial) -> float:
    """What the machine's clock is ahead of the one outside (s), within some milliseconds."""
    text = trial.machine.must("python3 -c 'import time; print(time.time() - time.monotonic())'")
    return float(text) + trial.machine.ahead() - trial.base


def chrony(trial: Trial) -> None:
    """chronyd steers the machine's clock, which is 335 ms off, by the service, as the page of clients has it."""
    client = trial.served()
    trial.machine.put("/etc/chrony/chrony.conf", CHRONY)
    trial.machine.must("date --set @$(python3 -c 'import time; print(time.time() + 0.335)')")
    before, began = offset(trial), time.monotonic()
    trial.machine.must("systemctl unmask chrony && systemctl start chrony", 100)
    for _ in range(STEERED // 60):
        time.sleep(60)
        trial.say(f"its clock is {offset(trial) * 1e3:+.1f} ms off; {trial.machine.must('chronyc -c tracking').strip()}")
    after = offset(trial)
    trial.result.need(abs(after) <= NEAR, f"chronyd brought the clock from {before * 1e3:+.0f} ms to {after * 1e3:+.1f} ms")
    trial.result.right("meanwhile", client.since(began))


def sock(trial: Trial) -> None:
    """chronyd has the verdicts of the decoder as its reference clock, as the page of accuracy has it. No service runs."""
    trial.install()
    trial.machine.must("systemctl stop radio_ntpd.socket radio_ntpd", 100)
    trial.machine.put("/etc/chrony/chrony.conf", SOCK)
    trial.machine.must("date --set @$(python3 -c 'import time; print(time.time() + 0.335)')")
    before = offset(trial)
    trial.machine.must("systemctl unmask chrony && systemctl start chrony", 100)
    trial.machine.must(f"systemd-run --unit bridge bash -c '{BRIDGE.format(trial.port())}'")
    for _ in range(STEERED // 60):
        time.sleep(60)
        trial.say(f"its clock is {offset(trial) * 1e3:+.1f} ms off; {trial.machine.must('chronyc -c sources').strip()}")
    after = offset(trial)
    told = f"chrony_sock.py and chronyd brought the clock from {before * 1e3:+.0f} ms to {after * 1e3:+.1f} ms"
    trial.result.need(abs(after) <= NEAR, told)


def quiet(trial: Trial, name: str, client: Client, began: float) -> None:
    """What a client met since then: nothing wrong, and the time all the while."""
    answers = client.since(began)
    trial.result.right(name, answers)
    longest = silence(answers, began, time.monotonic())
    trial.result.need(longest <= SILENCE, f"{name}: the longest span without the time {longest:.2f} s")


def disk(trial: Trial) -> None:
    """A full disk that `status` names, and a frozen one in which it finds no dead port."""
    client = trial.served()
    time.sleep(10)
    began = time.monotonic()
    trial.machine.shell(FILL, 300)
    time.sleep(FULL)
    said = trial.status()
    quiet(trial, "a full disk", client, began)
    trial.result.need("written" in said or "space" in said, f"a full disk: status says: {said[:300]}")
    trial.machine.must("rm /var/lib/radio_ntpd/filler")
    time.sleep(30)
    began = time.monotonic()
    trial.machine.must(f"sync; fsfreeze -f /; sleep {FROZEN}; fsfreeze -u /", FROZEN + 100)
    said = trial.status()
    quiet(trial, "a frozen disk", client, began)
    trial.result.need("doesn't answer" not in said, f"a frozen disk: status says: {said[:300]}")


def dead(trial: Trial) -> None:
    """The line dies, turns its polarity, hums: `status` names it while the service runs, and the time stays."""
    client = trial.served()
    for mode, seconds, words in SPOILS:
        began = time.monotonic()
        trial.mode(mode)
        time.sleep(seconds)
        said = " / ".join(trial.status().splitlines())
        trial.mode("on")
        trial.result.need(any(word in said for word in words), f"{mode} for {seconds:.0f} s: status says: {said[:700]}")
        time.sleep(WELL)
        quiet(trial, mode, client, began)


def upgrade(trial: Trial) -> None:
    """The same package is installed again while a client asks 20 times a second."""
    client = trial.served()
    client = trial.client(20)
    time.sleep(20)
    began = time.monotonic()
    trial.machine.must(f"dpkg --install {PACKAGE}", 400)
    time.sleep(20)
    answers = client.since(began)
    trial.result.right("an upgrade", answers)
    longest = silence(answers, began, time.monotonic())
    trial.result.need(longest <= 30, f"an upgrade: the longest span without the time {longest:.1f} s; {trial.journal()}")
