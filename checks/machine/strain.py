"""Cases of a machine under strain: its memory runs out, and processes of the service are stopped."""

import time

from checks.machine.client import Client, silence
from checks.machine.trial import Trial

SETTLED = 20.0  # that a run serves before something is done to the machine, in seconds
AFTER = 20.0  # what comes after it, in seconds
PATIENCE = 100  # a kernel without swap may look for memory so long until it ends something, in seconds
# Takes all memory there is, 16 MB at a time.
HOG = f"""choom -n 0 -- timeout {PATIENCE} python3 -c 'held = []
while True: held.append(b"x" * (1 << 24))'"""
# What of its memory the service is left with, and for how long (s). It can't run with so little.
LITTLE, SHORT = "12M", 40
LIMIT = "systemctl set-property --runtime radio_ntpd.service MemoryMax={}"
STOPPED = 30.0  # for how long a process is stopped, in seconds
RUN = "$(pgrep -o -f 'radio_ntpd serve')"  # the one that serves; a younger one stands by
KEEPER = "$(systemctl show -p MainPID --value radio_ntpd)"
# Without an answer that has the time, in seconds: while another process takes all memory; once memory is given back; from a run that is
# stopped to the next one; from a keeper that stands still (systemd's watchdog ends it after a minute) to the next one.
CROWDED, BACK, FOLLOWS, WATCHDOG = 10.0, 60.0, 10.0, 40.0


def met(trial: Trial, name: str, client: Client, began: float, longest: float) -> None:
    """What a client met since then: nothing wrong, and no longer span without the time than this (s)."""
    answers = client.since(began)
    trial.result.right(name, answers)
    span = silence(answers, began, time.monotonic())
    trial.result.need(span <= longest, f"{name}: the longest span without the time {span:.2f} s")


def memory(trial: Trial) -> None:
    """Another process takes all memory; then the service has too little, and has enough again."""
    client = trial.served()
    time.sleep(SETTLED)
    began = time.monotonic()
    told = trial.machine.ask(HOG, PATIENCE + 60)
    took = time.monotonic() - began
    time.sleep(AFTER)
    ended = f"with status {told['status']}" if told else "with no answer"
    trial.result.need(told is not None and told["status"] == 137, f"what takes all memory ends {ended} after {took:.0f} s")
    met(trial, "all memory is taken", client, began, CROWDED)
    began = time.monotonic()
    trial.machine.must(LIMIT.format(LITTLE))
    time.sleep(SHORT)
    trial.machine.must(LIMIT.format("1G"))
    trial.say(trial.journal(8))
    trial.result.need(trial.time(client, 300) <= BACK, f"{LITTLE} for {SHORT} s, then enough: the time is there again")
    trial.result.right(f"{LITTLE} for {SHORT} s", client.since(began))


def stopped(trial: Trial) -> None:
    """The run that serves is stopped; then the keeper, for a while and for good."""
    client = trial.served()
    time.sleep(SETTLED)
    began = time.monotonic()
    trial.machine.must(f"kill -STOP {RUN}")
    time.sleep(STOPPED)
    said = trial.status()
    trial.result.need("didn't answer" in said, f"a stopped run: status says: {said[:300]}")
    met(trial, "a stopped run", client, began, FOLLOWS)
    began = time.monotonic()
    trial.machine.must(f"kill -STOP {KEEPER}")
    time.sleep(STOPPED)
    said = trial.status()
    trial.machine.must(f"kill -CONT {KEEPER}")
    trial.result.need(not said.startswith("OK"), f"a stopped keeper: status says: {said[:300]}")
    time.sleep(AFTER)
    met(trial, f"a keeper that is stopped for {STOPPED:.0f} s", client, began, FOLLOWS)
    began = time.monotonic()
    trial.machine.must(f"kill -STOP {KEEPER}")
    time.sleep(60 + WATCHDOG + AFTER)
    met(trial, "a keeper that is stopped for good", client, began, WATCHDOG)
    trial.say(trial.journal(8))
