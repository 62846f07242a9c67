"""Cases of what is done to a machine from outside: its host pauses it, it sleeps, its power is cut."""

import base64
import random
import time
from collections.abc import Sequence
from typing import NamedTuple

from checks.machine.client import Client, Judged, worst
from checks.machine.trial import Result, Trial
from checks.machine.vm import accelerated
from lab.held import Wrong

GRACE = 10.0  # how long after a pause an answer may be off by more than it reports, in seconds
SETTLED = 30.0  # that a run serves before something is done to the machine, in seconds
WATCHED = 45.0  # what comes after it, in seconds
# From the first answer after a wake to the last that is wrong, where no unit ends the run before the sleep (s). Emulation is some 25 times
# as slow.
LEFT = 0.02 if accelerated() else 0.5
# A kernel that counts sleeps by the real-time clock counts whole seconds of it: the sleep begins just after one, so that a short one isn't
# counted.
TICK = "a=$(cat /sys/class/rtc/rtc0/since_epoch); while [ $(cat /sys/class/rtc/rtc0/since_epoch) = $a ]; do :; done; "
WAYS = (("systemd", "systemctl suspend", -1.0), ("the kernel", TICK + "echo mem > /sys/power/state", LEFT))
LOST = 35.0  # of a log's end, in seconds
STATE = "/var/lib/radio_ntpd"
LOGS = f"{STATE}/logs"
VERDICTS = 480.0  # from power on to the time: the boot, five minutes and what is left of one, and two lost ones, in seconds
# Journals with a NUL or half a line, files that were being written, and a state that is no JSON.
SPOILT = f"""cd {STATE} && for one in journals/*.journal journals/*.own; do
    [ ! -e $one ] || {{ ! grep -qP '\\x00' $one && [ -z "$(tail -c 1 $one)" ]; }} || echo $one
done; find . -name '*.part'; for one in state.json /run/radio_ntpd/state.json; do
    [ ! -e $one ] || python3 -m json.tool $one > /dev/null 2>&1 || echo $one
done"""
LOAD = "while :; do dd if=/dev/zero of=/var/tmp/load bs=256k count=100; done"
WAITS = 20.0, 75.0  # from one boot to the next cut, in seconds
SEED = 1


def judge_pause(seconds: float, answers: list[Judged], went_on: float, result: Result) -> None:
    """What the client met after a pause."""
    wrong = [one for one in answers if one.is_wrong]
    last = max((one.came - went_on for one in wrong), default=0.0)
    timed = sum(one.has_time for one in answers)
    told = f"{len(answers)} answers, {timed} with the time, {len(wrong)} wrong, the last {last:.1f} s after it"
    result.need(bool(answers) and last <= GRACE, f"a pause of {seconds} s: {told}, off by {worst(answers):+.3f} s at worst")


def pause(trial: Trial, pauses: Sequence[float]) -> None:
    """QEMU stops the machine for so long, each time with a run that has the time; after the last the time comes back by itself."""
    client = trial.served()
    for number, seconds in enumerate(pauses):
        if number:
            trial.receive()
            trial.time(client)
        time.sleep(SETTLED)
        trial.mode("dead")  # no edge waits for the machine
        trial.machine.tell("stop")
        time.sleep(seconds)
        trial.machine.tell("cont")
        went_on = time.monotonic()
        trial.mode("on")
        time.sleep(WATCHED)
        judge_pause(seconds, client.since(went_on), went_on, trial.result)
        trial.say(trial.journal())
    if client.answers[-1].has_time:
        trial.say("the run before serves on")
        return
    trial.result.need(True, f"the time came back {WATCHED + trial.time(client):.0f} s after the last pause. {trial.fair()}")


def judge_sleep(name: str, answers: list[Judged], woken: float, left: float, result: Result) -> None:
    """What came after a wake: wrong answers for at most `left` seconds."""
    after = [one for one in answers if one.came >= woken]
    first = min((one.came for one in after), default=0.0)
    wrong = [one for one in after if one.is_wrong]
    last = max((one.came - first for one in wrong), default=0.0)
    told = f"{len(after)} answers, the first {first - woken:.2f} s after the wake, {len(wrong)} wrong, the last {last:.3f} s after that"
    result.need(bool(after) and (not wrong or last <= left), f"{name}: {told}, off by {worst(after):+.3f} s at worst")


def fall_asleep(trial: Trial, command: str, seconds: float) -> float:
    """Puts the machine to sleep for so long. Returns when it was woken (monotonic s). Raises Wrong. No card of a machine that sleeps takes a
    request, but this one's port would keep it.
    """
    machine = trial.machine
    machine.must(f"(sleep 1; {command}) > /run/slept 2>&1 &")
    end = time.monotonic() + 60
    while machine.tell("query-status")["status"] != "suspended":
        if time.monotonic() > end:
            raise Wrong(f"the machine doesn't sleep: {machine.shell('cat /run/slept')[1]}")
        time.sleep(0.01)
    for client in trial.clients:
        client.rests = True
    trial.mode("dead")
    time.sleep(seconds)
    woken = time.monotonic()
    machine.tell("system_wakeup")
    for client in trial.clients:
        client.rests = False
    trial.mode("on")
    machine.answers(60)
    return woken


def sleep(trial: Trial, sleeps: Sequence[float]) -> None:
    """The machine sleeps (S3) for so long, by systemd and by the kernel alone, each time with a run that has the time."""
    client = trial.served()
    for way, command, left in WAYS:
        for seconds in sleeps:
            one_sleep(trial, client, f"{seconds} s by {way}", command, left, seconds)
            trial.receive()
            trial.time(client)


def one_sleep(trial: Trial, client: Client, name: str, command: str, left: float, seconds: float) -> None:
    """A sleep and what comes after it."""
    time.sleep(SETTLED)
    before = time.monotonic()
    woken = fall_asleep(trial, command, seconds)
    time.sleep(WATCHED)
    judge_sleep(name, client.since(before), woken, left, trial.result)
    trial.say(trial.journal())


class Tail(NamedTuple):
    """A log: its good lines, its bad ones, its NUL bytes, the start of its last pulse (s)."""

    lines: int
    bad: int
    zeros: int
    last: float


def tail(text: bytes) -> Tail:
    """What a log says. A line that has no end counts as bad."""
    *lines, rest = text.split(b"\n")
    pairs = [line.split(b" ") for line in lines]
    good = [int(pair[0]) for pair in pairs if len(pair) == 2 and all(word.isdigit() for word in pair)]
    return Tail(len(good), len(lines) - len(good) + bool(rest), text.count(b"\0"), good[-1] / 1e6 if good else 0.0)


def logs(trial: Trial) -> dict[str, Tail]:
    """The logs that lie there, by their names."""
    text = trial.machine.must(f"cd {LOGS} && for one in *; do echo $one $(zcat -f $one | base64 -w0); done")
    return {name: tail(base64.b64decode(coded)) for name, _, coded in (line.partition(" ") for line in text.splitlines())}


def cut(trial: Trial, cuts: int) -> None:
    """The power is cut at random moments, every second time while something else writes; then the time comes by itself."""
    draw, known = random.Random(SEED), set[str]()
    trial.install()
    trial.machine.must("systemctl enable --now radio_ntpd", 200)
    for number in range(1, cuts + 1):
        known = one_cut(trial, f"cut {number}", draw.uniform(*WAITS), number % 2 == 0, known)
    client = trial.client()
    trial.time(client)
    took = time.monotonic() - trial.machine.booted
    trial.result.need(took <= VERDICTS, f"the time came {took:.0f} s after the last power on. {trial.fair()}")
    trial.result.right("with the time", client.answers[:])


def one_cut(trial: Trial, name: str, wait: float, has_load: bool, known: set[str]) -> set[str]:
    """A cut after so long (s), and what the next boot finds of the logs that weren't known yet. Returns those that are known now."""
    machine = trial.machine
    if has_load:
        machine.must(f"nohup sh -c '{LOAD}' > /dev/null 2>&1 &")
    time.sleep(wait)
    there = {log.partition(".log")[0] for log in machine.must(f"ls {LOGS}").split()}
    ahead = machine.ahead()
    machine.cut()
    at = time.monotonic() + ahead
    took = machine.start()
    machine.must("until systemctl is-active radio_ntpd; do sleep 1; done; sleep 20", 240)
    left = {log: found for log, found in logs(trial).items() if log.partition(".log")[0] in there - known}
    how = "while something else wrote" if has_load else "idle"
    trial.result.need(bool(left), f"{name}, {how}, at {at:.0f} s of its uptime: it leaves {len(left)} logs; up again after {took:.0f} s")
    spoilt = machine.must(SPOILT).split()
    trial.result.need(not spoilt, f"{name}: spoilt or left over: {' '.join(spoilt) or 'nothing'}")
    for log, found in left.items():
        told = f"{log} has {found.lines} lines, {found.bad} bad, {found.zeros} NUL bytes, and lacks the last {at - found.last:.1f} s"
        trial.result.need(found.zeros == found.bad == 0 and at - found.last <= LOST, f"{name}: {told}")
    return there
