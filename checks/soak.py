"""The soak of checks/soak.sh: a station kept for hours, with fades, servers and kills."""

import argparse
import json
import os
import pathlib
import signal
import subprocess
import sys
import time

from checks.kept_bounds import SLOW
from checks.soak_report import RECEIVER, REPORTER, SERVER, Event, judge, lines, verdict
from lab.client import socket_on
from lab.kept import PLANS, Kept, Wrong, base_now, descendants, radio
from lab.packets import reply, stamp

FADE = 0.08  # the chance that a minute loses its carrier
JITTER = 2  # of each mark, in milliseconds either way
RATE = 100  # requests a second
STEADY = "wwvb"  # this radio is steadied
LOOK = 600.0  # how often a line is printed, in seconds
SETTLED = 10.0  # nothing is killed before a run is so old, in seconds


def serve_time(base: float, port: int) -> None:
    """A server of stratum 1 on the receiver's clock; its port is its first line. It ends with its parent."""
    with socket_on(port=port) as link:
        print(link.getsockname()[1], flush=True)
        link.settimeout(5)
        parent = os.getppid()
        while os.getppid() == parent:
            try:
                datagram, who = link.recvfrom(100)
            except TimeoutError:
                continue
            link.sendto(reply(datagram, stamp(time.monotonic() + base), stamp(time.monotonic() + base), b"GPS"), who)


def server(base: float, port: int = 0) -> tuple[subprocess.Popen, int]:
    """Such a server and its port, which is a free one where none is given."""
    words = [sys.executable, "-B", "-m", "checks.soak", "--serve", repr(base), str(port)]
    process = subprocess.Popen(words, stdout=subprocess.PIPE)
    assert process.stdout
    return process, int(process.stdout.readline())


def victims(kept: Kept, what: str) -> list[int]:
    """The processes of this kind below the keeper."""
    found = []
    for one in descendants(kept.process.pid):
        try:
            words = pathlib.Path(f"/proc/{one}/cmdline").read_text()
        except OSError:
            continue
        if what in words:
            found.append(one)
    return found


def kill_in_turn(kept: Kept, turn: int) -> Event:
    """Kills the server, a receiver, or the reporter. Raises Wrong where there is none."""
    kind = (SERVER, RECEIVER, REPORTER)[turn % 3]
    if kind is SERVER:
        chosen = [kept.serving()]
    else:
        chosen = victims(kept, "lab.receiver" if kind is RECEIVER else "keeper.reporter")[:1]
    event = Event(kind, time.monotonic())
    try:
        os.kill(chosen[0], signal.SIGKILL)
    except (IndexError, ProcessLookupError) as error:
        raise Wrong(f"there is nothing for a {kind.name}: {kept.text()}") from error
    return event


def line(kept: Kept, met: dict, hours: float, kills: list[Event]) -> str:
    """What a client has met so far, and how the station is."""
    state = kept.state()
    radios = ", ".join(f"{one['plan']} {one['verdicts_hour']}/{one['minutes_hour']}" for one in state["radios"])
    spreads = " and ".join(f"{one[name] * 1e3:.2f}" for one in state["radios"] if one["steady"] for name in ("spread", "spread_given"))
    servers = sum(1 for one in state["servers"] if time.time() - one["sample_at"] < 600)
    return (f"{hours:.2f} h: run {state['run']['number']}, {met['asked']} asked, {met['asked'] - met['answered']} without an answer, {met['answered'] - met['timed']} answered without the time, "
            f"longest {met['silent'] * 1000:.0f} and {met['untimed'] * 1000:.0f} ms, error {met['error'] * 1e3:.2f} ms, {met['wrong']} wrong; verdicts of the last hour {radios}; "
            f"{STEADY} spread {spreads} ms; {servers} servers answer; {len(kills)} kills; memory of the keeper {memory(kept.process.pid)} KB; "
            f"the machine stalled an echo {met['stalled'] * 1000:.0f} ms at worst, load {os.getloadavg()[0]:.1f} on {os.cpu_count()}")


def note(met: dict, runs: dict[int, tuple[str, float]], kills: list[Event]) -> None:
    """Writes what was met so far into the file that SOAK_MET names: each span without an answer, each run and each kill (monotonic s)."""
    if "SOAK_MET" in os.environ:
        text = json.dumps({"met": met, "runs": runs, "kills": [(one.kind.name, one.at) for one in kills]})
        pathlib.Path(os.environ["SOAK_MET"]).write_text(text)


def memory(process: int) -> int:
    """What a process has in memory, in KB; 0 where it has ended."""
    for row in pathlib.Path(f"/proc/{process}/status").read_text().splitlines():
        if row.startswith("VmRSS:"):
            return int(row.split()[1])
    return 0


def watched(kept: Kept, base: float, hours: float, killed: int, kills: list[Event]) -> tuple[dict, dict[int, tuple[str, float]]]:
    """Keeps the station for so long, and kills a part of it every `killed` seconds; prints a line now and then. What a client met, and each run's cause
    and beginning (monotonic s). Raises Wrong."""
    client, began = kept.client(base, RATE), time.monotonic()
    runs: dict[int, tuple[str, float]] = {}
    due, now = began + LOOK, began
    while now < began + hours * 3600:
        time.sleep(0.5)
        now, run = time.monotonic(), kept.state()["run"]
        runs[run["number"]] = run["cause"], run["since"] - base
        if kept.process.poll() is not None:
            raise Wrong(f"the keeper has ended with {kept.process.returncode}: {kept.text()}")
        if now - began > (len(kills) + 1) * killed and now - runs[run["number"]][1] > SETTLED:
            kills.append(kill_in_turn(kept, len(kills)))
        if now > due:
            due += LOOK
            met = client.look()
            note(met, runs, kills)
            print(line(kept, met, (now - began) / 3600, kills), flush=True)
    met = client.report()
    note(met, runs, kills)
    print(line(kept, met, (now - began) / 3600, kills), flush=True)
    return met, runs


def ended(kept: Kept) -> list[str]:
    """Ends the keeper; what is wrong about its end, its radios and its journals, as sentences."""
    faults = [f"{one['name']} wasn't heard in the last hour" for one in kept.state()["radios"] if not one["verdicts_hour"]]
    status = kept.stop(120)
    if status != 0:
        faults.append(f"the keeper ended with {status}")
    last = [journal.read_text().splitlines()[-1:] for journal in kept.journals()]
    print(f"the keeper has said {len(kept.text().splitlines())} lines; {len(last)} journals, of which {last.count(['status 0'])} end with status 0", flush=True)
    return faults


def soak(hours: float, cycle: int, killed: int, base: float) -> int:
    """The whole soak: 0 where it passed, else 1. Raises Wrong."""
    servers = [server(base) for _ in range(2)]
    station = "".join(f'[[server]]\naddress = "127.0.0.1"\nport = {port}\n' for _, port in servers)
    radios = []
    for place, plan in enumerate(PLANS):
        words = radio(plan, base, 15, f"--fades {FADE} --jitter {JITTER} --seed {place}")
        radios.append((plan, f'command = "{words}"\nsteady = {"true" if plan == STEADY else "false"}'))
    kills: list[Event] = []
    try:
        with Kept(radios, f"cycle = {cycle}\npace = 16", station) as kept:
            try:
                kept.start()
                kept.waits("run 1 has the time")
                began = time.monotonic()
                met, runs = watched(kept, base, hours, killed, kills)
                took = (time.monotonic() - began) / 3600
                report = judge(met, runs, kills, began, cycle)
                report.faults += ended(kept)
            finally:
                pathlib.Path(os.environ.get("SOAK_SAID", os.devnull)).write_text(kept.text())
    finally:
        for process, _ in servers:
            process.kill()
            process.wait()
    print("\n".join(lines(report)))
    print(f"the machine stalled an echo {met['stalled'] * 1000:.0f} ms at worst; its processor is {SLOW:.1f} times as slow as the usual one")
    print(verdict(report, took), flush=True)
    return 1 if report.faults else 0


if __name__ == "__main__":
    if sys.argv[1:2] == ["--serve"]:
        serve_time(float(sys.argv[2]), int(sys.argv[3]))
        sys.exit(0)
    signal.signal(signal.SIGTERM, lambda *_: sys.exit(143))
    parser = argparse.ArgumentParser(description="Keeps a station and kills its parts in turn.")
    parser.add_argument("hours", type=float, nargs="?", default=2.0)
    parser.add_argument("cycle", type=int, nargs="?", default=300, help="how long a run is, in seconds")
    parser.add_argument("pause", type=int, nargs="?", default=420, help="after how many seconds something is killed")
    given = parser.parse_args()
    try:
        sys.exit(soak(given.hours, given.cycle, given.pause, base_now()))
    except Wrong as wrong:
        print(f"soak failed: {wrong}", flush=True)
        sys.exit(1)
