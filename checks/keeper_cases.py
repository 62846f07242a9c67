"""The cases of checks/keeper.sh. Each is a function that raises Wrong, and gives the number of things that it has looked at. A bound on
time that isn't kept is noted, and the case goes on: see kept_bounds.py, where the bounds and their reasons stand."""

import argparse
import os
import signal
import subprocess
import sys
import time
from collections.abc import Callable

from checks.kept_bounds import CHANGE, CHANGES, FLOODED, GONE, KILLED, LATE, LONGEST_START, NOTHING, PYTHONS, SLOW, WARM, bound, tried
from checks.kept_journals import as_decoded, as_steadied, due, whole
from lab.client import ask, dropped, is_free, to_server
from lab.kept import PLANS, WAIT, Kept, Wrong, base_now, descendants, parent_of, radio
from lab.kept_machine import python_start


def command(plan: str, base: float, history: int = 15, more: str = "") -> tuple[str, str]:
    return plan, f'command = "{radio(plan, base, history, more)}"'


def goes(processes: list[int], seconds: float = 10) -> bool:
    """Whether all of these processes have ended within this number of seconds."""
    end = time.monotonic() + seconds
    while [one for one in processes if parent_of(one)[1] != "Z"]:
        if time.monotonic() > end:
            return False
        time.sleep(0.05)
    return True


def ended(kept: Kept, status: int) -> int:
    """The keeper ends with this status, and nothing of it stays."""
    processes = descendants(kept.process.pid)
    told = kept.stop()
    looked = due(told == status, f"it ends with {told}, not {status}: {kept.text()}")
    looked += due(is_free(kept.port), "its port isn't free at its end")
    return looked + due(goes(processes, GONE), "a process of it is left at its end")


def brief(met: dict) -> dict:
    """What a client met, without each stall of the machine; of the times without an answer, or without the time, only how many there were."""
    return {name: len(value) if name in ("silences", "untimes") else value for name, value in met.items() if name != "stalls"}


def good(kept: Kept, met: dict, bounds: tuple[float, float], changes: int = 1) -> int:
    """What a client met at a number of changes of run. `bounds`: for how long it may be without an answer, and without the time (s)."""
    silent, untimed = (bound(one, met["stalled"]) for one in bounds)
    print(f"  a client met {brief(met)}", flush=True)
    looked = due(met["wrong"] == 0, f"a client got a wrong time: {kept.text()}")
    looked += LATE.due(met["silent"], silent, "a client got no answer for long")
    looked += LATE.due(met["untimed"], untimed, "a client got no time for long")
    lost = (met["asked"] - met["answered"]) / kept.RATE
    return looked + LATE.due(lost, changes * silent, "a client got no answers for long in all")


def starts(base: float) -> int:
    """Cold: no pulse is at hand, so clients get INIT. Warm: a log that grows has the last minutes."""
    with Kept([command("dcf", base, 0)]) as cold:
        cold.start()
        cold.waits("run 1 (start) serves")
        time.sleep(1.5)
        said = ask(cold.port)
        looked = due(said is not None and said.what == (3, 0, "INIT"), f"a cold start answers {said}")
        looked += ended(cold, 0)
    with Kept([("msf", 'file = "msf.log"')]) as warm:
        words = radio("msf", base, 14)
        with open(warm.folder / "msf.log", "wb") as log, subprocess.Popen(words, stdout=log, shell=True) as writer:
            try:
                time.sleep(2)
                began = time.monotonic()
                warm.start()
                warm.waits("run 1 has the time")
                took = time.monotonic() - began
                looked += LATE.due(took, bound(WARM, PYTHONS * python_start(), LONGEST_START), "a warm start takes long")
                said = ask(warm.port)
                looked += due(said is not None and said.what == (0, 1, "MSF") and said.dispersion < 0.006, f"a warm start answers {said}")
                looked += ended(warm, 0)
            finally:
                writer.kill()
    return looked


def changes(base: float) -> int:
    """Ten changes of run, and SIGTERM under load; then its journals and logs."""
    with Kept([command(plan, base) for plan in PLANS], "cycle = 3") as kept:
        kept.start()
        kept.waits("has the time")
        client = kept.client(base)
        kept.waits("has the time", CHANGES, 11)
        looked = good(kept, client.report(), CHANGE, 10)
        kept.client(base)
        time.sleep(0.5)
        looked += ended(kept, 0)
        looked += due(len(kept.journals()) >= 11, f"there are {len(kept.journals())} journals")
        return looked + sum(whole(journal) for journal in kept.journals()) + as_decoded(kept)


def thousand(base: float) -> int:
    """A thousand changes of run under 500 requests a second: each has its answer, with the time, but those that the kernel drops."""
    with Kept([command(plan, base) for plan in PLANS], "cycle = 2") as kept:
        kept.start()
        kept.waits("has the time")
        client = kept.client(base, 500)
        kept.waits("has the time", 1000 * CHANGES / 10, 1001)
        met, drops = client.report(), dropped(kept.port)
        lost = met["asked"] - met["answered"]
        print(f"  a client met {brief(met)}; not answered: {lost}, dropped: {drops}", flush=True)
        looked = due(met["wrong"] == 0, f"a client got a wrong time: {kept.text()}")
        looked += due(met["timed"] == met["answered"], f"{met['answered'] - met['timed']} answers are without the time")
        looked += due(lost <= drops, f"{lost} requests are not answered, {drops} were dropped")
        return looked + ended(kept, 0)


def killed(base: float) -> int:
    """The server is killed: the time comes again. The keeper is killed: nothing stays, and it can be started again."""
    with Kept([command("dcf", base), command("wwvb", base)]) as kept:
        kept.start()
        kept.waits("run 1 has the time")
        time.sleep(1.5)
        client = kept.client(base)
        for run in (2, 3):
            os.kill(kept.serving(), signal.SIGKILL)
            kept.waits(f"run {run} has the time")
            time.sleep(1.5)
        looked = good(kept, client.report(), KILLED, 2)
        mine = descendants(kept.process.pid)
        kept.kill()
        looked += due(goes(mine), "a killed keeper leaves a process")
        looked += due(is_free(kept.port), "a killed keeper leaves its port taken")
        looked += due(not list(kept.folder.rglob("*.part")), "a killed keeper leaves a file in the making")
        kept.start()
        kept.waits("run 1 has the time")
        return looked + ended(kept, 0)


def flood(base: float, count: int = 2_000_000) -> int:
    """Millions of empty datagrams use up hearings: each time there is a new run at once, and no time is wrong."""
    with Kept([command("dcf", base), command("msf", base)]) as kept:
        kept.start()
        kept.waits("run 1 has the time")
        client = kept.client(base)
        looks = subprocess.Popen([sys.executable, "-B", "-m", "lab.unread", str(kept.port)], stdin=subprocess.PIPE, stdout=subprocess.PIPE, text=True)
        time.sleep(0.5)
        began = time.monotonic()
        with to_server(kept.port, None) as out:
            sent = 0
            # On a busy machine most of them find no room, so more may be needed.
            while sent < count or (kept.text().count(") serves") < 2 and time.monotonic() - began < WAIT):
                for _ in range(10_000):
                    try:
                        out.send(b"")
                    except OSError:
                        pass  # the port is between two runs
                sent += 10_000
        took = time.monotonic() - began
        time.sleep(3)
        runs = kept.text().count(") serves")
        met, (seen, _) = client.report(), looks.communicate()
        print(f"  flood of {sent} in {took:.1f} s, {runs} runs: {brief(met)}; at the port: {seen.strip()}", flush=True)
        looked = due(met["wrong"] == 0, f"a client got a wrong time: {brief(met)}")
        looked += LATE.due(met["silent"], bound(FLOODED, met["stalled"], 2 * FLOODED), f"a flood silences clients: {brief(met)}")
        looked += due(runs >= 2, "a flood uses up no run")
        said = ask(kept.port)
        looked += due(said is not None and said.has_time, f"after a flood clients get {said}")
        return looked + ended(kept, 0)


# A receiver that dies in the middle of a line at its first start, writes noise at its second, is silent at its third, and then is well.
BROKEN = """cd {folder}
if mkdir one; then {receiver} | head -c 15002; exit 3
elif mkdir two; then exec head -c 200000 /dev/urandom
elif mkdir three; then exec sleep 100
else exec {receiver}
fi 2> /dev/null
"""


def sources(base: float) -> int:
    """What a source does to the run and to the other radio: nothing. Its marks are steadied all the while."""
    with Kept([command("dcf", base), ("msf", 'command = "exec sh source"\nstall = 2\nsteady = true')]) as kept:
        source = kept.folder / "source"
        source.write_text(BROKEN.format(folder=kept.folder, receiver=radio("msf", base, 15, "--jitter 8").removeprefix("exec ")))
        text = (kept.folder / "keeper.toml").read_text()
        (kept.folder / "keeper.toml").write_text(text.replace("sh source", f"sh {source}"))
        kept.start()
        kept.waits("run 1 has the time")
        client = kept.client(base)
        kept.waits("its command ended with 3; it is started again in 1 s")
        kept.waits("its command ended with 0; it is started again in 2 s")
        kept.waits("no pulse for 2 s; it is started again in 4 s")
        time.sleep(6)
        # On a slow machine even the good source may need a start more until its first pulse comes.
        kept.waits_for(lambda state: state["radios"][1]["source"] == "running" and state["radios"][1]["pulses"] > 900)
        looked = good(kept, client.report(), NOTHING)
        looked += ended(kept, 0)
        journal = kept.journals()[-1].read_text()
        looked += due(journal.endswith("status 0\n"), f"what a source did to the run: {journal[-80:]!r}")
        seen = kept.state()["radios"][1]
        looked += due(seen["bad_lines"] > 50 and seen["restarts"] >= 3 and seen["source"] == "running", f"its state says {seen}")
        looked += due(0 < 4 * seen["spread_given"] < seen["spread"], f"its marks aren't steadied: {seen}")
        return looked + as_steadied(kept, 1, "msf")


def full_disk(base: float) -> int:
    """The disk for journals is full: clients are answered as before, no half of a journal stands there, and all of them come when there is room."""
    with Kept([command("dcf", base)], "cycle = 2") as kept:
        journals = kept.folder / "state/journals"
        journals.mkdir(parents=True)
        words = ["mount", "-t", "tmpfs", "-o", "size=1m", "tmpfs", str(journals)]
        if os.geteuid() != 0 or subprocess.run(words, stderr=subprocess.DEVNULL).returncode != 0:
            print("  no small disk can be made here: the full disk is left out", flush=True)
            return 0
        try:
            (journals / "fill").write_bytes(b"x" * 2**20)
            kept.start()
            kept.waits("has the time")
            client = kept.client(base)
            kept.waits("journals can't be written: No space left on device")
            kept.waits("has the time", CHANGES, 3)
            runs = kept.text().count("has the time") - 1
            looked = good(kept, client.report(), CHANGE, runs + 1)
            looked += due(not kept.journals() and not list(journals.glob("*.part")), f"a full disk has {list(journals.iterdir())}")
            (journals / "fill").unlink()
            kept.waits("journals can be written again")
            looked += due(len(kept.journals()) >= 1, "no journal comes when there is room")
            return looked + ended(kept, 0)
        finally:
            kept.kill()
            subprocess.run(["umount", journals])


def five_million(base: float) -> int:
    """The flood, longer."""
    return flood(base, 5_000_000)


Case = Callable[[float], int]
CASES: tuple[Case, ...] = (starts, changes, killed, flood, sources, full_disk)
LONG: tuple[Case, ...] = (thousand, five_million)  # outside the gate: three quarters of an hour, a minute


def main() -> int:
    signal.signal(signal.SIGTERM, lambda *_: sys.exit(143))
    cases = {case.__name__: case for case in CASES + LONG}
    parser = argparse.ArgumentParser(description="Runs the keeper on the built program, case by case.")
    parser.add_argument("case", nargs="*", metavar="CASE", help=", ".join(cases))
    given = parser.parse_args().case
    if not set(given) <= set(cases):
        parser.error(f"a case is one of {', '.join(cases)}")
    base, looked, bad = base_now(), 0, 0
    for case in [cases[name] for name in given or [case.__name__ for case in CASES]]:
        began = time.monotonic()
        try:
            looked += tried(case, base)
        except Wrong as wrong:
            print(f"keeper: {case.__name__}: {wrong}", file=sys.stderr)
            bad = 1
        print(f"  {case.__name__}: {time.monotonic() - began:.0f} s", flush=True)
    if not bad:
        print(f"keeper: {looked}, on a processor {SLOW:.1f} times as slow as the usual one, at a load of {os.getloadavg()[0]:.1f} on {os.cpu_count()}")
    return bad


if __name__ == "__main__":
    sys.exit(main())
