"""Runs the service on Debian machines in QEMU: Debian's kernel and systemd, and a receiver on a GPIO line that the clock outside drives.
A client outside judges each answer by that clock. Each argument has a machine of its own; several cases on one are joined by `+`. Without
an argument all run, each on its own. Each says its bounds and what it met.

    python3 -m checks.machine [--package FILE] [CASE[+CASE..]..]

It takes the package that packaging/build_deb.sh makes of this checkout, or of RADIO_NTPD; --package names another one. docs/TESTING.md
says what it needs and what takes how long. It isn't in the gate.

Exit status: 0 each case held its bounds, 1 one did not or couldn't be run, 2 invalid arguments.
"""

import argparse
import errno
import functools
import os
import signal
import subprocess
import sys
import tempfile
import time
from collections.abc import Callable
from pathlib import Path

from checks.machine import changeover, evening, inside, outside, pair, strain
from checks.machine.image import STORE, run as archive
from checks.machine.modem import Modem
from checks.machine.trial import Result, Trial
from checks.machine.vm import Fitting
from lab import ends
from lab.held import Wrong
from lab.program import TOP, program

SOURCES = "radio_keeper keeper feeders tools lab/model packaging docs README.md CHANGELOG.md CONTRIBUTING.md"
CASES: dict[str, Callable[[Trial], None]] = {
    "pause": functools.partial(outside.pause, pauses=(2.0, 31.8, 0.3)),
    "long-pause": functools.partial(outside.pause, pauses=(600.0,)),
    "sleep": functools.partial(outside.sleep, sleeps=(0.45, 2.3, 40.0)),
    "cut": functools.partial(outside.cut, cuts=3),
    "cuts": functools.partial(outside.cut, cuts=20),
    "clock": inside.clock,
    "chrony": inside.chrony,
    "sock": inside.sock,
    "serial": evening.serial,
    "memory": strain.memory,
    "stopped": strain.stopped,
    "changeover": changeover.case,
    "pair": pair.case,
    "dead": inside.dead,
    "disk": inside.disk,
    "upgrade": inside.upgrade,
    "evening": evening.case,
}


def built(folder: Path) -> Path:
    """The package of this checkout. Raises Wrong."""
    program()
    done = subprocess.run([TOP / "packaging" / "build_deb.sh", folder], capture_output=True, stdin=subprocess.DEVNULL, text=True)
    if done.returncode:
        raise Wrong(f"the package can't be built: {done.stderr.strip()[-300:]}")
    return Path(done.stdout.split()[-1])


def sources(folder: Path) -> Path:
    """What an installation from the sources needs, as an archive. Raises Wrong."""
    made = folder / "sources.tar"
    archive("tar", "-cf", made, "-C", TOP, *SOURCES.split())
    return made


def fittings(names: list[str], work: Path) -> list[Fitting]:
    """What these cases want a machine to have. Raises Wrong."""
    if "serial" in names:
        return [Modem(work)]
    return [pair.Wire(work / "wire", 1)] if "pair" in names else []


def run(names: list[str], package: Path) -> bool:
    """Runs cases one after the other on a new machine. Whether all held their bounds. A folder is left with the machine's console."""
    work = Path(tempfile.mkdtemp(prefix=f"{names[0]}-", dir=STORE))
    try:
        with Trial([package, sources(work)], work, fittings(names, work)) as trial:
            return all([one(name, trial) for name in names])
    except (Wrong, OSError) as wrong:
        print(f"no machine: {wrong} ({work} has its console)", flush=True)
        return False


def one(name: str, trial: Trial) -> bool:
    """Runs a case. Whether it held its bounds."""
    began, trial.result = time.monotonic(), Result()
    print(f"{name}:", flush=True)
    try:
        CASES[name](trial)
    except (Wrong, OSError) as wrong:
        trial.result.need(False, str(wrong))
    trial.say(trial.fair())
    held = not trial.result.faults
    print(f"{name} {'passed' if held else 'failed'} after {time.monotonic() - began:.0f} s", flush=True)
    return held


def main() -> int:
    """Runs the cases that are named, else all."""
    words = argparse.ArgumentParser(prog="machine", description=__doc__, formatter_class=argparse.RawDescriptionHelpFormatter)
    words.add_argument("--package", type=Path, help="a package that is built already")
    words.add_argument("cases", nargs="*", metavar="CASE[+CASE..]", help=", ".join(CASES))
    given = words.parse_args()
    groups = [group.split("+") for group in given.cases or CASES]
    unknown = [name for group in groups for name in group if name not in CASES]
    if unknown:
        words.error(f"no case is named {unknown[0]}: there are {', '.join(CASES)}")
    if given.package and not os.access(given.package, os.R_OK):
        raise FileNotFoundError(errno.ENOENT, "there is no package", str(given.package))
    signal.signal(signal.SIGTERM, lambda *_: sys.exit(143))
    STORE.mkdir(parents=True, exist_ok=True)
    with tempfile.TemporaryDirectory() as folder:
        try:
            package = given.package or built(Path(folder))
        except Wrong as wrong:
            print(f"machine: {wrong}", file=sys.stderr)
            return 1
        held = [run(group, package) for group in groups]
    return 0 if all(held) else 1


if __name__ == "__main__":
    ends.run(main)
