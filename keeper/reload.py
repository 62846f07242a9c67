"""`reload`: has the keeper that runs read both files anew, and says whether it took them."""

import argparse
import json
import os
import signal
import time

from keeper import config, lock
from keeper.chosen_file import chosen
from keeper.supervisor.reports import FACTS
from keeper.errors import DONE, REFUSED, Fault

WAIT = 40.0  # for the keeper's word, in seconds
LOOK = 0.05


def main(asked: argparse.Namespace) -> int:
    """The exit status: 78 where the keeper refuses a file."""
    settings = config.load(chosen(asked.config))
    path = os.path.join(settings.runtime, FACTS)
    if not lock.is_taken(settings.folder):
        raise Fault(f"no keeper has {settings.folder}")
    before = told(path)
    os.kill(before[0], signal.SIGHUP)
    end = time.monotonic() + WAIT
    while time.monotonic() < end:
        time.sleep(LOOK)
        pid, reloads, refused = told(path)
        if pid != before[0]:
            raise Fault("the keeper ended")
        if reloads > before[1]:
            if refused:
                raise Fault(refused, REFUSED)
            return DONE
    raise Fault(f"the keeper says nothing within {WAIT:.0f} s")


def told(path: str) -> tuple[int, int, str]:
    """The keeper's process, how often it has reloaded, and why the last time was refused. What the
    file says is believed of a process of its owner alone. Raises Fault and OSError."""
    with config.opened(path) as file:
        owner = os.fstat(file.fileno()).st_uid
        try:
            facts = json.loads(file.read() or b"")
            pid, reloads, refused = int(facts["pid"]), int(facts["reloads"]), str(facts["refused"])
            is_its = os.stat(f"/proc/{pid:d}").st_uid == owner
        except (ArithmeticError, LookupError, OSError, RecursionError, TypeError,
                ValueError) as error:
            raise Fault(f"{path} isn't of a keeper that runs: {error!r}") from error
    if not is_its:
        raise Fault(f"{path} names process {pid}, which is another user's")
    return pid, reloads, refused
