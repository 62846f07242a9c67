#!/usr/bin/env python3
"""Runs the checks that follow `rt ci` in the gate, in lanes side by side: most of them wait for most of their time.

    checks/lanes.py

What a check prints comes as a whole when it has ended, with its time; the last line has the times of all. The first check that fails ends
the others, which get SIGTERM and ten seconds. Each check has its terminal's signals, as it would by itself.

Exit status: 0 all passed, 1 one failed, 2 invalid arguments, 130 stopped by SIGINT.
"""

import argparse
import contextlib
import os
import signal
import subprocess
import sys
import threading
import time
from pathlib import Path

TOP = Path(__file__).resolve().parent.parent
# Each lane has its checks one after the other. The first takes as long as the others together do side by side.
LANES = (
    ("checks/keeper.sh",),
    ("checks/feeders.sh", "checks/tests.sh bench build checks dev feeders lab tools", "checks/torture.sh 300 15"),
    ("checks/simulation.sh",),
    ("checks/tests.sh keeper", "checks/model.sh", "checks/service.sh", "checks/python.sh"),
    ("checks/same_bytes.sh", "checks/examples.sh", "checks/messages.sh", "checks/serve.sh", "checks/clients.sh", "checks/hostile.sh",
     "checks/fifo.sh"),
)
ENDS = 10.0  # for a check that was told to end, in seconds


class Lanes:
    """The checks that run, and how those ended that have."""

    def __init__(self, top: Path) -> None:
        self.top = top
        self.failed = threading.Event()
        self.times: list[str] = []
        self.running: set[subprocess.Popen[bytes]] = set()
        self.lock = threading.Lock()

    def run(self, lanes: tuple[tuple[str, ...], ...]) -> bool:
        """Runs all lanes to their ends, and returns whether every check passed."""
        threads = [threading.Thread(target=self.lane, args=(lane,)) for lane in lanes]
        for one in threads:
            one.start()
        try:
            for one in threads:
                one.join()
        except KeyboardInterrupt:
            self.stop()
            raise
        return not self.failed.is_set()

    def lane(self, lane: tuple[str, ...]) -> None:
        """Runs the checks of a lane, one after the other, until one fails somewhere."""
        for check in lane:
            if not self.check(check):
                return

    def check(self, check: str) -> bool:
        """Runs a check, and returns whether the lane goes on. A check that another's failure has ended is not reported."""
        began = time.monotonic()
        with self.lock:
            if self.failed.is_set():
                return False
            child = subprocess.Popen(check.split(), cwd=self.top, stdin=subprocess.DEVNULL, stdout=subprocess.PIPE, stderr=subprocess.STDOUT, start_new_session=True)
            self.running.add(child)
        said, _ = child.communicate()
        took = f"{time.monotonic() - began:.0f} s"
        with self.lock:
            self.running.discard(child)
            if self.failed.is_set():
                return False
            if child.returncode != 0:
                self.failed.set()
            self.times.append(f"{Path(check.split()[0]).name} {took}")
            ended = f"took {took}" if child.returncode == 0 else f"failed with status {child.returncode} after {took}"
            print(f"== step: {check}\n{said.decode(errors='replace')}== step {ended}: {check}", flush=True)
        if child.returncode != 0:
            self.stop()
        return child.returncode == 0

    def stop(self) -> None:
        """Ends the checks that still run, with all that they started."""
        with self.lock:
            self.failed.set()
            left = list(self.running)
        for number, wait in ((signal.SIGTERM, ENDS), (signal.SIGKILL, ENDS)):
            for child in left:
                with contextlib.suppress(OSError):
                    os.killpg(child.pid, number)
            end = time.monotonic() + wait
            while time.monotonic() < end and any(child.poll() is None for child in left):
                time.sleep(0.05)


def main() -> int:
    argparse.ArgumentParser(description=__doc__, formatter_class=argparse.RawDescriptionHelpFormatter).parse_args()
    began = time.monotonic()
    lanes = Lanes(TOP)
    try:
        passed = lanes.run(LANES)
    except KeyboardInterrupt:
        return 130
    print(f"== checks {'passed' if passed else 'failed'} after {time.monotonic() - began:.0f} s: {'; '.join(lanes.times)}")
    return 0 if passed else 1


if __name__ == "__main__":
    sys.exit(main())
