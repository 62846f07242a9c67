"""Runs the merge gate and prints the processor time that it took, by crate and by kind.

    bench/gate_time.sh [COMMAND ARGUMENT..]

The command is `rt ci` where none is given. Each process below it is read off /proc once a second, and its time counts for the crate
that it, or the nearest process above it, was called for: as the proof of the crate, as that of its tests, or as a wrong body that
has to be refused (among these the check over which a crate's wrong bodies are tried). What a process takes in its last second may be
lost. The table is in minutes of processor time, the costliest crates first. The command's own output goes on as it is, and its exit
status is kept. A SIGTERM ends the command with all that it started, and the table has what they took until then. Only for Linux.
"""

import contextlib
import os
import re
import signal
import subprocess
import sys
import time
from collections import defaultdict

TICKS = os.sysconf("SC_CLK_TCK")
KINDS = ("proof", "tests", "edits", "other")


def read(path: str) -> bytes:
    """Returns a file of /proc; nothing where its process has ended."""
    try:
        with open(path, "rb") as file:
            return file.read()
    except OSError:
        return b""


def kind_of(number: str, words: list[str]) -> tuple[str, str] | None:
    """Returns the crate that a process was called for and the kind of its work, or None where it names no crate."""
    if "--crate-name" not in words[:-1]:
        return None
    crate = words[words.index("--crate-name") + 1]
    try:
        folder = os.readlink(f"/proc/{number}/cwd")
    except OSError:
        folder = ""
    if re.search(r"/rt-edits?-\d+-", folder):
        return crate, "edits"
    return crate, "tests" if "--test" in words else "proof"


class Processes:
    """What was seen of the processes below one."""

    def __init__(self, root: int):
        self.root = root
        self.spent: dict[tuple[str, str], float] = {}
        self.of: dict[tuple[str, str], tuple[str, str]] = {}
        self.live: list[int] = [root]  # as of the last look

    def look(self) -> None:
        """Reads all processes once. A process is known by its number and the moment it started, in ticks since the boot."""
        above, seen, live = {}, {}, []
        for number in filter(str.isdigit, os.listdir("/proc")):
            fields = read(f"/proc/{number}/stat").rpartition(b")")[2].split()
            if len(fields) > 19:
                above[number] = fields[1].decode()
                seen[number] = fields[19].decode(), (int(fields[11]) + int(fields[12])) / TICKS
        for number, (begun, seconds) in seen.items():
            chain = [number]
            while chain[-1] in above and chain[-1] != str(self.root):
                chain.append(above[chain[-1]])
            if chain[-1] != str(self.root):
                continue
            live.append(int(number))
            key = number, begun
            self.spent[key] = seconds
            if key not in self.of or self.of[key][1] == "other":
                known = (kind_of(it, read(f"/proc/{it}/cmdline").decode(errors="replace").split("\0")) for it in chain)
                self.of[key] = next((it for it in known if it), ("", "other"))

        self.live = live or self.live

    def end(self) -> None:
        """Ends the processes of the last look, the one that started the others first."""
        for number in sorted(self.live, key=lambda it: it != self.root):
            with contextlib.suppress(OSError):
                os.kill(number, signal.SIGTERM)

    def table(self) -> dict[str, dict[str, float]]:
        """Returns the minutes by crate and kind."""
        minutes: dict[str, dict[str, float]] = defaultdict(lambda: dict.fromkeys(KINDS, 0.0))
        for key, seconds in self.spent.items():
            crate, kind = self.of[key]
            minutes[crate][kind] += seconds / 60
        return minutes


def show(minutes: dict[str, dict[str, float]], elapsed: float) -> None:
    """Prints the table and its sums."""
    print(f"{'minutes of processor time':26}" + "".join(f"{kind:>8}" for kind in KINDS) + f"{'all':>8}")
    rows = sorted(minutes.items(), key=lambda row: -sum(row[1].values()))
    for crate, row in rows:
        print(f"{crate or '(no crate)':26}" + "".join(f"{row[kind]:8.1f}" for kind in KINDS) + f"{sum(row.values()):8.1f}")
    sums = {kind: sum(row[kind] for _, row in rows) for kind in KINDS}
    print(f"{'all':26}" + "".join(f"{sums[kind]:8.1f}" for kind in KINDS) + f"{sum(sums.values()):8.1f}")
    print(f"elapsed: {elapsed / 60:.1f} minutes on {len(os.sched_getaffinity(0))} processors")


def main() -> int:
    """Runs the command, and reads its processes until it ends."""
    started = time.monotonic()
    try:
        child = subprocess.Popen(sys.argv[1:] or ["rt", "ci"])
    except OSError as error:
        print(f"gate_time: {error.filename}: {error.strerror}", file=sys.stderr)
        return 127
    processes = Processes(child.pid)
    signal.signal(signal.SIGTERM, lambda *_: processes.end())
    while True:
        processes.look()
        try:
            status = child.wait(timeout=1)
            break
        except subprocess.TimeoutExpired:
            continue
        except KeyboardInterrupt:
            continue
    show(processes.table(), time.monotonic() - started)
    return status if status >= 0 else 128 - status


if __name__ == "__main__":
    sys.exit(main())
