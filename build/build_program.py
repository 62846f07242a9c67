#!/usr/bin/env python3
"""Proves and builds the program radio_ntpd and the crates that it stands on, several crates at a time.

    build/build_program.py

The launcher `radio_ntpd` calls it where the program isn't built yet, or a source is newer than it. Where the program was built of just
these sources, as in a folder that was copied, there is nothing to build. Else it runs the toolchain's gate, `rt ci`, on a copy of those
crates, without tests and without wrong bodies; nothing of the program's proof is left out. The gate proves as many crates side by side as
processors and memory allow, the longest chain first, and keeps what it has proved beside the toolchain. So a build that was stopped goes on
where it was, and so does the gate of the whole repository. Who may not write there begins anew.

The copy and the log lie in $XDG_CACHE_HOME/radio_ntpd (or ~/.cache/radio_ntpd); the copy goes when the program is built. Needs `rt` and
Python 3.11.

Exit status: 0 built, 69 no toolchain, 70 a crate isn't proved or the disk failed, 130 stopped by a signal.
"""

import contextlib
import fcntl
import os
import re
import shutil
import signal
import subprocess
import sys
import threading
import time
from pathlib import Path

import built_program
from build_copy import cache_of, keeps_proofs, make_copy, take_program
from build_estimate import Estimate, sizes_of
from crate_graph import count_lines, read_crates

NO_TOOLCHAIN, FAILED, STOPPED = 69, 70, 130
# The kit with which all of it was proved, as `rt version` prints it.
KIT = "rattle-kit-13f logic dac8208d650f15bf"
QUIET = 60.0  # the longest, in seconds, that nothing is printed where there is no terminal
# A crate that is proved, by an earlier run or by this one, and one that isn't.
PROVED = re.compile(r"rt: (\w+) (?:proved$|(is kept): )")
REFUSED = re.compile(r"rt: (\w+)(?:: its tests are)? NOT PROVED")


def as_time(seconds: float) -> str:
    """Writes a time as minutes and seconds."""
    return f"{int(seconds) // 60}:{int(seconds) % 60:02}"


def in_hand(session: int) -> set[str]:
    """Returns the crates that the processes of a session are proving, where the host says so."""
    names = set()
    for folder in Path("/proc").glob("[0-9]*"):
        with contextlib.suppress(OSError, ValueError, IndexError):
            words = (folder / "cmdline").read_bytes().split(b"\0")
            name = words[words.index(b"--crate-name") + 1]
            if os.getsid(int(folder.name)) == session:
                names.add(name.decode())
    return names


class Build:
    """One build: what is in hand and done, what failed, and about how long the rest takes."""

    def __init__(self, crates: dict[str, list[str]], estimate: Estimate):
        """`crates` are those of the build, each with those that it stands on."""
        self.crates, self.estimate = crates, estimate
        self.done: set[str] = set()
        self.refused: str | None = None
        self.started = self.printed = time.monotonic()

    def look(self, session: int) -> set[str]:
        """Looks at which crates the processes of a session are proving, and returns them."""
        names = in_hand(session)
        self.estimate.begin(names, time.monotonic())
        return names

    def hear(self, line: str) -> str | None:
        """Takes a line of the toolchain's, and returns the crate that it says is proved."""
        if refused := REFUSED.match(line):
            self.refused = self.refused or refused[1]
        if (proved := PROVED.match(line)) and proved[1] in self.crates:
            self.done.add(proved[1])
            self.estimate.end(proved[1], time.monotonic())
            return proved[1]
        return None

    def progress(self, what: str) -> str:
        """Returns a line of progress: what, how many of how many, the time so far, and about how much is left."""
        now = time.monotonic()
        line = f"{what} ({len(self.done)} of {len(self.crates)}), {as_time(now - self.started)}"
        if left := self.estimate.left(now):
            line += f", about {as_time(left)} left"
        return line


    def show(self, what: str) -> None:
        """Prints a line of progress."""
        self.printed = time.monotonic()
        print(self.progress(what), file=sys.stderr, flush=True)

    def draw(self, what: str) -> None:
        """Draws a line of progress over the one before, as wide as the terminal is."""
        width = shutil.get_terminal_size().columns - 1
        print(f"\r\x1b[K{self.progress(what)[:width]}", end="", file=sys.stderr, flush=True)


def watch(build: Build, session: int, ended: threading.Event, is_drawn: bool) -> None:
    """Looks each second at what is in hand until the build has ended. It redraws the line of progress where there is a terminal, and
    elsewhere prints one where there was none for a minute."""
    while not ended.wait(1):
        what = f"proving {', '.join(sorted(build.look(session))) or 'what is left'}"
        if is_drawn:
            build.draw(what)
        elif time.monotonic() - build.printed >= QUIET:
            build.show(what)
    if is_drawn:
        print("\r\x1b[K", end="", file=sys.stderr, flush=True)


def last_lines(log: Path, crate: str | None) -> list[str]:
    """Returns the last lines that the toolchain said before it refused a crate, or at its end."""
    said: list[str] = []
    for line in log.read_text(encoding="utf-8", errors="replace").splitlines():
        if crate and (refused := REFUSED.match(line)) and refused[1] == crate:
            break
        said = [] if line.startswith("== ") else [*said[-4:], line]
    return said


def run(copy: Path, log: Path, build: Build) -> int:
    """Runs the toolchain's gate in the copy, shows how far it is, and returns its exit status, or STOPPED."""
    stopped = threading.Event()
    children: list[subprocess.Popen[str]] = []

    def stop(*_: object) -> None:
        stopped.set()
        for child in children:
            with contextlib.suppress(OSError):
                os.killpg(child.pid, signal.SIGTERM)

    for number in (signal.SIGTERM, signal.SIGINT, signal.SIGHUP):
        signal.signal(number, stop)
    with open(log, "w", encoding="utf-8") as notes:
        child = subprocess.Popen(["rt", "ci"], cwd=copy, stdin=subprocess.DEVNULL, stdout=subprocess.PIPE, stderr=subprocess.STDOUT, text=True, errors="replace", start_new_session=True)
        children.append(child)
        if stopped.is_set():  # while it began
            stop()
        ended, is_drawn = threading.Event(), sys.stderr.isatty()
        watcher = threading.Thread(target=watch, args=(build, child.pid, ended, is_drawn))
        watcher.start()
        for line in child.stdout or ():
            notes.write(line)
            if (name := build.hear(line)) and not is_drawn:
                build.show(f"{name} is proved")
        status = child.wait()
        ended.set()
        watcher.join()
    return STOPPED if stopped.is_set() else status


def warn_of_kit(rt: str) -> None:
    """Prints a sentence where the toolchain isn't the one with which all of it was proved."""
    try:
        done = subprocess.run([rt, "version"], stdin=subprocess.DEVNULL, capture_output=True, text=True, errors="replace", timeout=20)
        found = done.stdout.strip().partition("\n")[0]
    except subprocess.TimeoutExpired:
        found = ""
    if found != KIT:
        print(f"radio_ntpd: `rt version` prints '{found}', and this is to be proved with '{KIT}': a proof may fail", file=sys.stderr)


def announce(made: Build, cache: Path, is_kept: bool) -> None:
    """Prints what a build takes, before its first proof."""
    processors = len(os.sched_getaffinity(0))
    left = as_time(made.estimate.left(time.monotonic()))
    print(f"{len(made.crates)} crates: about {left} on {processors} processors, less where some were proved before.", file=sys.stderr)
    print(f"It takes up to 5 GB of memory, and until it has ended 2 GB of disk in {cache}.", file=sys.stderr, flush=True)
    if not is_kept:
        print("radio_ntpd: the folder beside the toolchain's is not this user's, so what is proved is not kept", file=sys.stderr)


def build(top: Path, cache: Path, rt: str) -> int:
    """Builds the program of a checkout, and returns an exit status. Raises `OSError`."""
    built_program.try_place(top)
    print("radio_ntpd: proving and building the program; README.md says how long that takes.", file=sys.stderr)
    print("Meanwhile, in crates/radio_ntpd, 'rt try -- drill --seed 7' runs it unproved, in some minutes.", file=sys.stderr, flush=True)
    warn_of_kit(rt)
    is_kept, crates = keeps_proofs(rt), read_crates(top)
    copy, log = cache / "copy", cache / "log"
    since, sources = time.time(), built_program.digest_of(top)
    make_copy(top, copy, list(crates))
    is_whole = sources == built_program.digest_of(top)  # nothing was changed meanwhile
    lines = {name: count_lines(copy / "crates" / name) for name in crates}
    made = Build(crates, Estimate(crates, sizes_of(crates, lines), len(os.sched_getaffinity(0))))
    announce(made, cache, is_kept)
    status = run(copy, log, made)
    if status == STOPPED:
        more = "what is proved is kept, and the next start goes on from there" if is_kept else "the next start begins anew"
        print(f"radio_ntpd: stopped; {more}", file=sys.stderr)
        return STOPPED
    if status != 0:
        crate = made.refused
        why = f"{crate} is not proved; `rt check` in crates/{crate} says more, and" if crate else "the build failed;"
        print(f"radio_ntpd: {why} {log} has all:", *last_lines(log, crate), sep="\n    ", file=sys.stderr)
        return FAILED
    take_program(copy, top / built_program.PROGRAM, since)
    if is_whole:
        built_program.note(sources, top / built_program.PROGRAM)
    shutil.rmtree(copy, ignore_errors=True)
    return 0


def build_alone(top: Path, rt: str) -> int:
    """Builds the program, one build of a checkout at a time, and returns an exit status. Raises `OSError`."""
    cache = cache_of(top)
    with open(cache / "lock", "w", encoding="ascii") as lock:
        try:
            fcntl.flock(lock, fcntl.LOCK_EX | fcntl.LOCK_NB)
        except BlockingIOError:
            since = time.time()
            print("radio_ntpd: another build of this checkout is under way; waiting for it", file=sys.stderr)
            fcntl.flock(lock, fcntl.LOCK_EX)
            if built_program.was_put_since(top, since):
                return 0
        return build(top, cache, rt)


def main() -> int:
    """Builds the program unless it is there, or says in a sentence why that can't be done."""
    top = Path(__file__).resolve().parent.parent
    try:
        newer = built_program.newer_source(top)
        if newer and built_program.is_of_its_sources(top):
            built_program.renew(top)
            return 0
        rt = shutil.which("rt")
        if rt is None:
            why = f"is older than {newer}" if newer else "is not built yet"
            wanted = "install the Rattle kit that README.md names, and add its bin folder to PATH"
            print(f"radio_ntpd: the program {why}, and `rt` is not on PATH: {wanted}", file=sys.stderr)
            return NO_TOOLCHAIN
        return build_alone(top, rt)
    except OSError as error:
        print(f"radio_ntpd: the build failed: {error.filename or 'the host'}: {error.strerror}", file=sys.stderr)
        return FAILED
    except KeyboardInterrupt:
        return STOPPED


if __name__ == "__main__":
    sys.exit(main())
