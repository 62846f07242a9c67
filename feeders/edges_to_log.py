#!/usr/bin/env python3
"""Turns the edges of a receiver's output into a pulse log, live: one line for each reduction of the carrier, as it ends.

    feeders/edges_to_log.py [--low] stdbuf -oL gpiomon CHIP LINE > LOG
    feeders/serial_edges.py DEVICE | feeders/edges_to_log.py [--low] > LOG

It runs the command that it is given and reads what that prints, or it reads its standard input where it is given none. A line has the seconds
of a monotonic clock and the word `rising` or `falling`, as gpiomon of libgpiod 1 and 2 and `serial_edges.py` print them. The line is high
while the carrier is reduced; with --low it is low then, as with a receiver whose output is inverted.

Reductions below 5 ms are noise and left out, and so are gaps below 5 ms within a reduction. One above 2 s is reported as 2 s, when these
are over. Where an edge was lost the reduction's width isn't known, and it is left out: its minute is refused then. Starts rise strictly.
A line that is no edge is passed over, and reported on standard error: ten a minute, and how many more there were. An edge that comes more
than two seconds after it happened is reported once: the reduction was written as 2 s by then. `stdbuf -oL` keeps a command from holding
edges back.

It exits with the command's status, and 128 and the signal's number where a signal ended it; with 0 at the end of its input and where SIGINT
or SIGTERM ended it; with 1 where its reader has ended, a read fails, or gpiomon reported an error on that input (2>&1); with 2
for invalid arguments, and with 127 where there is no such command.
"""

import argparse
import os
import re
import select
import signal
import subprocess
import sys
import time
from typing import Callable, Iterator

LEAST = 5_000  # a shorter reduction or gap is noise, in microseconds
GREATEST = 2_000_000  # the greatest width of a log
MOST_SAID, LONGEST_SAID = 10, 100  # lines that are no edge: how many are reported a minute, and how much of each
LONGEST = 4096  # what is kept of a line without an end, in bytes: it is no edge
END = 2**50  # the moments of a log are below it
# What is waited for until nothing more can belong to a reduction, in seconds; an edge may reach us some time after it happened.
SETTLED = 0.2
# libgpiod 2 and serial_edges.py: "12.345678901 rising gpiochip0 17"; libgpiod 1: "event: RISING EDGE offset: 17 timestamp: [12.345678901]".
EDGE = re.compile(rb"\s*(?P<seconds>\d{1,20})\.(?P<part>\d{1,9})\s+(?P<edge>rising|falling)\b")
EDGE_1 = re.compile(rb"event:\s*(?P<edge>RISING|FALLING) EDGE\b.*\[\s*(?P<seconds>\d{1,20})\.(?P<part>\d{1,9})\]")


def read_edge(line: bytes) -> tuple[int, bool] | None:
    """The microseconds of an edge and whether it is rising, or None where the line has none."""
    found = EDGE.match(line) or EDGE_1.match(line)
    if not found:
        return None
    at = int(found["seconds"]) * 1_000_000 + int(found["part"].ljust(9, b"0")) // 1000
    return at, found["edge"].lower() == b"rising"


class Reductions:
    """The reductions of a carrier, from its edges: `write` gets the start and the width of each, in microseconds. `warn` gets a sentence,
    once, where edges come so late that a width is wrong."""

    def __init__(self, write: Callable[[int, int], None], warn: Callable[[str], None] = lambda text: None) -> None:
        self.write, self.warn = write, warn
        self.given_up: int | None = None  # the start of the last reduction whose end was waited for in vain
        self.warned = False
        self.began: int | None = None  # the start of the reduction that goes on
        self.ended: tuple[int, int] | None = None  # the last reduction, start and end, while a gap of noise may still follow
        self.last = -1  # the last start that was written

    def report(self, start: int, width: int) -> None:
        if width >= LEAST and start > self.last:
            self.write(start, min(width, GREATEST))
            self.last = start

    def settle(self) -> None:
        """Nothing more belongs to the reduction that ended."""
        if self.ended:
            start, end = self.ended
            self.ended = None
            self.report(start, end - start)

    def cut(self) -> None:
        """The reduction that goes on is longer than a log has it."""
        if self.began is not None:
            self.report(self.began, GREATEST)
            self.began = None

    def edge(self, at: int, reduced: bool) -> None:
        """At this moment a reduction begins, or one ends."""
        self.look_for_delay(at)
        if self.ended and not 0 <= at - self.ended[1] < LEAST:
            self.settle()
        if self.began is not None and at - self.began >= GREATEST:
            self.cut()
        if reduced:
            if self.ended:
                self.began, self.ended = self.ended[0], None
            else:
                # Where one goes on already its end was lost: it is left out.
                self.began = at
        elif self.began is not None and at >= self.began:
            self.ended = (self.began, at)
            self.began = None

    def look_for_delay(self, at: int) -> None:
        """An edge within two seconds of a reduction whose end was waited for has come too late."""
        late, self.given_up = self.given_up is not None and 0 <= at - self.given_up < GREATEST, None
        if late and not self.warned:
            self.warned = True
            self.warn("an edge came more than 2 s late, so a width is wrong: does the command hold its output back (see stdbuf -oL), or was the host busy?")

    def wait(self) -> float | None:
        """How long to wait for an edge, in seconds, or None where it doesn't matter."""
        if self.ended:
            return SETTLED
        return GREATEST / 1e6 + SETTLED if self.began is not None else None

    def waited(self) -> None:
        """No edge came for that long."""
        self.settle()
        if self.began is not None:
            self.given_up = self.began
        self.cut()


def lines_of(file: int, reductions: Reductions) -> Iterator[bytes]:
    """The lines of a file as they come; `reductions` is called where none comes for a while."""
    rest = b""
    while True:
        if not select.select([file], [], [], reductions.wait())[0]:
            reductions.waited()
            continue
        piece = os.read(file, 4096)
        if not piece:
            break
        *lines, rest = (rest + piece).split(b"\n")
        yield from lines
        rest = rest[:LONGEST]
    if rest:
        yield rest


def say(text: str) -> None:
    """One line on standard error. What a terminal would obey is escaped."""
    print("".join(one if one.isprintable() else one.encode("unicode_escape").decode() for one in text), file=sys.stderr, flush=True)


class Feeder:
    """Reads edges from a file and writes their log."""

    def __init__(self, low: bool) -> None:
        self.low = low
        self.failed = False  # whether gpiomon reported an error on this input
        self.minute = 0.0  # when the next minute of reports begins (monotonic s)
        self.noise = 0  # the lines of this minute that were no edge
        self.beyond = False  # whether a moment was beyond what a log has
        self.reductions = Reductions(lambda start, width: print(start, width, flush=True), say)

    def read(self, file: int) -> None:
        """Reads all of a file."""
        for line in lines_of(file, self.reductions):
            self.line(line)
        self.close()

    def close(self) -> None:
        """Nothing more will be read: writes what is left, and reports it."""
        self.reductions.settle()
        self.say_more()

    def no_edge(self, text: str) -> None:
        """Reports a line that is no edge: MOST_SAID within a minute, and of more their number, with the first one after it."""
        now = time.monotonic()
        if now >= self.minute:
            self.say_more()
            self.minute = now + 60
        self.noise += 1
        if self.noise <= MOST_SAID:
            say(f"no edge: {text[:LONGEST_SAID]}")

    def say_more(self) -> None:
        """Reports how many lines were no edge besides those that were shown."""
        if self.noise > MOST_SAID:
            say(f"{self.noise - MOST_SAID} more lines were no edge")
        self.noise = 0

    def line(self, line: bytes) -> None:
        text = line.decode("utf-8", "replace").strip()
        if text.startswith("gpiomon:"):
            self.failed = True
            say(text)
        elif not (edge := read_edge(line)):
            if text:
                self.no_edge(text)
        elif edge[0] >= END:
            if not self.beyond:
                say(f"beyond the moments of a log: {text} (is it stamped by the monotonic clock?)")
            self.beyond = True
        else:
            self.reductions.edge(edge[0], edge[1] != self.low)


def end(child: subprocess.Popen) -> int:
    """Ends a command that may still run, and gives its exit status as a shell has it."""
    if child.poll() is None:
        child.terminate()
    try:
        status = child.wait(5)
    except subprocess.TimeoutExpired:
        child.kill()
        status = child.wait()
    return status if status >= 0 else 128 - status


def run(feeder: Feeder, command: list[str]) -> int:
    """Reads what a command prints; its exit status."""
    try:
        child = subprocess.Popen(command, stdin=subprocess.DEVNULL, stdout=subprocess.PIPE)
    except OSError as fault:
        is_log = len(command) == 1 and os.path.isfile(command[0])
        say(f"{command[0]}: {fault.strerror}" + (f" (to read it: edges_to_log.py < {command[0]})" if is_log else ""))
        return 127
    try:
        assert child.stdout is not None
        feeder.read(child.stdout.fileno())
        # It has closed its output, so it is about to end by itself.
        child.wait(5)
    except subprocess.TimeoutExpired:
        pass
    finally:
        status = end(child)
    if status:
        say(f"{command[0]} ended with {status}")
    return status


def feed(feeder: Feeder, command: list[str]) -> int:
    """Reads what a command prints, or standard input where there is none, until it ends or a signal comes; the exit status."""
    try:
        if command:
            return run(feeder, command)
        feeder.read(sys.stdin.fileno())
    except KeyboardInterrupt:
        feeder.close()
        return 0
    return 1 if feeder.failed else 0


def main() -> int:
    words = argparse.ArgumentParser(description=__doc__, formatter_class=argparse.RawDescriptionHelpFormatter)
    words.add_argument("--low", action="store_true", help="the line is low while the carrier is reduced")
    words.add_argument("command", nargs=argparse.REMAINDER, help="what prints the edges, with its own arguments")
    asked = words.parse_args()
    command = asked.command[1:] if asked.command[:1] == ["--"] else asked.command
    if not sys.stdout or not (sys.stdin or command):
        say("edges_to_log.py: its input or its output is closed")
        return 1
    feeder = Feeder(asked.low)
    signal.signal(signal.SIGTERM, signal.default_int_handler)
    try:
        return feed(feeder, command)
    except OSError as fault:
        # What stands in the buffer has nowhere to go: whoever read the log has ended, or its disk is full.
        os.dup2(os.open(os.devnull, os.O_WRONLY), sys.stdout.fileno())
        if not isinstance(fault, BrokenPipeError):
            say(f"edges_to_log.py: {fault.strerror or fault}")
        return 1


if __name__ == "__main__":
    sys.exit(main())
