"""Runs of the program with a bound on what it may hold and how long it may take."""

import os
import pathlib
import select
import shlex
import signal
import subprocess

from lab import grammar
from lab.program import program

# What a run may hold, in bytes of data, and how long it may take, in seconds.
MEMORY = 1 << 20
LONGEST = 30


class Runner:
    """Runs the program from a shell that has its limits, which starts a process faster than Python does."""

    def __init__(self, folder: pathlib.Path | str, place: int | str):
        self.out = f"{folder}/out.{place}"
        self.start()

    def start(self) -> None:
        pipe = subprocess.PIPE
        self.shell = subprocess.Popen(["/bin/sh"], bufsize=0, start_new_session=True, stdin=pipe, stdout=pipe)
        assert self.shell.stdin and self.shell.stdout
        self.commands, self.answers = self.shell.stdin, self.shell.stdout
        self.commands.write(f"ulimit -c 0; ulimit -d {MEMORY // 1024}\n".encode())

    def __call__(self, words: list[str]) -> tuple[bytes, int]:
        """Returns what the program writes, and its status; Wrong where it hangs, or a signal ends it."""
        line = " ".join(map(shlex.quote, (program(), *words)))
        self.commands.write(f"{line} > {self.out} < /dev/null; echo $?\n".encode())
        if not select.select([self.answers], [], [], LONGEST)[0]:
            self.end()
            self.start()
            raise grammar.Wrong(f"hangs: {line}")
        status = int(os.read(self.answers.fileno(), 64))
        grammar.need(status < 128, f"ended by signal {status - 128}: {line}")
        with open(self.out, "rb") as file:
            return file.read(), status

    def end(self) -> None:
        """Ends the shell, and what it runs."""
        os.killpg(self.shell.pid, signal.SIGKILL)
        self.shell.wait()
