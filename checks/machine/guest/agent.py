#!/usr/bin/env python3
"""In the machine: runs the commands that come over a port of virtio-serial, one after the other.

A command is a line of JSON with `number`, `command` (a shell's, or empty for none) and `limit` (s). Its answer has `number`, `status` (124
where the limit was reached), `text`, what it wrote, and `monotonic`, that clock when it had ended (s).
"""

import json
import os
import subprocess
import sys
import time

PORT = "/dev/virtio-ports/shell"


def run(command: str, limit: float) -> tuple[int, str]:
    """The exit status of a shell's command, and what it wrote."""
    try:
        done = subprocess.run(
            ["bash", "-c", command],
            stdin=subprocess.DEVNULL,
            stdout=subprocess.PIPE,
            stderr=subprocess.STDOUT,
            timeout=limit,
            start_new_session=True,
        )
    except subprocess.TimeoutExpired as late:
        return 124, (late.stdout or b"").decode(errors="replace")
    return done.returncode, done.stdout.decode(errors="replace")


def answer(line: bytes) -> bytes:
    """Does what a line says. Returns the line that answers it."""
    told = json.loads(line)
    status, text = run(told["command"], told["limit"]) if told["command"] else (0, "")
    return json.dumps({"number": told["number"], "status": status, "text": text, "monotonic": time.monotonic()}).encode() + b"\n"


def main() -> None:
    """Takes commands for as long as the machine runs."""
    port, held = os.open(PORT, os.O_RDWR), b""
    while True:
        got = os.read(port, 65536)
        if not got:
            time.sleep(0.05)  # nobody is at the other end
            continue
        *lines, held = (held + got).split(b"\n")
        for line in lines:
            left = answer(line)
            while left:
                left = left[os.write(port, left[:4096]) :]


if __name__ == "__main__":
    try:
        main()
    except OSError as fault:
        sys.exit(f"agent.py: {fault.filename or PORT}: {fault.strerror}")
