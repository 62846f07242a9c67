#!/usr/bin/env python3
"""Binds a UDP port as systemd would, and becomes a command that finds it as its socket.

    handed_over.py PORT COMMAND [ARGUMENT...]

sd_listen_fds(3) has the environment that the command gets.

Exit status: that of the command, 1 where the port or the command can't be had, 2 invalid arguments.
"""

import argparse
import os
import socket
import sys

FIRST = 3  # SD_LISTEN_FDS_START


def main() -> None:
    words = argparse.ArgumentParser(description="Runs a command with a bound port, as systemd does.")
    words.add_argument("port", type=int, choices=range(1, 65536), metavar="PORT")
    words.add_argument("command", nargs=argparse.REMAINDER, metavar="COMMAND")
    given = words.parse_args()
    if not given.command:
        words.error("which command?")
    with socket.socket(socket.AF_INET, socket.SOCK_DGRAM) as link:
        try:
            link.bind(("0.0.0.0", given.port))
            os.dup2(link.fileno(), FIRST)
            os.set_inheritable(FIRST, True)  # it may be the same number
            about = {"LISTEN_PID": str(os.getpid()), "LISTEN_FDS": "1", "LISTEN_FDNAMES": "port"}
            os.execvpe(given.command[0], given.command, {**os.environ, **about})
        except OSError as error:
            sys.exit(f"handed_over.py: {error}")


if __name__ == "__main__":
    main()
