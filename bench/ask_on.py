"""Asks a server at a port of 127.0.0.1 again and again, each time until it is answered or a fifth of a second has passed. It's for
servers under callgrind, which end by themselves; the asking is ended from outside."""
import argparse

from lab import ends
from lab.client import ask


def main() -> None:
    words = argparse.ArgumentParser(description=__doc__)
    words.add_argument("port", type=int)
    port = words.parse_args().port
    while True:
        ask(port, 0.2)


if __name__ == "__main__":
    ends.run(main)
