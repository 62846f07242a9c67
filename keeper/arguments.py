"""The commands of `radio_keeper`, and the arguments of each with their ranges."""

import argparse
import sys
from collections.abc import Callable
from typing import Any, NoReturn

from keeper import VERSION
from keeper.errors import USAGE
from keeper.lateness import FEWEST

COMMANDS = {
    "run": "keeps the station's server running until SIGTERM or SIGINT; SIGHUP reads both files "
           "anew",
    "reload": "has the keeper that runs read both files anew, and says whether it took them",
    "status": "says how the station is, from the file that the keeper renews every ten seconds",
    "watch": "says how the station is, redrawn until it is interrupted",
    "check": "looks at both files, the host and the receivers before a start; changes nothing",
    "install": "installs the keeper as a service: says what it would do; --do does it",
    "calibrate": "says which delay to set for a radio, by a server's time or the host's clock",
}


class Parser(argparse.ArgumentParser):
    """An ArgumentParser that ends with our exit status where the arguments are not valid."""

    def error(self, message: str) -> NoReturn:
        self.print_usage(sys.stderr)
        print(f"{self.prog}: {message}", file=sys.stderr)
        sys.exit(USAGE)

    def _print_message(self, message: str, file: Any = None) -> None:
        """argparse's own passes over it where the output takes nothing."""
        print(message, end="", file=file)


def within(least: float, most: float, kind: type[float] = int) -> Callable[[str], float]:
    """The type of an argument that is a number from `least` to `most`."""
    def number(text: str) -> float:
        if not least <= kind(text) <= most:
            raise argparse.ArgumentTypeError(f"{text} isn't {least:g} to {most:g}")
        return kind(text)
    return number


def parsers() -> tuple[Parser, dict[str, Parser]]:
    """The parser of all arguments, and of each command its own."""
    whole = Parser(prog="radio_keeper", description="Keeps a radio_ntpd station served.",
                   epilog="radio_keeper COMMAND --help lists the arguments of each; so has man "
                   "radio_keeper.")
    whole.add_argument("--version", action="version", version=f"radio_keeper {VERSION}")
    commands = whole.add_subparsers(dest="command", metavar="COMMAND", required=True)
    found = {name: commands.add_parser(name, help=what, description=what)
             for name, what in COMMANDS.items()}
    for name, words in found.items():
        if name != "install":
            words.add_argument("--config", metavar="FILE", help="the keeper's file (keeper.toml "
                               "here or in /etc/radio_ntpd)")
        if name in ("status", "watch"):
            words.add_argument("--folder", help="where the state is, in place of what that file "
                               "says")
    form = found["status"].add_mutually_exclusive_group()
    form.add_argument("--json", action="store_true", help="the whole state as JSON")
    form.add_argument("--nagios", action="store_true",
                      help="one line, and the exit status 0, 1, 2 or 3 of a Nagios plugin")
    form.add_argument("--prometheus", action="store_true", help="what the node exporter reads")
    found["watch"].add_argument("--every", type=within(0.2, 3600, float), default=2.0,
                                metavar="SECONDS", help="how often it is redrawn, 0.2 to 3600 (2)")
    found["check"].add_argument("--seconds", type=within(0, 600), default=10, help="how long each "
                                "receiver is read, 0 to 600; 0 leaves that out (10)")
    _add_install(found["install"])
    _add_calibrate(found["calibrate"])
    return whole, found


def parse(words: list[str]) -> argparse.Namespace:
    """What these words say. Ends the process where they aren't valid."""
    return parsers()[0].parse_args(words)


def _add_install(words: Parser) -> None:
    words.add_argument("--do", action="store_true", help="do it")
    words.add_argument("--remove", action="store_true",
                       help="take it all away again, but for settings, journals, logs, the user")
    words.add_argument("--root", default="/", metavar="DIR", help="put the files below DIR, and "
                       "make no user and start nothing: for packages")
    words.add_argument("--prefix", default="/usr/local",
                       help="where programs and pages go (/usr/local)")
    words.add_argument("--program", metavar="FILE",
                       help="the built program, where it isn't in this folder")


def _add_calibrate(words: Parser) -> None:
    words.add_argument("--radio", type=int, default=0, help="its number, from 0 (0)")
    words.add_argument("--server", metavar="ADDRESS",
                       help="compare with this server; without it the host's clock counts")
    words.add_argument("--port", type=within(1, 65535), default=123,
                       help="the server's port (123)")
    words.add_argument("--pace", type=within(16, 1024), default=64,
                       help="seconds between two requests to it, 16 to 1024 (64)")
    words.add_argument("--minutes", type=within(FEWEST, 10080), default=60,
                       help=f"how long to listen, {FEWEST} to 10080 (60)")
