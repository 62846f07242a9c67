"""`./radio_keeper COMMAND`: finds the command's module and ends with what it says. No traceback
reaches a person."""

import contextlib
import importlib
import os
import sys

from keeper.arguments import parse
from keeper.errors import DONE, HOST, INTERRUPTED, Fault, plain, sentence

MODULES = {"watch": "status"}  # `watch` is a way of `status`
OURS = ("PYTHONPATH", "PYTHONDONTWRITEBYTECODE", "PYTHONIOENCODING")


def run(words: list[str]) -> int:
    """The exit status of these words. Raises what the commands raise."""
    try:
        asked = parse(words)
    except SystemExit as end:  # by --help, by --version, or since they are not valid
        return int(end.code or DONE)
    module = importlib.import_module(f"keeper.{MODULES.get(asked.command, asked.command)}")
    return int(module.main(asked))


def main(words: list[str]) -> int:
    """The exit status of these words; what goes wrong is one sentence on standard error."""
    name = " ".join(["radio_keeper", *words[:1]])
    for one in OURS:  # and not of receivers' and alarms' commands
        os.environ.pop(one, None)
    try:
        status = run(words)
        sys.stdout.flush()
        return status
    except Fault as fault:
        print(plain(f"{name}: {fault}"), file=sys.stderr)
        return fault.status
    except OSError as error:
        if not isinstance(error, BrokenPipeError):  # else whoever read what we print has ended
            print(plain(f"{name}: {sentence(error)}"), file=sys.stderr)
        with contextlib.suppress(OSError):  # what stands in the buffer has nowhere to go
            stdout = sys.stdout.fileno()
            os.dup2(os.open(os.devnull, os.O_WRONLY), stdout)
        return HOST
    except KeyboardInterrupt:
        return INTERRUPTED


if __name__ == "__main__":
    sys.exit(main(sys.argv[1:]))
