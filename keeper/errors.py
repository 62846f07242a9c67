"""How a command ends when it can't be done: exit statuses, `Fault`, and the sentences on what the
program or the host says."""

DONE = 0
NOT_WELL = 1  # what was asked for was done, and something isn't well
CRITICAL = 2  # `status`, also with `--nagios`: nobody gets the time
UNKNOWN = 3  # `status --nagios` alone: nothing is known
USAGE = 64  # the arguments aren't valid; nothing was done
HOST = 71  # the host refused something: a file, a port, a process
REFUSED = 78  # the keeper's file or the station file is refused
INTERRUPTED = 130  # by SIGINT, as a shell says it


def plain(text: str) -> str:
    """A text for a terminal: a character that would control it is a question mark."""
    return "".join(one if one.isprintable() or one == "\n" else "?" for one in text)


class Fault(Exception):
    """A command can't be done: one sentence for the person who gave it, and the exit status."""

    def __init__(self, text: str, status: int = HOST):
        super().__init__(plain(text))
        self.status = status


def reason(said: bytes) -> str:
    """The program's own last sentence on its standard error, without its name; nothing where it
    says none."""
    lines = said.decode("utf-8", "replace").strip().splitlines()
    return lines[-1].removeprefix("radio_ntpd: ") if lines else ""


def sentence(error: OSError) -> str:
    """What the host says of a call that failed, with the file's name where there is one."""
    what = error.strerror or str(error)
    return f"{error.filename}: {what}" if error.filename is not None else what


def ended(status: int | None) -> str:
    """How a process ended, by the exit status that Python gives: a negative one is a signal's
    number. None is of one that hasn't ended."""
    if status is None:
        return "closed its output and goes on"
    return f"ended with {status}" if status >= 0 else f"was ended by signal {-status}"
