"""How a tool ends where its output takes nothing any more."""

import os
import sys


def end_of_output(name: str, fault: OSError) -> int:
    """Discards what stands in the output's buffer, and names the fault where somebody still reads; the exit status.

    Whoever read has ended, which needs no sentence, or the disk is full.
    """
    os.dup2(os.open(os.devnull, os.O_WRONLY), sys.stdout.fileno())
    if not isinstance(fault, BrokenPipeError):
        print(f"{name}: " + ": ".join(str(one) for one in (fault.filename, fault.strerror) if one), file=sys.stderr)
    return 1
