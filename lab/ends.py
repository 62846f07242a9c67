"""How a program ends: what the host refuses is said in one sentence, never as a traceback."""

import contextlib
import os
import pathlib
import sys
from typing import Callable, NoReturn


def run(main: Callable[[], int | None]) -> NoReturn:
    """Runs a program: it exits with what `main` gives, with 1 where the host refused something, with 130 where it was interrupted."""
    try:
        status = main()
        sys.stdout.flush()
    except OSError as fault:
        with contextlib.suppress(OSError):
            sys.stdout.flush()
        # Whoever read has ended, or the disk is full: what stands in the buffer has nowhere to go.
        os.dup2(os.open(os.devnull, os.O_WRONLY), sys.stdout.fileno())
        if isinstance(fault, BrokenPipeError):
            sys.exit(1)
        said = ": ".join(str(one) for one in (fault.filename, fault.strerror) if one)
        sys.exit(f"{pathlib.Path(sys.argv[0]).name}: {said or fault}")
    except KeyboardInterrupt:
        sys.exit(130)
    sys.exit(status)
