"""Where the built program is."""

import errno
import os
from pathlib import Path

TOP = Path(__file__).resolve().parent.parent


def program() -> str:
    """The built program: RADIO_NTPD, else the one of this checkout. FileNotFoundError where none can be run."""
    path = os.path.abspath(os.environ.get("RADIO_NTPD") or TOP / "crates/radio_ntpd/out/radio_ntpd")
    if not os.access(path, os.X_OK):
        raise FileNotFoundError(errno.ENOENT, "no program; ./radio_ntpd builds it", path)
    return path
