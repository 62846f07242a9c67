"""Which keeper's file, and which program, a command takes where none is named."""

import os
import stat

from keeper.errors import REFUSED, Fault

HERE = "keeper.toml"
INSTALLED = "/etc/radio_ntpd/keeper.toml"
USER, SERVED = "radio_ntpd", "/var/lib/radio_ntpd"  # the installed service's, and its state folder
BUILT = ("bin/radio_ntpd", "crates/radio_ntpd/out/radio_ntpd")  # as installed, and in a checkout


def chosen(named: str | None) -> str:
    """The file that is named, else the one of the working folder, of which root takes none that
    another could have written, else the installed one. Raises Fault."""
    if named:
        return named
    is_here = os.path.exists(HERE)
    if is_here and (os.geteuid() != 0 or is_roots(os.path.abspath(HERE))):
        return HERE
    if os.path.exists(INSTALLED):
        return INSTALLED
    if is_here:
        why = f"others than root can change it; root takes it by --config {HERE} alone"
        raise Fault(f"{HERE}: {why}", REFUSED)
    what = "--config names one, and docs/FIRST_EVENING.md writes one"
    raise Fault(f"there is no {HERE} here and no {INSTALLED}: {what}", REFUSED)


def is_roots(path: str) -> bool:
    """Whether root alone can change a file, or put another one in its place."""
    while True:
        about = os.lstat(path)
        mode = about.st_mode
        by_others = mode & stat.S_IWOTH or (mode & stat.S_IWGRP and about.st_gid)
        is_kept = mode & stat.S_ISVTX and stat.S_ISDIR(mode)  # in /tmp what is root's stays root's
        if about.st_uid or stat.S_ISLNK(mode) or (by_others and not is_kept):
            return False
        if path == "/":
            return True
        path = os.path.dirname(path)


def built_program() -> str:
    """The program where none is named: by RADIO_NTPD, else beside this package."""
    top = os.path.dirname(os.path.dirname(os.path.abspath(__file__)))
    places = [os.environ.get("RADIO_NTPD", ""), *(os.path.join(top, one) for one in BUILT)]
    return next((one for one in places if one and os.path.isfile(one)), places[-1])
