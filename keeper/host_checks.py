"""Looks at the host before a start: ports, sources, the clock, the folder. Each look gives
findings, which are sentences with a level."""

import errno
import os
import pwd
import re
import shutil
import socket
import stat
import subprocess
from collections.abc import Iterator

from keeper.chosen_file import INSTALLED, SERVED, USER
from keeper.config import Radio, Settings, opened
from keeper.receiver import Finding, Level

CLOCKS = "/sys/devices/system/clocksource/clocksource0"
GOOD_CLOCKS = ("tsc", "arch_sys_counter", "kvm-clock", "hyperv_clocksource_tsc_page", "xen",
               "riscv_clocksource", "stp", "timer")
QUOTED, BETWEEN = re.compile(r"'[^']*'|\"[^\"]*\""), re.compile(r"[|;]|(?<!>)&")
# A program stands after one of these, or of a feeder, which is one itself.
BEFORE = re.compile(r"exec|stdbuf|nice|env|\w+=.*|-.*")
FEEDER = "edges_to_log.py"


def name_of(place: int, radio: Radio) -> str:
    """A radio in a finding."""
    return f"radio {place} ({radio.name or radio.plan})"


def look(settings: Settings) -> Iterator[Finding]:
    """All but the ports."""
    for place, radio in enumerate(settings.radios):
        yield look_at_source(radio, place)
        if radio.steady and radio.kind == "command" and "steady.py" in radio.value:
            yield Level.BAD, (f"{name_of(place, radio)}: its command steadies it too: take "
                              "`steady.py` out of the command, so that the log has its pulses as "
                              "they came")
    if settings.alarms.command:
        yield _look_at_command("alarms.command", settings.alarms.command)
    yield look_at_clock()
    yield look_at_folder(settings.folder)


def look_at_ports(settings: Settings, running: bool) -> Iterator[Finding]:
    """Where a keeper is running its ports are taken by itself."""
    if not settings.links:
        yield Level.NOTE, "the station has no [[link]]: nobody is answered"
    for one in settings.links:
        said = Level.WELL, f"port {one} is served by the keeper that runs"
        yield said if running else look_at_port(one)


def look_at_port(port: int) -> Finding:
    """Whether a link could have this port now."""
    with socket.socket(socket.AF_INET, socket.SOCK_DGRAM) as trial:
        try:
            trial.bind(("0.0.0.0", port))
        except OSError as error:
            if error.errno == errno.EADDRINUSE:
                whose = f"`ss -ulpn 'sport = {port}'` says by whom"
                chrony = "chronyd gives port 123 back with `port 0` in its file"
                return Level.BAD, f"port {port} is taken: {whose}; {chrony}"
            if error.errno in (errno.EACCES, errno.EPERM):
                who = "systemd binds it for the installed service (radio_ntpd.socket)"
                return Level.NOTE, f"port {port} needs a right that you don't have; {who}"
            return Level.BAD, f"port {port} can't be had: {error.strerror}"
    return Level.WELL, f"port {port} is free"


def look_at_source(radio: Radio, place: int) -> Finding:
    """Whether a radio's source is there; it isn't opened."""
    name, path = name_of(place, radio), radio.value
    if radio.kind == "command":
        return _look_at_command(name, path)
    is_kind, what = {"fifo": (stat.S_ISFIFO, "FIFO"), "file": (stat.S_ISREG, "file")}[radio.kind]
    try:
        mode = os.stat(path).st_mode
    except OSError as error:
        can_make = radio.kind == "fifo" and error.errno == errno.ENOENT
        hint = f": `mkfifo {path}` makes it" if can_make else ""
        return Level.BAD, f"{name}: {path}: {error.strerror}{hint}"
    if not is_kind(mode):
        return Level.BAD, f"{name}: {path} is no {what}"
    if not os.access(path, os.R_OK):
        return Level.BAD, f"{name}: {path} may not be read by you"
    return Level.WELL, f"{name}: {path} is there"


def _look_at_command(name: str, command: str) -> Finding:
    missing = [one for one in _programs_of(command) if not _is_program(one)]
    if missing:
        hint = "; `apt install gpiod` has it" if "gpiomon" in missing else ""
        return Level.BAD, f"{name}: there is no program {', '.join(missing)}{hint}"
    return Level.WELL, f"{name}: the programs of its command are there"


def _programs_of(command: str) -> Iterator[str]:
    """The programs that a command begins, where not only the shell itself knows them."""
    for part in BETWEEN.split(QUOTED.sub("'", command)):
        for word in part.split():
            if BEFORE.fullmatch(word):
                continue
            if set(word) & set("$*?<>&()`'\""):
                break
            yield word
            if os.path.basename(word) != FEEDER:
                break


def _is_program(word: str) -> bool:
    """Whether the shell that runs commands knows this one, be it a word of its own."""
    words = ["/bin/sh", "-c", 'command -v -- "$1"', "sh", word]
    return subprocess.run(words, stdout=subprocess.DEVNULL).returncode == 0


def look_at_clock(folder: str = CLOCKS) -> Finding:
    """Which counter the kernel reads."""
    try:
        with open(os.path.join(folder, "current_clocksource"), encoding="ascii") as file:
            name = file.read().strip()
    except OSError:
        return Level.NOTE, "the kernel doesn't say which clock source it has"
    if name.startswith(GOOD_CLOCKS):
        return Level.WELL, f"the clock source is {name}"
    others = f"`cat {folder}/available_clocksource` lists others"
    return Level.NOTE, f"the clock source is {name}, which is slow or coarse; {others}"


def look_at_folder(folder: str) -> Finding:
    """Whether the keeper could write into its folder, or make it."""
    there = folder
    while not os.path.exists(there):
        there = os.path.dirname(there) or "/"
    if not os.path.isdir(there):
        return Level.BAD, f"{folder} can't be a folder: {there} is none"
    if not os.access(there, os.W_OK | os.X_OK):
        if folder == SERVED and there != folder:
            return Level.WELL, f"{folder} is made by the unit as it starts"
        return Level.NOTE, f"you may not write into {there}; the service's user has to"
    free = shutil.disk_usage(there).free >> 20
    if free < 256:
        level = Level.NOTE if free else Level.BAD
        return level, (f"{there} has {free} MB left; a radio's logs and journals of a month take "
                       "about 20 MB")
    return Level.WELL, f"{folder} can be written, {free} MB are free"


def become_service(settings: Settings, user: str = USER) -> list[Finding]:
    """From here on root has no more rights than the service, where the installed file is looked at:
    what it names must do no more here than there, nor less. What the service may not read is said.
    """
    if os.geteuid() != 0 or settings.path != INSTALLED:
        return []
    try:
        its = pwd.getpwnam(user)
    except KeyError:
        return []
    os.initgroups(user, its.pw_gid)
    os.setgid(its.pw_gid)
    os.setuid(its.pw_uid)
    try:
        os.chdir(its.pw_dir)
    except OSError:
        os.chdir("/")
    found = [(Level.WELL, f"what follows is looked at as the user {user}, as the service is")]
    for path in (settings.path, settings.station):
        try:
            opened(path).close()
        except OSError as error:
            lets = f"`chgrp {user} {path}` and `chmod 640 {path}` let the service read it"
            found.append((Level.BAD, f"{path}: {error.strerror}: {lets}"))
    return found
