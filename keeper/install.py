"""`install`: the keeper as a service. Without `--do` it only says what it would do."""

import argparse
import grp
import os
import re
import runpy
import shutil
import subprocess
from collections.abc import Callable, Iterator
from functools import partial
from pathlib import Path

from keeper.chosen_file import BUILT, USER, built_program
from keeper.whole_files import LINK, Tree, file_at, has_tree, put_file, put_folder
from keeper.errors import DONE, Fault

Step = tuple[str, Callable[[], object]]  # what is done, and what does it
SETTINGS = "/etc/radio_ntpd"
SYSTEMD = "/run/systemd/system"  # is there where systemd is the host's
UNITS = ("radio_ntpd.socket", "radio_ntpd.service")
USERS, MODES = f"{{system}}/sysusers.d/{USER}.conf", f"{{system}}/tmpfiles.d/{USER}.conf"
# Where each file of the sources goes, and what a link leads to: `system` is where the host looks
# for units, and `below` the prefix.
FILES = {
    **{f"{{system}}/systemd/system/{name}": f"packaging/{name}" for name in UNITS},
    USERS: "packaging/radio_ntpd.sysusers",
    MODES: "packaging/radio_ntpd.tmpfiles",
    "{below}/share/man/man1/radio_keeper.1": "docs/radio_keeper.1",
    "{below}/share/man/man5/radio_ntpd.toml.5": "docs/radio_ntpd.toml.5",
    "{below}/share/man/man8/radio_ntpd.8": "docs/radio_ntpd.8",
}
LINKS = {
    "{below}/sbin/radio_ntpd": "../lib/radio_ntpd/bin/radio_ntpd",
    "{below}/bin/radio_keeper": "../lib/radio_ntpd/radio_keeper",
}
# Of tools/ those for users. A picture of a day works pages out by the model that the checks have.
TOOLS = ("entry_times.py", "journal_text.py", "plot_journal.py", "plots.py", "refused_output.py",
         "summary.sh", "svg_chart.py")
MODEL = ("__init__.py", "entry.py", "figures.py", "notes.py", "page.py", "selection.py", "units.py")
LIMIT = 60.0  # for a command of the host, in seconds
TOP = Path(__file__).resolve().parent.parent
AGE = TOP / "build/built_program.py"  # says whether a checkout's program is of its sources


class Places:
    """Where each part goes, below a root and a prefix."""

    def __init__(self, root: str, prefix: str) -> None:
        self.prefix = prefix.rstrip("/")
        self.below = root + self.prefix
        self.system = f"{self.below}/lib" if self.prefix == "/usr" else f"{root}/etc"
        self.library = f"{self.below}/lib/radio_ntpd"
        self.settings = root + SETTINGS

    def at(self, place: str) -> str:
        """The name of a place of FILES or LINKS."""
        return place.format(below=self.below, system=self.system)

    def adapted(self, source: str) -> bytes:
        """A file of the sources with the prefix put in. Raises OSError."""
        return (TOP / source).read_bytes().replace(b"@PREFIX@", self.prefix.encode())


def library(program: str) -> Tree:
    """The folder of the program and the keeper: no tests, no hidden files. Raises OSError."""
    found = [TOP / "radio_keeper", *(TOP / "tools" / name for name in TOOLS),
             *(TOP / "lab/model" / name for name in MODEL)]
    for folder in ("keeper", "feeders"):
        found += [one for one in (TOP / folder).rglob("*") if one.is_file() and not re.search(
            r"/(\.|test_|tests/|__pycache__)", str(one.relative_to(TOP)))]
    tree = {str(one.relative_to(TOP)): (one.read_bytes(), 0o755 if os.access(one, os.X_OK)
                                        else 0o644) for one in sorted(found)}
    return {"bin/radio_ntpd": (Path(program).read_bytes(), 0o755), **tree}


def file_steps(places: Places, program: str) -> Iterator[Step]:
    """What is to be written, in order. Raises OSError."""
    tree = library(program)
    if not has_tree(places.library, tree):
        what = f"put {len(tree)} files into {places.library}"
        yield what, partial(put_folder, places.library, tree)
    files = {places.at(link): (target.encode(), LINK) for link, target in LINKS.items()}
    files |= {places.at(at): (places.adapted(source), 0o644) for at, source in FILES.items()}
    for path, (text, mode) in files.items():
        if file_at(path) != (text, mode):
            yield f"write {path}", partial(put_file, path, text, mode)
    for name in ("keeper.toml", "station.toml"):
        path = f"{places.settings}/{name}"
        if not os.path.lexists(path):
            what = f"write an example {path}, to be changed by you"
            yield what, partial(put_file, path, places.adapted(f"packaging/{name}"), 0o640)


def command(*words: str) -> None:
    """Runs a command of the host, whose errors go to standard error. Raises Fault where it fails,
    and OSError where it isn't there."""
    try:
        status = subprocess.run(words, stdin=subprocess.DEVNULL, timeout=LIMIT).returncode
    except subprocess.TimeoutExpired as error:
        raise Fault(f"`{' '.join(words)}` isn't over after {LIMIT:.0f} s") from error
    if status != 0:
        raise Fault(f"`{' '.join(words)}` ended with {status}")


def host_steps(places: Places, is_new: bool) -> Iterator[Step]:
    """The user and its groups, and what systemd has to know, where it is the host's. `is_new`: a
    file is written."""
    has_gpio = any(group.gr_name == "gpio" for group in grp.getgrall())
    has_systemd = os.path.isdir(SYSTEMD)
    rows: tuple[tuple[bool, str, tuple[str, ...]], ...] = (
        (True, f"make the system user {USER}", ("systemd-sysusers", places.at(USERS))),
        (has_gpio, f"put {USER} into the group gpio, whose devices it then may read",
         ("usermod", "-aG", "gpio", USER)),
        (True, f"let the group {USER} read {places.settings}, which may have what isn't for "
         "everybody", ("systemd-tmpfiles", "--create", places.at(MODES))),
        (has_systemd, "have systemd read its units anew", ("systemctl", "daemon-reload")),
        (has_systemd and is_new, "start the service again, if it runs",
         ("systemctl", "try-restart", USER)))
    yield from ((what, partial(command, *words)) for is_due, what, words in rows if is_due)


def removing(places: Places, here: bool) -> Iterator[Step]:
    """All of it again, but for what is the operator's: settings, journals, logs, their user."""
    there = [path for path in map(places.at, (*FILES, *LINKS)) if os.path.lexists(path)]
    here = here and os.path.isdir(SYSTEMD)
    if here and there:
        yield "stop the service", partial(command, "systemctl", "disable", "--now", *UNITS)
    for path in there:
        yield f"remove {path}", partial(os.unlink, path)
    if os.path.lexists(places.library):
        yield f"remove {places.library}", partial(shutil.rmtree, places.library)
    if here:
        yield "have systemd read its units anew", partial(command, "systemctl", "daemon-reload")


def named_program(named: str | None) -> str:
    """The program that is to be installed. Raises Fault where it isn't there, and where it is this
    checkout's and older than its sources."""
    program = named or built_program()
    if not os.access(program, os.X_OK):
        raise Fault(f"there is no built program {program}: build it, or name it with --program")
    if not named and os.path.realpath(program) == os.path.realpath(TOP / BUILT[1]):
        built = runpy.run_path(str(AGE))
        source = built["newer_source"](TOP)
        if source and not built["is_of_its_sources"](TOP):
            raise Fault(f"the program is older than {source}: run ./radio_ntpd once, which builds"
                        " it again where that is needed, or name a program with --program")
    return program


def main(asked: argparse.Namespace) -> int:
    """The exit status."""
    if not asked.prefix.startswith("/"):
        raise Fault("--prefix is no whole path")
    here = os.path.realpath(asked.root) == "/"
    if asked.do and here and os.geteuid() != 0:
        raise Fault("only root can do that; without --do it says what it would do")
    places = Places(os.path.abspath(asked.root).rstrip("/"), asked.prefix)
    if asked.remove:
        steps = list(removing(places, here))
    else:
        steps = list(file_steps(places, named_program(asked.program)))
        steps += host_steps(places, bool(steps)) if here else []
    os.umask(0o022)  # the service's user has to enter each folder that is made
    for text, act in steps:
        print(f"{'' if asked.do else 'would '}{text}", flush=True)
        if asked.do:
            act()
    if not asked.do and not asked.remove:
        print("nothing was done; --do does it")
    elif not asked.remove:
        print(f"next: set {places.settings}/keeper.toml and station.toml, then `radio_keeper "
              "check`, then `systemctl enable --now radio_ntpd`, then `radio_keeper status`")
    return DONE
