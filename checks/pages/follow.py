"""Follows the commands of the pages in a Debian that systemd-nspawn runs: `checks/followed.sh` makes it, and starts this.

    python3 -m checks.pages.follow packages      prints a line of shell for each package that the pages have installed
    python3 -m checks.pages.follow LEADER        runs the table of followed.py in the Debian whose first process is LEADER

With --packaged the package is installed first, and its names of the programs stand in the place of those of the folder.

Exit status: 0 each command did what its page says, 1 one didn't, 2 wrong arguments.
"""

import argparse
import re
import subprocess
import sys
import time

from checks.pages.commands import commands_of
from checks.pages.followed import CONTRIBUTING, LEFT, PACKAGE, PACKAGED, PACKAGES, ROWS, Row

FOLDER = "/root/radio_ntpd"
LIMIT = 900.0  # for a row, in seconds
ENVIRONMENT = {"PATH": "/usr/local/sbin:/usr/local/bin:/usr/sbin:/usr/bin:/sbin:/bin", "HOME": "/root", "USER": "root", "LC_ALL": "C.UTF-8",
               "TERM": "xterm", "PAGER": "cat"}


def script_of(row: Row, packaged: bool = False) -> str:
    """What a row has the shell run: the page's commands without their comments, with what is given in place of its words."""
    script = row.script
    for number, command in enumerate(row.commands):
        command = re.sub(r"\s+# .*$", "", command)
        for word, value in row.given:
            command = command.replace(word, value)
        script = script.replace(f"@{number}", command)
    for name, installed in PACKAGED if packaged else ():
        script = re.sub(name, installed, script)
    return f"cd {FOLDER} || exit 99\n{script}\n"


def faults_of(row: Row, status: int, said: str) -> list[str]:
    """What a row's output and status lack of what its page says."""
    lines = said.splitlines()
    found = [] if status == row.status else [f"it ends with {status}"]
    found += [f"no line has '{text}'" for text in row.shows if not any(text in line for line in lines)]
    found += [f"no line is '{form}'" for form in row.matches if not any(re.fullmatch(form, line.strip()) for line in lines)]
    if row.exact:
        shown = next(one.shown for one in commands_of(row.page) if one.text == row.commands[0])
        found += [] if tuple(lines) == shown else ["it says something else than the page shows"]
    return found


def follow(row: Row, leader: int, packaged: bool) -> bool:
    """Runs a row in the Debian, says how that ended, and returns whether it is as the page says."""
    words = ["nsenter", "--all", "--root", "--wd", f"--target={leader}", "sh", "-c", script_of(row, packaged)]
    began = time.monotonic()
    try:
        done = subprocess.run(words, stdin=subprocess.DEVNULL, stdout=subprocess.PIPE, stderr=subprocess.STDOUT, timeout=LIMIT, env=ENVIRONMENT)
        status, said = done.returncode, done.stdout.decode(errors="replace")
    except subprocess.TimeoutExpired as late:
        status, said = 124, (late.stdout or b"").decode(errors="replace")
    faults = faults_of(row, status, said)
    print(f"followed: {row.page}: {' ; '.join(row.commands)[:100]}: {'; '.join(faults) or 'well'}, {time.monotonic() - began:.0f} s", flush=True)
    if faults:
        print("".join(f"    {line}\n" for line in said.splitlines()[-15:]), end="", flush=True)
    return not faults


def main() -> int:
    """The exit status."""
    parser = argparse.ArgumentParser(description=__doc__, formatter_class=argparse.RawDescriptionHelpFormatter)
    parser.add_argument("what", metavar="packages|LEADER", help="'packages', or the number of the Debian's first process")
    parser.add_argument("--only", metavar="PAGE", help="the rows of one page alone")
    parser.add_argument("--packaged", action="store_true", help="follow them where the package is installed")
    asked = parser.parse_args()
    packages = [command for page, command in PACKAGES if not (asked.packaged and page == CONTRIBUTING)]
    if asked.what == "packages":
        print(*packages, sep="\n")
        return 0
    if not asked.what.isdigit():
        parser.error(f"no number of a process: {asked.what}")
    rows = [row for row in ROWS if asked.only in (None, row.page)]
    if asked.packaged:
        first = [row for row in ROWS if PACKAGE in row.commands]
        rows = [*first, *(row for row in rows if not row.built and row not in first)]
    passed = [follow(row, int(asked.what), asked.packaged) for row in rows]
    for left in LEFT:
        print(f"followed: not here: {left.page}: {len(left.commands)} of these, {left.why}: {'; '.join(left.commands)[:100]}")
    run = sum(len(row.commands) for row in rows) + len(packages)
    print(f"followed: {run} commands were run, {sum(len(left.commands) for left in LEFT)} were not; {passed.count(False)} of {len(rows)} rows differ")
    return 0 if all(passed) else 1


if __name__ == "__main__":
    sys.exit(main())
