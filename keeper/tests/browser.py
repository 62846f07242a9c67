"""The page in a real browser, headless Chromium: nothing is wider than a phone or a wall, and a
page that is old says so.

    python3 -B -m keeper.tests.browser [PICTURE]

ends with 0 where that holds, with 1 where it doesn't, and with 77 where no Chromium is installed.
PICTURE gets what a wall shows of a made-up station. It isn't one of the tests that run by
themselves, since a browser takes seconds to start.
"""

import os
import re
import shutil
import subprocess
import sys
import tempfile
import time

from keeper.reporter import page
from keeper.reporter.state import State
from keeper.tests.made_station import made_station

ASKS = """<script>document.title = [innerWidth, document.documentElement.scrollWidth,
document.getElementById('old').className].join('|')</script>"""
SKIPPED = 77  # as automake's tests have it
PICTURED = 1767268790.0  # what the picture shows: 2026-01-01 11:59:50 UTC
LIMIT = 120  # for one start of the browser, in seconds


def browse(html: str, width: int, height: int, *words: str) -> bytes:
    """What the browser prints of a page."""
    with tempfile.TemporaryDirectory() as folder:
        path = os.path.join(folder, "page.html")
        with open(path, "w", encoding="utf-8") as file:
            file.write(html.replace('http-equiv="refresh"', ""))
        given = ["chromium", "--headless=new", "--no-sandbox", "--disable-gpu", "--hide-scrollbars",
                 f"--user-data-dir={folder}/profile", f"--window-size={width},{height}"]
        done = subprocess.run([*given, *words, f"file://{path}"], capture_output=True,
                              timeout=LIMIT, check=True)
        return done.stdout


def fits(width: int, state: State, now: float) -> tuple[bool, bool]:
    """Whether the page is no wider than the window, and whether it says that it is old."""
    asking = page.render(state, now).replace("</body>", ASKS + "</body>")
    told = browse(asking, width, 900, "--dump-dom")
    seen = re.search(rb"<title>(\d+)\|(\d+)\|([a-z ]*)</title>", told)
    assert seen, "the page didn't measure itself"
    inner, needed, old = seen.groups()
    return int(needed) <= int(inner), b"shown" in old


def main(words: list[str]) -> int:
    if not shutil.which("chromium"):
        print("browser: no Chromium is installed", file=sys.stderr)
        return SKIPPED
    now = time.time()
    bad = 0
    for width, age in ((500, 0), (2560, 3600)):
        narrow, old = fits(width, made_station(now - age), now - age)
        if not narrow or old != bool(age):
            how = f"{'fits' if narrow else 'is too wide'} and is {'old' if old else 'fresh'}"
            print(f"browser: at {width} pixels the page {how}", file=sys.stderr)
            bad = 1
    if words:
        # Without what says that the page is old: it is of a stated moment.
        still = page.render(made_station(PICTURED), PICTURED).partition("<script>")[0]
        browse(still, 1740, 1090, "--force-device-scale-factor=0.6",
               f"--screenshot={os.path.abspath(words[0])}")
    return bad


if __name__ == "__main__":
    sys.exit(main(sys.argv[1:]))
