"""What the tests of the build share: a checkout of four crates, and a toolchain that proves nothing."""

import os
import shutil
import subprocess
import sys
import tempfile
import unittest
from pathlib import Path

import build_program

HERE = Path(__file__).resolve().parent
CRATES = """# a comment
low:
left: low
right: low itoa
radio_ntpd: left right   # the program
some_tests: radio_ntpd
"""
# Says what the toolchain's gate says of each crate, and notes what it found; `slow` and `broken` name a crate.
TOOLCHAIN = """#!/bin/sh
[ "$*" != version ] || { echo "${VERSION-KIT}"; exit; }
[ "$*" = ci ] || exit 3
ls crates > "$NOTES.crates"
cp crates.txt "$NOTES.list"
find crates -name '*.edit' -o -name out > "$NOTES.left"
for name in low left right radio_ntpd; do
    echo "== $name"
    case "$SLOW" in $name) echo "$name" > "$NOTES.slow"; sleep 30 & wait $! ;; esac
    case "$BROKEN" in $name) echo "fn $name::f: not proved"; echo "logic=not-proved"; echo "rt: $name NOT PROVED"; exit 1 ;; esac
    case "$KEPT" in $name) echo "rt: $name is kept: an earlier run proved it" ;; *) echo "rt: $name proved" ;; esac
done
[ -z "$FAILS" ] || { echo "rt: the disk is full"; echo "0 passed, 1 failed"; exit 2; }
mkdir -p crates/radio_ntpd/out
printf '#!/bin/sh\\n' > crates/radio_ntpd/out/radio_ntpd
chmod +x crates/radio_ntpd/out/radio_ntpd
""".replace("KIT", build_program.KIT)


class Room(unittest.TestCase):
    """A checkout, a toolchain and what the build is run with."""

    def setUp(self):
        self.room = Path(tempfile.mkdtemp())
        self.addCleanup(shutil.rmtree, self.room)
        self.top = self.room / "top"
        for name in ("low", "left", "right", "radio_ntpd", "some_tests"):
            (self.top / "crates" / name / "src").mkdir(parents=True)
            (self.top / "crates" / name / "src" / "lib.rt").write_text("//! A crate.\n" * (40 if name == "right" else 2))
        for name, file in (("must-fail", "wrong.edit"), ("out", "old")):
            (self.top / "crates" / "low" / name).mkdir()
            (self.top / "crates" / "low" / name / file).write_text("")
        (self.top / "crates.txt").write_text(CRATES)
        (self.top / "HANDLES").write_text("Handles allowed: none.\n")
        (self.top / "build").mkdir()
        for name in ("build_program.py", "build_copy.py", "build_estimate.py", "built_program.py", "crate_graph.py"):
            shutil.copyfile(HERE / name, self.top / "build" / name)
        self.words = [sys.executable, "-B", str(self.top / "build" / "build_program.py")]
        self.program = self.top / "crates/radio_ntpd/out/radio_ntpd"
        (self.room / "kit" / "bin").mkdir(parents=True)
        self.rt = self.room / "kit" / "bin" / "rt"
        self.rt.write_text(TOOLCHAIN)
        self.rt.chmod(0o755)
        self.notes = self.room / "notes"
        self.about = {
            **os.environ,
            "PATH": f"{self.room}/kit/bin:{os.environ['PATH']}",
            "NOTES": str(self.notes),
            "XDG_CACHE_HOME": str(self.room / "cache"),
        }

    def run_build(self, **more):
        return subprocess.run(self.words, env={**self.about, **more}, capture_output=True, text=True, timeout=60)

    def noted(self, kind):
        return Path(f"{self.notes}.{kind}").read_text()
