#!/usr/bin/env python3
"""Tests of plot_journal.py as it is called: pictures, and what it refuses.

    tools/test_plot_journal.py
"""

import os
import pathlib
import subprocess
import sys
import tempfile
import unittest
import xml.etree.ElementTree

HERE = pathlib.Path(__file__).resolve().parent
from made_entries import NOON, verdicts
from plot_journal import phases_of


class Pictures(unittest.TestCase):
    def draw(self, *words):
        return subprocess.run([sys.executable, "-B", HERE / "plot_journal.py", *words], capture_output=True, timeout=300)

    def read(self, name, colour):
        """How many shapes of this colour a picture has."""
        drawn = xml.etree.ElementTree.parse(name).getroot()
        return sum(colour in (one.get("fill"), one.get("stroke")) for one in drawn)

    def test_each_is_drawn(self):
        with tempfile.TemporaryDirectory() as folder:
            for name, hours, green in (("short", 1, 13), ("long", 5, 21)):
                journal = pathlib.Path(folder, name)
                lines = [f"j2 {number} 920 {entry.feed} {entry.at} {entry.kind} {' '.join(entry.fields)}\n" for number, entry in enumerate(verdicts(range(60 * hours)), 1)]
                journal.write_text("".join(lines) + "0 4000000000 refused 3\npage 5\nstatus 0\n")
                pictures = [f"{folder}/{name}.{picture}.svg" for picture in ("reception", "offsets", "day")]
                done = self.draw("--reception", pictures[0], "--offsets", pictures[1], "--day", pictures[2], journal)
                self.assertEqual((done.returncode, done.stderr), (0, b""))
                # A bar for each five minutes or quarter of an hour with verdicts, and one in the key.
                self.assertEqual(self.read(pictures[0], "#2a7f3f"), green)
                self.assertGreater(self.read(pictures[1], "#1f5fa8"), 10)
                # Without time up to the fourth verdict, then with it up to the end; and one of each colour in the key.
                self.assertEqual([self.read(pictures[2], colour) for colour in ("#2a7f3f", "#c03030")], [2, 2])

    def test_a_second_that_comes_late_is_drawn_above_and_its_steady_start_is_not(self):
        """A counter without jitter: a second that is 20 ms late, after eleven minutes of good ones."""
        with tempfile.NamedTemporaryFile("w") as log:
            late = {680: 20_000}
            log.writelines(f"{1_000_000 * at + late.get(at, 0)} 100000\n" for at in range(1, 701))
            log.flush()
            phases = {at: (came, given) for at, came, given in phases_of(log.name)}
        came, given = phases[680_020_000]
        self.assertAlmostEqual(came, 20, delta=1)
        self.assertAlmostEqual(given, 0, delta=1)
        self.assertTrue(all(abs(one) < 1 for at, pair in phases.items() for one in pair if at != 680_020_000))

    def test_a_phase(self):
        with tempfile.TemporaryDirectory() as folder:
            done = self.draw("--phase", f"{folder}/phase.svg", HERE.parent / "examples/radios/dcf77.log")
            self.assertEqual((done.returncode, done.stderr), (0, b""))
            self.assertGreater(self.read(f"{folder}/phase.svg", "#1f5fa8"), 5)

    def test_what_cannot_be_drawn(self):
        with tempfile.TemporaryDirectory() as folder:
            refused = pathlib.Path(folder, "refused")
            refused.write_text("0 5 refused 3\n")
            log = HERE.parent / "examples/radios/dcf77.log"
            returns = pathlib.Path(folder, "returns")
            returns.write_bytes(b"1000000 100000\r\n2000000 200000\r\n")
            huge = pathlib.Path(folder, "huge")
            huge.write_text(f"{'9' * 5000} 100000\n")
            journal = pathlib.Path(folder, "journal")
            journal.write_text(f"1 60000000 verdict {NOON} 0\n1 120000000 verdict {NOON + 60} 0\n")
            station = pathlib.Path(folder, "station.toml")
            station.write_text('[[radio]]\nplan = "dcf"\nlog = "a"\n')
            keeper = HERE.parent / "packaging/keeper.toml"
            for words, said in (
                (("--reception", "x.svg", log), b"dcf77.log is a radio's log: decode it first\n"),
                (("--phase", "x.svg", refused), b"refused is a journal, and --phase draws a radio's log\n"),
                (("--phase", "x.svg", returns), b"CR LF"),
                (("--phase", "x.svg", huge), b"no marks that agree"),
                (("--day", "x.svg", "--station", station, journal), b"station.toml has none of the feeds of a journal"),
                (("--day", "x.svg", "--station", keeper, journal), b"a radio has no plan: is it the keeper's file?"),
                (("--reception", "x.svg", "/nosuch"), b"plot_journal.py: /nosuch: No such file or directory\n"),
                (("--offsets", "x.svg", refused), b"has no entry that gives the time"),
                (("--day", "x.svg", refused), b"has no entry that gives the time"),
                (("--reception", "x.svg", HERE / "summary.sh"), b"has no entry"),
                (("--phase", "x.svg", HERE / "summary.sh"), b"has no marks that agree on a phase"),
                (("--reception", f"{folder}/nosuch/x.svg", refused), b"No such file or directory"),
            ):
                with self.subTest(words=words):
                    done = self.draw(*words)
                    self.assertEqual(done.returncode, 1)
                    self.assertIn(said, done.stderr)
                    self.assertNotIn(b"Traceback", done.stderr)
                    self.assertEqual(done.stderr.count(b"\n"), 1)

    def test_a_picture_of_another_form_is_refused(self):
        with tempfile.TemporaryDirectory() as folder:
            for form in ("png", "PNG", "pdf"):
                name = pathlib.Path(folder, f"x.{form}")
                done = self.draw("--reception", name, "/nosuch")
                self.assertEqual(done.returncode, 2)
                self.assertIn(b"each picture is SVG", done.stderr)
                self.assertFalse(name.exists())

    def test_an_installed_one_draws_a_day_and_leaves_nothing_behind(self):
        """What `radio_keeper install` puts there, and what it imports is compiled nowhere."""
        with tempfile.TemporaryDirectory() as folder:
            top = pathlib.Path(folder)
            install = [HERE.parent / "radio_keeper", "install", "--do", "--root", top, "--prefix", "/usr", "--program", "/bin/true"]
            subprocess.run(install, check=True, stdout=subprocess.DEVNULL, timeout=60)
            journal = top / "journal"
            journal.write_text("".join(f"0 {entry.at} verdict {' '.join(entry.fields)}\n" for entry in verdicts(range(60))))
            before = sorted(top.rglob("*"))
            words = [sys.executable, top / "usr/lib/radio_ntpd/tools/plot_journal.py", "--day", "/dev/stdout", journal]
            done = subprocess.run(words, capture_output=True, timeout=300, env={"PATH": os.environ["PATH"]})
            self.assertEqual((done.returncode, done.stderr), (0, b""))
            self.assertIn(b"root dispersion", done.stdout)
            self.assertEqual(sorted(top.rglob("*")), before)


if __name__ == "__main__":
    unittest.main()
