"""How each Python program of this repository ends where its arguments are wrong, or a file, a device, a program or a server isn't there: in
a sentence and with a status of its own, never with a traceback.

    python3 -m unittest checks.test_ends
"""

import os
import subprocess
import sys
import unittest

from lab.program import TOP

FOLDERS = ("bench", "build", "checks", "dev", "feeders", "lab", "tools")
# The arguments that each program is run with where the built program isn't there, and what it ends with. Nobody listens at port 9 of 127.0.0.1.
CASES = [
    ("feeders/edges_to_log.py", "--nosuch", 2),
    ("feeders/edges_to_log.py", "/nosuch", 127),
    ("feeders/serial_edges.py", "", 2),
    ("feeders/serial_edges.py", "/nosuch", 1),
    ("feeders/steady.py", "--most x", 2),
    ("checks/lanes.py", "x", 2),
    ("checks/lanes.py", "--help", 0),
    ("checks/machine/__main__.py", "nosuch", 2),
    ("checks/machine/__main__.py", "--package /nosuch pause", 1),
    ("checks/machine/guest/agent.py", "", 1),
    ("checks/service.py", "--changes x", 2),
    ("checks/service.py", "", 1),
    ("feeders/chrony_sock.py", "", 2),
    ("feeders/chrony_sock.py", "/nosuch", 1),
    ("tools/plot_journal.py", "", 2),
    ("tools/plot_journal.py", "--help", 0),
    ("tools/plot_journal.py", "--day x.svg /nosuch", 1),
    ("tools/plot_journal.py", "--phase x.svg /nosuch", 1),
    ("tools/plot_journal.py", "--station /nosuch --day x.svg README.md", 1),
    ("bench/accuracy.py", "x", 2),
    ("bench/accuracy.py", "--minutes 1 --fade x", 2),
    ("bench/accuracy.py", "--minutes 1", 1),
    ("bench/service_time.py", "x", 2),
    ("bench/service_time.py", "--starts 1 --load 0", 1),
    ("bench/service_instructions.py", "x", 2),
    ("bench/service_instructions.py", "", 1),
    ("bench/steadied.py", "", 2),
    ("bench/steadied.py", "spread --minutes 3 --seeds 1", 1),
    ("bench/steadied.py", "year --days 1", 1),
    ("bench/steadied.py", "holdover --seeds 1", 1),
    ("bench/holdover_refused.py", "x", 2),
    ("bench/holdover_refused.py", "--seeds 1 --jitter 2 --ppm 0", 1),
    ("bench/calibrate.py", "x", 2),
    ("bench/calibrate.py", "--minutes 1", 1),
    ("bench/calibrate_spread.py", "x", 2),
    ("bench/pictures.py", "", 2),
    ("bench/pictures.py", "/tmp /tmp", 1),
    ("lab/receiver.py", "", 2),
    ("lab/receiver.py", "--plan dcf --live x", 2),
    ("lab/receiver.py", "--plan dcf --live 1 --fade 5", 2),
    ("bench/make_script.py", "x", 2),
    ("bench/ask_on.py", "", 2),
    ("checks/ask.py", "", 1),
    ("checks/ask.py", "look 9", 1),
    ("checks/handed_over.py", "", 2),
    ("checks/handed_over.py", "12300", 2),
    ("checks/hostile.py", "x", 2),
    ("checks/torture.py", "", 2),
    ("checks/mutation.py", "", 2),
    ("checks/mutation.py", "keeper/nosuch.py", 2),
    ("checks/keeper_torture.py", "x", 2),
    ("checks/model/__main__.py", "x", 2),
    ("checks/model/__main__.py", "1 2 3", 2),
    ("checks/model/__main__.py", "--one decode", 2),
    ("checks/model/__main__.py", "--one nosuch 1", 2),
    ("checks/model/__main__.py", "--one station 100000", 1),
    ("checks/pacing.py", "x", 2),
    ("tools/entry_times.py", "--nosuch", 2),
    ("tools/entry_times.py", "/nosuch", 1),
    ("dev/headline.py", "--nosuch", 2),
    ("dev/headline.py", "--help", 0),
    ("dev/measure_closure.py", "nonsense", 1),
    ("dev/measure_closure.py", "--help", 0),
    ("dev/measure_closure.py", "--nosuch", 2),
    ("dev/measure_shape.py", "--help", 0),
    ("dev/measure_shape.py", "--list nonsense", 2),
    ("dev/measure_shape.py", "--top /nosuch", 1),
    ("dev/python_lines.py", "", 2),
    ("dev/python_lines.py", "/nosuch", 1),
    ("bench/gate_time.py", "/nosuch", 127),
    ("bench/keeper.py", "x", 2),
    ("checks/keeper_cases.py", "x", 2),
    ("lab/kept_client.py", "x", 2),
    ("lab/unread.py", "x", 2),
    ("checks/soak.py", "x", 2),
    ("checks/pages/follow.py", "", 2),
    ("checks/pages/follow.py", "x", 2),
    ("checks/pages/follow.py", "packages", 0),
    ("checks/pages/texts.py", "x", 2),
    ("checks/pages/texts.py", "", 0),
]
ABSENT = {**os.environ, "RADIO_NTPD": "/nosuch"}
# These have tests of their own.
SIMULATION = {"checks/simulate.py", "checks/wrong_supervisors.py"}


def words_of(program: str) -> list[str]:
    """The words that run a program from the top: as a module, where its folder is a package."""
    path = TOP / program
    if (path.parent / "__init__.py").exists():
        return [sys.executable, "-B", "-m", program.removesuffix("/__main__.py").removesuffix(".py").replace("/", ".")]
    return [sys.executable, "-B", str(path)]


class Ends(unittest.TestCase):
    def test_each(self):
        for program, words, status in CASES:
            with self.subTest(program=program, words=words):
                done = subprocess.run([*words_of(program), *words.split()], stdin=subprocess.DEVNULL, capture_output=True, timeout=100, cwd=TOP, env=ABSENT)
                said = done.stderr.decode()
                self.assertNotIn("Traceback", said)
                self.assertEqual(done.returncode, status, said)
                self.assertTrue(said or status == 0)

    def test_an_output_that_takes_nothing(self):
        """A full disk is named, and a reader that has ended needs no sentence."""
        for program in ("dev/headline.py", "dev/measure_closure.py", "dev/measure_shape.py"):
            closed = subprocess.Popen(["true"], stdin=subprocess.PIPE)
            self.addCleanup(closed.stdin.close)
            closed.wait(10)
            with open("/dev/full", "wb") as full:
                for output, said in ((full, b"No space left on device\n"), (closed.stdin, b"")):
                    with self.subTest(program=program, said=said):
                        done = subprocess.run(words_of(program), cwd=TOP, stdout=output, stderr=subprocess.PIPE, timeout=100)
                        self.assertEqual(done.returncode, 1)
                        self.assertEqual(done.stderr.count(b"\n"), said.count(b"\n"), done.stderr)
                        self.assertTrue(done.stderr.endswith(said))
                        self.assertNotIn(b"None", done.stderr)

    def test_none_is_twice(self):
        self.assertEqual(sorted(set(CASES)), sorted(CASES))

    def test_none_is_missing(self):
        """Each program that can be run by itself has a case."""
        programs = {
            str(path.relative_to(TOP))
            for folder in FOLDERS
            for path in (TOP / folder).rglob("*.py")
            if path.stat().st_mode & 0o100 or path.name == "__main__.py" or '"__main__":' in path.read_text()
        }
        tests = {program for program in programs if "/test_" in program}
        self.assertEqual(programs - tests - {program for program, _, _ in CASES}, {"build/build_program.py", *SIMULATION})

    def test_a_reader_that_ends(self):
        for program, words in (("lab/receiver.py", "--plan msf --minutes 20000"), ("bench/make_script.py", "--lines 300000")):
            with self.subTest(program=program):
                with subprocess.Popen([*words_of(program), *words.split()], cwd=TOP, stdout=subprocess.PIPE, stderr=subprocess.PIPE) as child:
                    child.stdout.readline()
                    child.stdout.close()
                    self.assertEqual((child.stderr.read(), child.wait(100)), (b"", 1))

