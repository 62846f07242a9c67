"""`calibrate` as a whole, by made-up programs and sources."""

import contextlib
import io
import os
import re
import signal
import tempfile
import threading
import time
import unittest
from unittest import mock

from keeper import calibrate, lock
from keeper.arguments import parse
from keeper.errors import Fault
from keeper.lateness import Minute
from keeper.supervisor.logs import PulseLog
from keeper.supervisor.host import Host

# A stand-in for `decode`: its marks are LATE microseconds late on the host's clock, and it believes
# each minute.
PROGRAM = """#!{python}
import sys
shift, late = {shift!r}, {late!r}
for line in sys.stdin:
    start = int(line.split()[0])
    second = round((start - late) / 1e6 + shift)
    if second % 60 == 0:
        print(0, start, "verdict", second + 2208988800, 0, flush=True)
print("status 0")
"""


class Whole(unittest.TestCase):
    LATE = 34_200

    def setUp(self):
        folder = tempfile.TemporaryDirectory()
        self.addCleanup(folder.cleanup)
        self.folder = folder.name
        self.said = io.StringIO()
        # The marks of the last minutes lie in the counter's past also where the host was started a
        # moment ago.
        for name, ahead in (("monotonic", 3600.0), ("monotonic_ns", 3_600_000_000_000)):
            real = getattr(time, name)
            moved = mock.patch(f"time.{name}", lambda real=real, ahead=ahead: real() + ahead)
            self.enterContext(moved)
        self.shift = time.time() - time.monotonic()
        self.write("station.toml", '[[radio]]\nplan = "dcf"\nlog = "x"\ndelay = 1400\n')
        python = os.path.realpath("/proc/self/exe")
        program = self.write("program", PROGRAM.format(python=python, shift=self.shift,
                                                       late=self.LATE))
        os.chmod(program, 0o755)

    def write(self, name, text):
        path = os.path.join(self.folder, name)
        os.makedirs(os.path.dirname(path), exist_ok=True)
        with open(path, "w", encoding="utf-8") as file:
            file.write(text)
        return path

    def settings(self, command, program="program"):
        self.write("keeper.toml", f'station = "station.toml"\nprogram = "{program}"\n[[radio]]\n'
                                  f'command = "{command}"\n')

    def marks(self):
        """The lines of the last quarter of an hour but for a minute, one a second."""
        first = int(time.monotonic() + self.shift) - 840
        return [f"{round((second - self.shift) * 1e6) + self.LATE} 100000"
                for second in range(first, first + 838)]

    def asked(self, *words):
        return parse(["calibrate", *words])

    def calibrate(self, seconds):
        out = io.StringIO()
        real = calibrate.listen
        asked = self.asked("--config", os.path.join(self.folder, "keeper.toml"), "--minutes", "8")
        shorter = mock.patch.object(
            calibrate, "listen", lambda settings, number, reference, _: real(
                settings, number, reference, seconds))
        with shorter, contextlib.redirect_stdout(out), contextlib.redirect_stderr(self.said):
            return calibrate.main(asked), out.getvalue()

    def test_by_the_source(self):
        self.write("marks", "\n".join(self.marks()) + "\n")
        self.settings(f"cat {self.folder}/marks; exec sleep 60")
        told, said = self.calibrate(4.0)
        self.assertEqual(told, 0, said)
        self.assertRegex(said, r"1[1-4] minutes were believed\n")
        found = re.search(r"come (34\.\d\d) ms late, within 0\.0\d ms; a closing mark scatters by "
                          r"0\.0\d ms\nset in the station file: delay = (\d+) \(it is 1400\)\n\Z",
                          said)
        self.assertAlmostEqual(float(found[1]) * 1000, self.LATE, delta=200)
        self.assertAlmostEqual(int(found[2]), self.LATE, delta=200)

    def keeper_runs(self, *tags):
        """A keeper holds a lock on its folder, and has written these logs, each a minute after the
        one before."""
        self.settings("exit 9")
        host = Host()
        os.makedirs(f"{self.folder}/state/logs")
        for number, tag in enumerate(tags):
            name = PulseLog(host, "", 0, "dcf", tag).name(time.time())
            lines = self.marks() if tag == tags[-1] else ["5000000 100000"]
            path = self.write(f"state/logs/{name}", "\n".join(lines) + "\n")
            written = time.time() + 60 * (number - len(tags) + 1)
            os.utime(path, (written, written))
        self.addCleanup(os.close, lock.take(host, f"{self.folder}/state"))

    def test_by_the_log_of_a_keeper_that_runs(self):
        """Its name has what only the keeper knows. Other logs of the day are of other boots."""
        self.keeper_runs("ffffffff", "00000000", "89abcdef")
        self.write("state/logs/0-msf.20261202.0123abcd.log", "")
        self.write("state/logs/10-dcf.20261202.0123abcd.log", "")
        told, said = self.calibrate(4.0)
        self.assertEqual(told, 0, said)
        self.assertIn("set in the station file: delay = 34", said)

    def test_a_keeper_that_has_received_nothing_yet(self):
        self.keeper_runs()
        with self.assertRaisesRegex(Fault, "radio 0: the keeper that runs has no log of it yet"):
            self.calibrate(4.0)

    def test_one_that_is_interrupted_says_what_it_has(self):
        self.write("marks", "\n".join(self.marks()) + "\n")
        self.settings(f"cat {self.folder}/marks; exec sleep 60")
        # A shell begins what runs beside it with SIGINT ignored.
        before = signal.signal(signal.SIGINT, signal.default_int_handler)
        self.addCleanup(signal.signal, signal.SIGINT, before)
        threading.Timer(4.0, os.kill, (os.getpid(), signal.SIGINT)).start()
        told, said = self.calibrate(60.0)
        self.assertEqual(told, 0, said)
        self.assertIn("set in the station file: delay = 34", said)

    def test_minutes_of_before_a_server_was_asked_are_not_compared_with_it(self):
        now = time.time()
        minutes = [Minute(now + one, 0.03, 0.03) for one in (-60.0, 0.0, 60.0)]
        server = mock.Mock()
        server.offset_at.side_effect = lambda at: None if at > now + 59 else 0.5
        with mock.patch.multiple(calibrate, heard=lambda *_: [], begun=mock.Mock(), said=lambda _: [],
                                 minutes_of=lambda *_: minutes), mock.patch("time.time", lambda: now):
            self.assertEqual(calibrate.listen(mock.MagicMock(), 0, server, 1.0),
                             [Minute(now, 0.53, 0.53)])
            self.assertEqual(calibrate.listen(mock.MagicMock(), 0, None, 1.0), minutes)

    def test_a_server_that_has_no_address(self):
        self.settings("sleep 60")
        for name in ("no..such", "x" * 64 + ".example", "256.1.1.1"):
            with self.assertRaisesRegex(Fault, "the server .* can't be asked: "):
                calibrate.main(self.asked("--config", f"{self.folder}/keeper.toml", "--server", name))

    def test_a_program_that_is_not_there(self):
        self.settings("sleep 60", "nosuch")
        with self.assertRaisesRegex(Fault, "nosuch can't be run: No such file or directory"):
            self.calibrate(0.5)

    def test_a_source_that_ends(self):
        self.settings("exit 7")
        with self.assertRaisesRegex(Fault, "radio 0: its source ended: its command ended with 7"):
            self.calibrate(10.0)

    def test_what_can_not_be_enough_is_refused_at_once(self):
        """Five minutes are needed. The first one, which is cut, and the second one, which is alone,
        aren't among them."""
        for minutes in ("0", "5", "7", "10081"):
            said = io.StringIO()
            with self.assertRaises(SystemExit) as ended, contextlib.redirect_stderr(said):
                self.asked("--minutes", minutes)
            self.assertEqual(ended.exception.code, 64)
            self.assertIn(f"argument --minutes: {minutes} isn't 8 to 10080", said.getvalue())

    def test_it_says_how_far_it_is(self):
        self.write("marks", "\n".join(self.marks()) + "\n")
        self.settings(f"cat {self.folder}/marks; exec sleep 60")
        self.calibrate(4.0)
        self.assertRegex(self.said.getvalue(),
                         r"(?m)^\d\d:\d\d:\d\d 0 of 0 min: 8[34][0-9] pulses were read$")
        self.assertLessEqual(self.said.getvalue().count("\n"), calibrate.REPORTS)

    def test_noise_does_not_fill_the_memory(self):
        self.write("marks", "\n".join(self.marks()) + "\n")
        self.settings(f"cat {self.folder}/marks; exec sleep 60")
        with mock.patch.object(calibrate, "MOST", 500):
            with self.assertRaisesRegex(Fault, "radio 0: it is noise: more than 500 pulses came"):
                self.calibrate(9.0)

    def test_too_little(self):
        self.settings("sleep 60")
        told, said = self.calibrate(0.5)
        self.assertEqual(told, 1)
        self.assertIn("0 minutes were believed and could be compared; 5 are needed", said)


if __name__ == "__main__":
    unittest.main()
