"""`check` as a whole: made-up files, receivers and programs."""

import contextlib
import io
import os
import pathlib
import socket
import sys
import tempfile
import time
import unittest
from unittest import mock
from unittest.mock import Mock

from keeper import check, config, lock
from keeper.arguments import parse
from keeper.config import Radio
from keeper.errors import REFUSED, Fault
from keeper.receiver import Level
from keeper.reporter.state import State, save
from keeper.supervisor.host import Host

STATION = 'bound = 1000\n\n[[radio]]\nplan = "dcf"\nlog = "x"\n\n[[link]]\nport = {port}\n'
KEEPER = 'station = "station.toml"\nprogram = "program"\n\n[[radio]]\ncommand = "{command}"\n'
# Marks on each second of the monotonic clock, ten of them at once.
MARKS = """import time
now = time.monotonic_ns() // 1000
for second in range(9, -1, -1):
    print(f'{{now - 1000000 * second}} {width}', flush=True)
time.sleep(30)
"""


def free_port() -> int:
    with socket.socket(socket.AF_INET, socket.SOCK_DGRAM) as one:
        one.bind(("127.0.0.1", 0))
        return one.getsockname()[1]


class Folder(unittest.TestCase):
    def setUp(self) -> None:
        folder = tempfile.TemporaryDirectory()
        self.addCleanup(folder.cleanup)
        self.folder = folder.name

    def write(self, name: str, text: str, mode: int = 0o644) -> str:
        path = os.path.join(self.folder, name)
        pathlib.Path(path).write_text(text, encoding="utf-8")
        os.chmod(path, mode)
        return path


class Running(Folder):
    def test_a_keeper_that_runs_holds_a_lock(self) -> None:
        """Whatever its state says: it may have been stopped a moment ago, or have no room for a new
        one."""
        settings = Mock(folder=os.path.join(self.folder, "state"))
        self.assertFalse(lock.is_taken(settings.folder))
        os.mkdir(settings.folder)
        save(Host(), State(written=time.time()), os.path.join(settings.folder, "state.json"))
        self.assertFalse(lock.is_taken(settings.folder))
        keeper = lock.take(Host(), settings.folder)
        self.assertTrue(lock.is_taken(settings.folder))
        os.close(keeper)
        self.assertFalse(lock.is_taken(settings.folder))


class Whole(Folder):
    def run_check(self, *words: str, command: str = "true", says: str = "status 0", ends: int = 0,
                  port: int = 0) -> tuple[int, str]:
        self.write("station.toml", STATION.format(port=port or free_port()))
        self.write("keeper.toml", KEEPER.format(command=command))
        self.write("program", f"#!/bin/sh\necho '{says}'\nexit {ends}\n", 0o755)
        out = io.StringIO()
        with contextlib.redirect_stdout(out):
            path = os.path.join(self.folder, "keeper.toml")
            status = check.main(parse(["check", "--config", path, *words]))
        return status, out.getvalue()

    def marks(self, width: object) -> str:
        """A command that writes marks."""
        return f"{sys.executable} {self.write('marks.py', MARKS.format(width=width))}"

    def test_all_is_well(self) -> None:
        status, said = self.run_check("--seconds", "4", command=self.marks(100000))
        self.assertEqual(status, 0, said)
        for due in (r"well  \S+/keeper.toml: every key is known and in range\n",
                    r"well  port \d+ is free\n", r"well  \S+station.toml: the program takes it\n",
                    r"\n      radio 0 \(dcf\) is read for 4 s \.\.\n", r"\nnothing to mend\n\Z"):
            self.assertRegex(said, due)
        self.assertNotIn("BAD", said)

    def test_the_receiver_is_heard(self) -> None:
        status, said = self.run_check("--seconds", "7", command=self.marks(900000))
        self.assertEqual(status, 1)
        self.assertRegex(said, r"\nBAD   radio 0 \(dcf\): .*: its output is the other way round")
        self.assertTrue(said.endswith("\n1 to mend\n"))

    def test_a_source_that_ends(self) -> None:
        status, said = self.run_check("--seconds", "3", command="echo noise; exit 3")
        self.assertEqual(status, 1)
        self.assertIn("BAD   radio 0 (dcf): its source ended: its command ended with 3\n", said)
        self.assertIn("1 lines were no start and width; the last: 'noise': it isn't a start and a "
                      "width\n", said)

    def test_lines_that_the_keeper_leaves_out(self) -> None:
        """They are read as the keeper reads them: a log with CRLF is none."""
        status, said = self.run_check("--seconds", "3", command=self.marks("100000\\r"))
        self.assertEqual(status, 1)
        self.assertRegex(said, r"BAD   radio 0 \(dcf\): 10 of 10 lines are bad, and the keeper "
                               r"leaves them out; the last: '\d+ 100000\\r': it isn't a start")

    def test_a_keeper_that_runs_reads_the_receivers(self) -> None:
        with mock.patch.object(lock, "is_taken", return_value=True):
            status, said = self.run_check("--seconds", "9")
        self.assertEqual(status, 0)
        self.assertIn("note  a keeper runs and reads the receivers: `radio_keeper status` says how "
                      "they are\n", said)

    def test_the_program_refuses_the_station(self) -> None:
        status, said = self.run_check("--seconds", "0", ends=3,
                                      says="status 3 station range radio.0.delay")
        self.assertEqual(status, 1)
        self.assertRegex(said, r"BAD   \S+station.toml: the program refuses it \(status 3 station "
                               r"range radio.0.delay\)")

    def test_a_key_that_is_not_known(self) -> None:
        with self.assertRaises(Fault) as raised:
            self.run_check(command='true"\nspeed = "3')
        self.assertEqual(raised.exception.status, REFUSED)
        self.assertIn("speed", str(raised.exception))

    def test_a_command_can_not_control_the_terminal(self) -> None:
        said = self.run_check("--seconds", "0", command="a\\u001b[2Jb")[1]
        self.assertIn("there is no program a?[2Jb", said)

    def test_a_port_that_is_taken(self) -> None:
        with socket.socket(socket.AF_INET, socket.SOCK_DGRAM) as other:
            other.bind(("0.0.0.0", 0))
            status, said = self.run_check("--seconds", "0", port=other.getsockname()[1])
        self.assertEqual(status, 1)
        self.assertIn("is taken", said)


class Sources(Folder):
    def test_a_recording_in_the_place_of_a_log(self) -> None:
        log = self.write("old.log", "1000000 100000\n2000000 100000\n")
        os.utime(log, (1.7e9, 1.7e9))
        settings = Mock(radios=[Radio("file", log, "roof", 60.0, "dcf", 0.0)])
        self.assertEqual(check.hear(settings, 0, 1), [(
            Level.BAD, f"radio 0 (roof): nothing was added to {log}: something has to write to it, "
            "and a recording is for `radio_ntpd decode`")])

    def test_a_source_that_can_not_be_begun(self) -> None:
        settings = Mock(radios=[Radio("fifo", f"{self.folder}/no", "roof", 60.0, "dcf", 0.0)])
        self.assertEqual(check.hear(settings, 0, 1), [(
            Level.BAD, "radio 0 (roof): its source can't be begun: No such file or directory")])


class Stations(Folder):
    def judged(self, more: str, mode: int = 0o600, pace: int = 16) -> list[str]:
        """What is said of a station file with some more lines."""
        self.write("program", "#!/bin/sh\necho 'status 0'\n", 0o755)
        self.write("keeper.toml", f"pace = {pace}\n" + KEEPER.format(command="true"))
        self.write("station.toml", STATION.format(port=123) + more, mode)
        settings = config.load(os.path.join(self.folder, "keeper.toml"))
        return [f"{level.value} {said}" for level, said in check.judge_station(settings)]

    def test_keys_that_everyone_can_read(self) -> None:
        """The installed file is read by the group of the keeper's user, which is as it should
        be."""
        key = '[[key]]\nid = 1\nsecret = "x"\n'
        said = (f"note {self.folder}/station.toml has keys and can be read by everyone: chmod 640 "
                "it, with the group of the keeper's user")
        for mode, due in ((0o600, False), (0o640, False), (0o644, True)):
            self.assertEqual(said in self.judged(key, mode), due, oct(mode))

    def test_what_the_program_can_not_know(self) -> None:
        server = '[[server]]\naddress = "192.0.2.1"\nport = 123\npolls = 3\n'
        paced = "note servers beside a radio without pacing outvote it after minutes: set `pace`"
        self.assertNotIn(paced, self.judged(server))
        self.assertIn(paced, self.judged(server, pace=0))
        with mock.patch.object(config, "judge"):
            none = Mock(radios=[], servers=[], leap_file="/nosuch", text={}, bound=1.0)
            self.assertEqual([said for _, said in check.judge_station(none)][1:], [
                "the station has no radio and no server: it will never have a time",
                "leap_file /nosuch: it isn't there"])

    def bounded(self, bound: float, radios: list[Radio]) -> list[tuple[Level, str]]:
        """What is said of a bound (s), among what else is said."""
        settings = Mock(bound=bound, radios=radios, servers=[1], leap_file=None, text={}, pace=16)
        with mock.patch.object(config, "judge"):
            found = check.judge_station(settings)
        return [(level, said) for level, said in found if said.startswith("with a bound")]

    def test_bounds(self) -> None:
        bad, note = Level.BAD, Level.NOTE
        for bound, steady, levels in (
            (1, True, [bad]), (5, False, [bad]), (6, False, [note]), (50, False, [note]),
            (51, False, [note, note]), (944, True, [note]), (945, True, []), (1000, True, []),
            (1000, False, [note]),
        ):
            with self.subTest(bound=bound, steady=steady):
                radios = [Radio("fifo", "x", "", 60.0, "dcf", 0.0, steady)]
                found = self.bounded(bound / 1e3, radios)
                self.assertEqual([level for level, _ in found], levels)
        self.assertEqual(self.bounded(0.003, []), [])
        radios = [Radio("fifo", "x", "", 60.0, "dcf", 0.0)]
        self.assertEqual([said for _, said in self.bounded(0.1, radios)], [
            "with a bound of 100 ms there may be no time before the fifth verdict after a first "
            "start, or a later one",
            "with a bound of 100 ms and without `steady = true` the time may be farther off than "
            "it says, some while after reception ends"])


if __name__ == "__main__":
    unittest.main()
