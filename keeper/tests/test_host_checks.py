"""Looks at made-up hosts: ports, sources, clocks, folders, and as whom they are looked at."""

import errno
import os
import pathlib
import pwd
import socket
import subprocess
import sys
import tempfile
import unittest
from unittest import mock

from keeper import chosen_file, host_checks
from keeper.config import Radio
from keeper.host_checks import SERVED, look_at_clock, look_at_folder, look_at_port
from keeper.receiver import Finding, Level

TOP = pathlib.Path(__file__).parent.parent.parent
FEEDER = str(TOP / "feeders/edges_to_log.py")
# Looks at a file as the service of the user `nobody` would.
LOOK = """
import os, sys
from unittest import mock
from keeper import chosen_file, host_checks
path, station = sys.argv[1:]
with mock.patch.object(host_checks, "INSTALLED", path):
    for level, said in host_checks.become_service(mock.Mock(path=path, station=station), "nobody"):
        print(level.value, said)
print(os.getuid(), os.geteuid(), os.getgid(), os.getgroups())
"""


def radio(kind: str, value: str, steady: bool = False) -> Radio:
    return Radio(kind, value, "roof", 60.0, "dcf", 0.0, steady)


class Folder(unittest.TestCase):
    def setUp(self) -> None:
        folder = tempfile.TemporaryDirectory()
        self.addCleanup(folder.cleanup)
        self.folder = folder.name

    def write(self, name: str, text: str) -> str:
        path = os.path.join(self.folder, name)
        pathlib.Path(path).write_text(text, encoding="utf-8")
        return path


class Ports(unittest.TestCase):
    def test_each_answer_of_the_host(self) -> None:
        for number, level, said in (
            (errno.EADDRINUSE, Level.BAD,
             "port 123 is taken: `ss -ulpn 'sport = 123'` says by whom; "
             "chronyd gives port 123 back with `port 0` in its file"),
            (errno.EACCES, Level.NOTE,
             "port 123 needs a right that you don't have; systemd binds it "
             "for the installed service (radio_ntpd.socket)"),
            (errno.ENOMEM, Level.BAD, "port 123 can't be had: Cannot allocate memory"),
        ):
            trial = mock.MagicMock()
            trial.__enter__.return_value.bind.side_effect = OSError(number, os.strerror(number))
            with mock.patch.object(host_checks.socket, "socket", return_value=trial):
                self.assertEqual(look_at_port(123), (level, said))

    def test_a_real_one(self) -> None:
        with socket.socket(socket.AF_INET, socket.SOCK_DGRAM) as other:
            other.bind(("0.0.0.0", 0))
            port = other.getsockname()[1]
            self.assertIn("is taken", look_at_port(port)[1])
        self.assertEqual(look_at_port(port), (Level.WELL, f"port {port} is free"))

    def test_of_a_station(self) -> None:
        self.assertEqual(list(host_checks.look_at_ports(mock.Mock(links=[]), False)),
                         [(Level.NOTE, "the station has no [[link]]: nobody is answered")])
        self.assertEqual(list(host_checks.look_at_ports(mock.Mock(links=[5]), True)),
                         [(Level.WELL, "port 5 is served by the keeper that runs")])


class Sources(Folder):
    def look(self, kind: str, value: str) -> Finding:
        return host_checks.look_at_source(radio(kind, value), 0)

    def test_files_and_fifos(self) -> None:
        file, fifo = self.write("a.log", ""), os.path.join(self.folder, "fifo")
        os.mkfifo(fifo)
        for kind, value, level, said in (
            ("file", file, Level.WELL, f"{file} is there"),
            ("file", fifo, Level.BAD, f"{fifo} is no file"),
            ("fifo", fifo, Level.WELL, f"{fifo} is there"),
            ("fifo", file, Level.BAD, f"{file} is no FIFO"),
            ("file", file + "x", Level.BAD, f"{file}x: No such file or directory"),
            ("fifo", fifo + "x", Level.BAD,
             f"{fifo}x: No such file or directory: `mkfifo {fifo}x` makes it"),
        ):
            with self.subTest(kind=kind, value=value):
                self.assertEqual(self.look(kind, value), (level, f"radio 0 (roof): {said}"))
        with mock.patch("os.access", return_value=False):
            self.assertIn(f"{file} may not be read by you", self.look("file", file)[1])

    def test_commands(self) -> None:
        for command, missing in (
            ("stdbuf -oL cat x | sh -c y", ""), ("A=1 $X/foo | exec sh", ""),
            (f"cat | {FEEDER} --low", ""), ("while read x; do echo; done", ""), ("'", ""),
            ("stdbuf -oL nosuchprogram --chip 0 | cat", "nosuchprogram"),
            ("true && nosuchprogram; false || nosuchtoo", "nosuchprogram, nosuchtoo"),
            ("stdbuf -oL nosuchprogram gpiochip0 17 2>&1 | cat", "nosuchprogram"),
            (f"{FEEDER} --low stdbuf -oL nosuchprogram gpiochip0 17", "nosuchprogram"),
            (f"/nosuch{FEEDER} nosuchprogram 0 17", f"/nosuch{FEEDER}, nosuchprogram"),
        ):
            with self.subTest(command=command):
                level, said = self.look("command", command)
                due = f"there is no program {missing}" if missing else "the programs of its command"
                self.assertEqual(level, Level.BAD if missing else Level.WELL)
                self.assertTrue(said.startswith(f"radio 0 (roof): {due}"), said)
        with mock.patch.object(host_checks, "_is_program", return_value=False):
            self.assertEqual(self.look("command", "gpiomon gpiochip0 17"), (
                Level.BAD,
                "radio 0 (roof): there is no program gpiomon; `apt install gpiod` has it"))

    def test_a_radio_is_steadied_once(self) -> None:
        twice = (Level.BAD, "radio 0 (roof): its command steadies it too: take `steady.py` out of "
                 "the command, so that the log has its pulses as they came")
        settings = mock.Mock(folder="/tmp")
        settings.alarms.command = ""
        for command, steady, due in (("cat | /x/steady.py", True, True), ("cat", True, False),
                                     ("cat | /x/steady.py", False, False)):
            settings.radios = [radio("command", command, steady)]
            self.assertEqual(twice in list(host_checks.look(settings)), due)

    def test_a_command_of_alarms(self) -> None:
        settings = mock.Mock(radios=[], folder="/tmp")
        mail = 'echo "$RADIO_TEXT" | nosuchmail -s "$RADIO_EVENT" you@example.org'
        for command, finding in (
            (mail, (Level.BAD, "alarms.command: there is no program nosuchmail")),
            ("echo x | cat", (Level.WELL, "alarms.command: the programs of its command are there")),
        ):
            settings.alarms.command = command
            self.assertIn(finding, list(host_checks.look(settings)))


class Hosts(Folder):
    def test_clocks(self) -> None:
        unknown = (Level.NOTE, "the kernel doesn't say which clock source it has")
        self.assertEqual(look_at_clock(self.folder), unknown)
        well = r"the clock source is {}"
        note = (r"the clock source is {}, which is slow or coarse; "
                r"`cat \S+/available_clocksource` lists others")
        for name, level, said in (("tsc", Level.WELL, well), ("arch_sys_counter", Level.WELL, well),
                                  ("hpet", Level.NOTE, note), ("jiffies", Level.NOTE, note)):
            self.write("current_clocksource", name + "\n")
            found, text = look_at_clock(self.folder)
            self.assertEqual(found, level)
            self.assertRegex(text, rf"\A{said.format(name)}\Z")

    def test_folders(self) -> None:
        self.assertRegex(look_at_folder(self.folder)[1],
                         rf"\A{self.folder} can be written, \d+ MB are free\Z")
        self.assertEqual(look_at_folder(os.path.join(self.folder, "a", "b"))[0], Level.WELL)
        self.assertFalse(os.path.exists(os.path.join(self.folder, "a")))
        file = self.write("f", "")
        self.assertEqual(look_at_folder(f"{file}/b"),
                         (Level.BAD, f"{file}/b can't be a folder: {file} is none"))
        need = "a radio's logs and journals of a month take about 20 MB"
        for free, level, said in (((1 << 28) - 1, Level.NOTE, f"255 MB left; {need}"),
                                  (1 << 20, Level.NOTE, f"1 MB left; {need}"),
                                  ((1 << 20) - 1, Level.BAD, f"0 MB left; {need}")):
            usage = mock.Mock(free=free)
            with mock.patch.object(host_checks.shutil, "disk_usage", return_value=usage):
                self.assertEqual(look_at_folder(self.folder), (level, f"{self.folder} has {said}"))

    def test_folders_that_others_write(self) -> None:
        with mock.patch("os.access", return_value=False):
            said = f"you may not write into {self.folder}; the service's user has to"
            self.assertEqual(look_at_folder(self.folder), (Level.NOTE, said))
            with mock.patch("os.path.exists", lambda path: path == "/"):
                said = f"{SERVED} is made by the unit as it starts"
                self.assertEqual(look_at_folder(SERVED), (Level.WELL, said))
                self.assertEqual(look_at_folder("/srv/x")[0], Level.NOTE)


class AsTheService(unittest.TestCase):
    @unittest.skipUnless(os.geteuid() == 0, "only root can become another")
    def test_root_has_no_more_rights_than_the_service(self) -> None:
        its = pwd.getpwnam("nobody")
        with tempfile.TemporaryDirectory() as folder:
            os.chmod(folder, 0o755)
            path, station = f"{folder}/keeper.toml", f"{folder}/station.toml"
            for name, mode in ((path, 0o644), (station, 0o600)):
                pathlib.Path(name).touch()
                os.chmod(name, mode)
            words = [sys.executable, "-B", "-c", LOOK, path, station]
            done = subprocess.run(words, cwd=TOP, capture_output=True, text=True, timeout=60)
        self.assertEqual(done.stderr, "")
        self.assertEqual(done.stdout.splitlines(), [
            "well what follows is looked at as the user nobody, as the service is",
            f"BAD {station}: Permission denied: `chgrp nobody {station}` and"
            f" `chmod 640 {station}` let the service read it",
            f"{its.pw_uid} {its.pw_uid} {its.pw_gid} [{its.pw_gid}]",
        ])

    def test_where_nothing_changes(self) -> None:
        """Another file than the installed one, another user than root, or no service here."""
        installed = chosen_file.INSTALLED
        cases = ((0, "/x.toml", "nobody"), (1000, installed, "nobody"), (0, installed, "nosuch"))
        for uid, path, user in cases:
            with mock.patch("os.geteuid", return_value=uid), mock.patch("os.setuid") as changed:
                self.assertEqual(host_checks.become_service(mock.Mock(path=path), user), [])
                self.assertFalse(changed.called)


if __name__ == "__main__":
    unittest.main()
