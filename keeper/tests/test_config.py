"""The keeper's file: what is taken, and what is refused and how."""

import os
import pathlib
import tempfile
import unittest
from unittest import mock

from keeper import config
from keeper.errors import REFUSED, Fault

FAKE = pathlib.Path(__file__).with_name("fake_program.py")
STATION = '''bound = 500
gap = 2000000
[[radio]]
plan = "dcf"
log = "a.log"
delay = 1400
[[radio]]
plan = "msf"
log = "b.log"
[[server]]
address = "192.0.2.7"
port = 4123
polls = 3
[[link]]
port = 12300
[[deny]]
net = "198.51.100.0/24"
'''
KEEPER = '''station = "station.toml"
[[radio]]
command = "true"
[[radio]]
fifo = "msf.fifo"
name = "attic"
stall = 30
'''


class Folder(unittest.TestCase):
    def setUp(self):
        folder = tempfile.TemporaryDirectory()
        self.addCleanup(folder.cleanup)
        self.folder = pathlib.Path(folder.name)
        (self.folder / "station.toml").write_text(STATION)

    def load(self, text):
        path = self.folder / "keeper.toml"
        path.write_text(text)
        return config.load(str(path))

    def refused(self, text):
        with self.assertRaises(Fault) as caught:
            self.load(text)
        self.assertEqual(caught.exception.status, REFUSED)
        return str(caught.exception).removeprefix(f"{self.folder}/keeper.toml: ")


class Config(Folder):
    def test_what_is_left_out_has_its_default(self):
        settings = self.load(KEEPER)
        self.assertEqual((settings.cycle, settings.days, settings.pace), (3600, 30, 16))
        self.assertEqual((settings.runtime, settings.room), (settings.folder, 10**9))
        self.assertEqual((settings.bound, settings.gap, settings.links), (0.5, 2.0, [12300]))
        self.assertEqual(settings.servers, [("192.0.2.7", 4123)])
        self.assertEqual(settings.denied, ["198.51.100.0/24"])
        self.assertEqual(settings.folder, str(self.folder / "state"))
        first, second = settings.radios
        self.assertEqual(first, config.Radio("command", "true", "dcf", 60, "dcf", 0.0014))
        self.assertEqual(second, config.Radio("fifo", str(self.folder / "msf.fifo"), "attic", 30,
                                              "msf", 0.0))

    def test_each_radio_may_be_steadied(self):
        self.assertEqual([radio.steady for radio in self.load(KEEPER).radios], [False, False])
        steadied = self.load(KEEPER + "steady = true\n")
        self.assertEqual([radio.steady for radio in steadied.radios], [False, True])

    def test_servers_without_pacing_shorten_the_cycle(self):
        self.assertEqual(self.load("pace = 0\n" + KEEPER).cycle, 300)
        self.assertEqual(self.load("pace = 0\ncycle = 900\n" + KEEPER).cycle, 900)

    def test_a_runtime_folder_and_room(self):
        settings = self.load('runtime = "/run/x"\nroom = 50\n' + KEEPER)
        self.assertEqual((settings.runtime, settings.room), ("/run/x", 50_000_000))

    def test_what_is_refused_is_named_with_its_line(self):
        one = "one of command, fifo and file must stand there, and no more than one"
        rows = (
            ("cicle = 5\n" + KEEPER, "cicle: a key that isn't known (line 1)"),
            (KEEPER + 'low = "x"\n', "radio.1.low: a key that isn't known (line 8)"),
            (KEEPER.replace('command = "true"\n', ""), f"radio.0.command: {one}"),
            (KEEPER.replace('name = "attic"', 'file = "x"'), f"radio.1.file: {one} (line 6)"),
            (KEEPER.replace('station = "station.toml"\n', ""), "station: it is missing"),
            ("cycle = 1\n" + KEEPER, "cycle: 1 isn't within 2 to 604800 (line 1)"),
            ('cycle = "5"\n' + KEEPER, "cycle: it isn't a whole number (line 1)"),
            ("days = true\n" + KEEPER, "days: it isn't a whole number (line 1)"),
            (KEEPER.replace("attic", "a\\u001bc"),
             "radio.1.name: it has a character that can't be printed (line 6)"),
            (KEEPER + "steady = 1\n", "radio.1.steady: it isn't true or false (line 8)"),
            (KEEPER.replace('"true"', '""'), "radio.0.command: it is empty (line 3)"),
            (KEEPER + "[alarms]\nunheard = 5\n",
             "alarms.unheard: 5 isn't within 60 to 2592000 (line 9)"),
            ("radio = 3\nstation = 'station.toml'\n",
             "radio: it isn't an array of tables (line 1)"),
            ("radio = [3]\nstation = 'station.toml'\n", "radio.0: it is no table"),
            (KEEPER + '[[radio]]\ncommand = "true"\n', "radio: there are 3 tables [[radio]] here, "
             f"and 2 in {self.folder}/station.toml (line 2)"),
            ("cycle = \n", "it is no TOML: Invalid value (at line 1, column 9)"),
            (f"cycle = {'9' * 30}\n" + KEEPER,
             f"cycle: {'9' * 30} isn't within 2 to 604800 (line 1)"),
            ("\0", "it is no TOML: Invalid statement (at line 1, column 1)"),
        )
        for text, why in rows:
            with self.subTest(why=why):
                self.assertEqual(self.refused(text), why)

    def test_a_fifo_in_the_place_of_a_file_is_not_waited_for(self):
        os.mkfifo(self.folder / "fifo")
        with self.assertRaisesRegex(Fault, "fifo: station: it is missing"):
            config.load(str(self.folder / "fifo"))
        self.assertIn("there are 2 tables", self.refused(KEEPER.replace("station.toml", "fifo")))
        self.assertIn("Is a directory", self.refused(KEEPER.replace("station.toml", ".")))

    def test_a_key_can_not_control_the_terminal(self):
        self.assertIn("a?[2Jb: a key that isn't known", self.refused('"a\\u001b[2Jb" = 1\n' + KEEPER))

    def test_what_is_no_toml_however_odd_it_is(self):
        for odd in (b"\xff\xfe", b"x = " + b"9" * 5000, b"x = " + b"[" * 20_000, b"x" * 70_000):
            with self.subTest(odd=odd[:9]):
                (self.folder / "odd.toml").write_bytes(odd)
                for given in (lambda: config.load(str(self.folder / "odd.toml")),
                              lambda: self.load(KEEPER.replace("station.toml", "odd.toml"))):
                    with self.assertRaises(Fault) as caught:
                        given()
                    self.assertEqual(caught.exception.status, REFUSED)
                    self.assertRegex(str(caught.exception),
                                     "odd.toml: it (is no TOML: |has more than 65536 bytes)")

    def test_a_byte_order_mark_is_passed_over(self):
        (self.folder / "station.toml").write_bytes(b"\xef\xbb\xbf" + STATION.encode())
        self.assertEqual(self.load("\ufeff" + KEEPER).links, [12300])

    def test_numbers_that_the_program_refuses_are_left_to_it(self):
        great = "9" * 400
        for old, new in (
                ("gap = 2000000", f"gap = {great}"), ("bound = 500", f"bound = -{great}"),
                ("delay = 1400", f"delay = {great}"), ("port = 12300", f"port = {great}"),
                ("port = 12300", "port = 70000"), ("port = 12300", "port = 0"),
                ("port = 4123", "port = -1")):
            with self.subTest(new=new[:20]):
                (self.folder / "station.toml").write_text(STATION.replace(old, new))
                settings = self.load(KEEPER)
                ports = [*settings.links, *(port for _, port in settings.servers)]
                self.assertTrue(all(0 < port < 65536 for port in ports))
                spans = (settings.gap, settings.bound, settings.radios[0].delay)
                self.assertLess(sum(map(abs, spans)), 1e4)

    def test_files_that_are_not_there(self):
        with self.assertRaises(Fault) as caught:
            config.load(str(self.folder / "nosuch.toml"))
        none = "No such file or directory"
        self.assertEqual(str(caught.exception), f"{self.folder}/nosuch.toml: {none}")
        said = self.refused(KEEPER.replace("station.toml", "other.toml"))
        self.assertIn(f"other.toml: {none}", said)

    def test_the_program_judges_the_station(self):
        settings = self.load(f'program = "{FAKE}"\n' + KEEPER)
        config.judge(settings)
        with mock.patch.dict(os.environ, FAKE_FAULT="unknown boundd"):
            with self.assertRaises(Fault) as caught:
                config.judge(settings)
        why = "there is no key boundd (status 3 station unknown boundd)"
        self.assertEqual(str(caught.exception), f"{self.folder}/station.toml: {why}")

    def test_a_program_that_does_not_judge(self):
        program = self.folder / "program"
        program.write_text("#!/bin/sh\nexec sleep 9\n")
        program.chmod(0o755)
        settings = mock.Mock(program=str(program), station="station.toml")
        said = "doesn't judge the station within 0 s"
        with mock.patch("keeper.config.JUDGED", 0.1), self.assertRaisesRegex(Fault, said):
            config.judge(settings)
        settings.program = "/bin/true"
        said = "the program /bin/true isn't radio_ntpd: it judged the station without a status"
        with self.assertRaisesRegex(Fault, said):
            config.judge(settings)

    def test_a_program_that_is_not_there(self):
        with self.assertRaises(Fault) as caught:
            config.judge(self.load('program = "nosuch"\n' + KEEPER))
        self.assertIn("can't be run: No such file or directory", str(caught.exception))


if __name__ == "__main__":
    unittest.main()
