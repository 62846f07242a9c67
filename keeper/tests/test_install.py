"""`install` below a folder: what it says, what it does, and that it takes it away again."""

import contextlib
import io
import os
import pathlib
import shutil
import subprocess
import tempfile
import unittest
from unittest import mock

from keeper import VERSION, chosen_file, install, status, whole_files
from keeper.arguments import parse
from keeper.errors import Fault


class Install(unittest.TestCase):
    def setUp(self):
        folder = tempfile.TemporaryDirectory()
        self.addCleanup(folder.cleanup)
        self.root = os.path.join(folder.name, "root")
        self.program = os.path.join(folder.name, "program")
        self.put(self.program, "#!/bin/sh\necho status 1 usage\nexit 1\n", 0o755)

    def put(self, path, text, mode=0o644):
        with open(path, "w", encoding="utf-8") as file:
            file.write(text)
        os.chmod(path, mode)

    def install(self, *words):
        out = io.StringIO()
        with contextlib.redirect_stdout(out):
            self.assertEqual(install.main(parse(["install", *words, "--root", self.root, "--program", self.program])), 0)
        return out.getvalue().splitlines()

    def files(self):
        return sorted(os.path.relpath(os.path.join(folder, name), self.root) for folder, _, names in os.walk(self.root) for name in names)

    def test_it_says_what_it_would_do(self):
        said = self.install()
        self.assertFalse(os.path.exists(self.root))
        self.assertTrue(all(line.startswith("would ") for line in said[:-1]))
        self.assertEqual(said[-1], "nothing was done; --do does it")

    def test_it_does_what_it_said(self):
        said = self.install()[:-1]
        done = self.install("--do")[:-1]
        self.assertEqual([line.removeprefix("would ") for line in said], done)
        there = self.files()
        for due in (
            "etc/sysusers.d/radio_ntpd.conf", "etc/tmpfiles.d/radio_ntpd.conf",
            "etc/radio_ntpd/keeper.toml", "etc/radio_ntpd/station.toml", "etc/systemd/system/radio_ntpd.service", "etc/systemd/system/radio_ntpd.socket", "usr/local/lib/radio_ntpd/bin/radio_ntpd", "usr/local/lib/radio_ntpd/radio_keeper",
            "usr/local/lib/radio_ntpd/keeper/run.py", "usr/local/lib/radio_ntpd/keeper/reporter/page.css", "usr/local/lib/radio_ntpd/keeper/supervisor/runs.py", "usr/local/lib/radio_ntpd/feeders/edges_to_log.py", "usr/local/share/man/man8/radio_ntpd.8",
            "usr/local/share/man/man1/radio_keeper.1", "usr/local/share/man/man5/radio_ntpd.toml.5",
        ):
            self.assertIn(due, there)
        self.assertTrue(self.install("--do")[-1].endswith("then `systemctl enable --now radio_ntpd`, then `radio_keeper status`"))
        self.assertFalse([one for one in there if "test" in os.path.basename(one) or "__pycache__" in one or one.endswith(".part")])
        self.assertEqual(self.install("--do")[:-1], [], "the second time there is nothing to do")

    def test_who_may_not_read_the_settings_sees_the_state(self):
        """The keeper's file is for its group alone; its example names this folder."""
        self.install("--do")
        settings = os.path.join(self.root, "etc/radio_ntpd/keeper.toml")
        self.put(settings, 'state = "elsewhere"\n')
        with mock.patch("keeper.status.FILES", ("/nosuch", settings)):
            self.assertEqual(status.folders_of(None), [os.path.join(os.path.dirname(settings), "elsewhere")] * 2)
            with mock.patch("keeper.status.os.access", lambda *_: False):
                self.assertEqual(status.folders_of(None), ["/run/radio_ntpd", chosen_file.SERVED])

    def test_what_is_installed_runs(self):
        self.install("--do")
        keeper = os.path.join(self.root, "usr/local/bin/radio_keeper")
        self.assertEqual(os.stat(keeper).st_mode & 0o777, 0o755)
        done = subprocess.run([keeper, "--version"], capture_output=True, check=True)
        self.assertRegex(done.stdout, rb"\Aradio_keeper \d")
        self.assertEqual(subprocess.run([os.path.join(self.root, "usr/local/sbin/radio_ntpd")], capture_output=True, check=False).stdout, b"status 1 usage\n")

    def test_names_are_of_the_prefix(self):
        self.install("--do", "--prefix", "/usr")
        for kind in ("sysusers", "tmpfiles"):
            self.assertIn(f"usr/lib/{kind}.d/radio_ntpd.conf", self.files())
        for name in ("usr/lib/systemd/system/radio_ntpd.service", "etc/radio_ntpd/keeper.toml"):
            with open(os.path.join(self.root, name), encoding="utf-8") as file:
                said = file.read()
            self.assertIn(" /usr/lib/radio_ntpd/" if "toml" in name else "=/usr/lib/radio_ntpd/", said)
            self.assertNotIn("@PREFIX", said)

    def test_settings_are_the_operators(self):
        self.install("--do")
        station = os.path.join(self.root, "etc/radio_ntpd/station.toml")
        for path in (station, os.path.join(self.root, "etc/radio_ntpd/keeper.toml")):
            self.assertEqual(os.stat(path).st_mode & 0o777, 0o640)
        self.put(station, "mine")
        self.assertEqual(self.install("--do")[:-1], [])
        self.install("--do", "--remove")
        self.assertEqual(self.files(), ["etc/radio_ntpd/keeper.toml", "etc/radio_ntpd/station.toml"])
        self.assertEqual(self.install("--do", "--remove"), [])

    def test_a_new_program_is_put_in_place(self):
        self.install("--do")
        self.put(self.program, "#!/bin/sh\n", 0o755)
        self.assertEqual(len(self.install("--do")[:-1]), 1)

    def test_the_services_user_may_enter_each_folder(self):
        """Whatever root's umask is; what an earlier version made too narrow is mended."""
        self.addCleanup(os.umask, os.umask(0o077))
        self.install("--do")
        library = os.path.join(self.root, "usr/local/lib/radio_ntpd")
        for folder in (library, f"{library}/bin", f"{library}/keeper"):
            os.chmod(folder, 0o700)
            self.assertEqual(len(self.install("--do")[:-1]), 1)
        for folder, _, names in os.walk(self.root):
            self.assertEqual(os.stat(folder).st_mode & 0o777, 0o755, folder)
            for name in names:
                if name not in ("keeper.toml", "station.toml"):
                    self.assertEqual(os.stat(os.path.join(folder, name)).st_mode & 0o444, 0o444, name)

    def host_steps(self, is_new, groups=("root", "dialout", "gpio", "audio")):
        """What is done on a host with these groups: sentences, and the commands of the host."""
        places = install.Places("", "/usr")
        there = [mock.Mock(gr_name=name) for name in groups]
        with mock.patch("keeper.install.os.path.isdir", lambda path: True), \
                mock.patch("keeper.install.grp.getgrall", lambda: there), \
                mock.patch("keeper.install.command") as command:
            # A partial has the function of the moment at which it is made.
            steps = list(install.host_steps(places, is_new))
            for _, act in steps:
                act()
        return [text for text, _ in steps], [" ".join(call.args) for call in command.call_args_list]

    def test_a_service_that_runs_goes_on_with_what_is_new(self):
        """The keeper in memory would start a new program by the old one's ways. A start that is not needed costs clients a second."""
        for is_new in (True, False):
            said, done = self.host_steps(is_new)
            self.assertEqual("start the service again, if it runs" in said, is_new)
            self.assertEqual("systemctl try-restart radio_ntpd" in done, is_new)

    def test_an_installation_that_changes_no_file_starts_nothing_again(self):
        step = ("write /x", lambda: None)
        for files, is_new in (([step], True), ([], False)):
            with mock.patch.multiple(install, file_steps=lambda *_, files=files: iter(files), named_program=str), mock.patch.object(install, "host_steps", return_value=[]) as host:
                with contextlib.redirect_stdout(io.StringIO()):
                    install.main(parse(["install"]))
            self.assertEqual(host.call_args.args[1], is_new)

    def test_systemds_own_tools_make_the_user_and_what_it_may_read(self):
        """They are given the files that lie in their place by then."""
        self.install("--do", "--prefix", "/usr")
        _, done = self.host_steps(False)
        self.assertEqual(done, [
            "systemd-sysusers /usr/lib/sysusers.d/radio_ntpd.conf", "usermod -aG gpio radio_ntpd",
            "systemd-tmpfiles --create /usr/lib/tmpfiles.d/radio_ntpd.conf", "systemctl daemon-reload"])
        for line in done[::2]:
            self.assertIn(line.split()[-1].lstrip("/"), self.files())

    def test_systemd_binds_port_123_and_no_process_has_a_capability(self):
        self.install("--do")
        units = {}
        for name in install.UNITS:
            with open(os.path.join(self.root, "etc/systemd/system", name), encoding="utf-8") as file:
                units[name] = file.read().splitlines()
        self.assertIn("ListenDatagram=0.0.0.0:123", units["radio_ntpd.socket"])
        for due in ("User=radio_ntpd", "CapabilityBoundingSet=", "Requires=radio_ntpd.socket"):
            self.assertIn(due, units["radio_ntpd.service"])
        self.assertFalse([one for one in units["radio_ntpd.service"] if "Ambient" in one])

    def test_a_copy_that_fails_leaves_what_was_there(self):
        self.install("--do")
        library = os.path.join(self.root, "usr/local/lib/radio_ntpd")
        self.put(f"{library}/keeper/run.py", "older")
        with mock.patch("keeper.whole_files.os.replace", side_effect=OSError(28, "No space")):
            with self.assertRaises(OSError):
                self.install("--do")
        with open(f"{library}/keeper/run.py", encoding="utf-8") as file:
            self.assertEqual(file.read(), "older")
        self.assertEqual(os.listdir(os.path.dirname(library)), ["radio_ntpd"])
        self.assertEqual(sorted(os.listdir(library)), ["bin", "feeders", "keeper", "lab", "radio_keeper", "tools"])
        self.install("--do")
        self.assertEqual(self.install("--do")[:-1], [])

    def test_the_unit_lets_receivers_in_that_are_plugged_in_later(self):
        """systemd.resource-control(5): a name is looked up in /proc/devices as the unit starts. Drivers of USB ports are modules, and these
        are their numbers by Linux's devices.txt; the others' drivers are there from the beginning."""
        self.install("--do")
        with open(os.path.join(self.root, "etc/systemd/system/radio_ntpd.service"), encoding="utf-8") as file:
            devices = {line.split()[0].removeprefix("DeviceAllow=") for line in file if line.startswith("DeviceAllow=")}
        self.assertEqual(devices, {"char-gpiochip", "char-ttyS", "char-ttyAMA", "char-188", "char-166"})

    def test_the_user_gets_into_the_groups_of_gpio_lines_and_serial_ports(self):
        """Those of Debian and Raspberry Pi OS. Not every host has the one of GPIO lines, and sysusers.d would make it."""
        lines = (install.TOP / "packaging/radio_ntpd.sysusers").read_text(encoding="ascii").splitlines()
        self.assertEqual([line.split()[:3] for line in lines if not line.startswith("#")],
                         [["u", "radio_ntpd", "-"], ["m", "radio_ntpd", "dialout"]])
        self.assertIn("usermod -aG gpio radio_ntpd", self.host_steps(True)[1])
        self.assertFalse([one for one in self.host_steps(True, groups=("root",))[1] if "gpio" in one])

    @unittest.skipUnless(shutil.which("systemd-sysusers") and os.geteuid() == 0, "no systemd-sysusers, or not root")
    def test_systemd_takes_its_files(self):
        """A user with a group, a home and no shell, and settings that its group can read."""
        self.install("--do", "--prefix", "/usr")
        etc = os.path.join(self.root, "etc")
        self.put(f"{etc}/passwd", "root:x:0:0:root:/root:/bin/sh\n")
        self.put(f"{etc}/group", "root:x:0:\ndialout:x:20:\n")
        for words in (("systemd-sysusers",), ("systemd-tmpfiles", "--create")):
            done = subprocess.run([*words, f"--root={self.root}", "radio_ntpd.conf"], capture_output=True, check=False)
            self.assertEqual((done.returncode, [line for line in done.stderr.splitlines() if b"radio_ntpd" not in line]), (0, []))
        with open(f"{etc}/passwd", encoding="ascii") as file:
            user = file.read().splitlines()[-1].split(":")
        self.assertEqual((user[0], user[5], os.path.basename(user[6])), ("radio_ntpd", chosen_file.SERVED, "nologin"))
        with open(f"{etc}/group", encoding="ascii") as file:
            self.assertEqual({line.split(":")[0]: line.split(":")[3].strip() for line in file}, {"root": "", "dialout": "radio_ntpd", "radio_ntpd": ""})
        for name in ("keeper.toml", "station.toml"):
            about = os.stat(f"{etc}/radio_ntpd/{name}")
            self.assertEqual((about.st_uid, about.st_gid, about.st_mode & 0o777), (0, int(user[3]), 0o640))

    def test_only_what_users_call_is_installed_of_the_tools(self):
        """Each of them finds what it imports, and a picture of a day is drawn."""
        self.install("--do")
        library = pathlib.Path(self.root, "usr/local/lib/radio_ntpd")
        self.assertEqual({one.name for one in (library / "tools").iterdir()}, set(install.TOOLS))
        journal = library.parent / "journal"
        journal.write_text("0 62000000 verdict 3976257660 0\n0 122000000 verdict 3976257720 0\n", encoding="ascii")
        for words in (("plot_journal.py", "--day", "/dev/stdout"), ("entry_times.py",), ("summary.sh",)):
            done = subprocess.run([library / "tools" / words[0], *words[1:], journal], capture_output=True, check=False)
            self.assertEqual((done.returncode, done.stderr), (0, b""), words)
            self.assertTrue(done.stdout)
        self.assertFalse(list(library.rglob("__pycache__")))

    def trees(self):
        """A folder that an old tree lies in, and a new one."""
        old, new = ({name: (text, 0o644) for name in ("a", "b/c")} for text in (b"old", b"new"))
        path = pathlib.Path(self.root, "room/path")
        whole_files.put_folder(str(path), old)
        return path, new

    def test_at_each_moment_a_folder_has_each_file_of_the_old_version_or_of_the_new_one(self):
        path, new = self.trees()
        (path / "left").write_text("old")
        seen = []

        def looking(call):
            def looks(*words, **more):
                seen.append({name: (path / name).read_text() for name in new})
                return call(*words, **more)
            return looks

        with contextlib.ExitStack() as stack:
            for name in ("replace", "unlink", "chmod"):
                stack.enter_context(mock.patch(f"keeper.whole_files.os.{name}", looking(getattr(os, name))))
            whole_files.put_folder(str(path), new)
        self.assertEqual([list(one.values()) for one in seen[1::2][:2]], [["old"] * 2, ["new", "old"]])
        self.assertEqual(list(seen[-1].values()), ["new", "new"])
        self.assertTrue(whole_files.has_tree(str(path), new))
        self.assertEqual(os.listdir(path.parent), ["path"])

    @unittest.skipUnless(shutil.which("dh_python3") and shutil.which("dh"), "no debhelper, or no dh-python")
    def test_a_package_has_examples_and_no_settings(self):
        """Of files below /etc that `radio_keeper install` left dpkg would ask which to keep, and fail without a terminal."""
        folder = os.path.dirname(self.root)
        about = {**os.environ, "RADIO_NTPD": self.program}
        name = subprocess.run([install.TOP / "packaging/build_deb.sh", folder], capture_output=True, check=True, text=True, env=about).stdout.strip()
        packed = subprocess.run(["dpkg-deb", "--contents", name], capture_output=True, check=True, text=True).stdout.splitlines()
        files = {line.split()[5]: line.split()[0] for line in packed}
        self.assertEqual([path for path in files if path.startswith("./etc")], [])
        for example in ("keeper.toml", "station.toml"):
            self.assertEqual(files[f"./usr/share/radio_ntpd/{example}"], "-rw-r--r--")
        parts = subprocess.run(["dpkg-deb", "--info", name], capture_output=True, check=True, text=True).stdout
        self.assertNotIn("conffiles", parts)
        self.assertIn(f" Version: {VERSION}\n", parts)

    def test_versions_are_one(self):
        """That of CHANGELOG.md, of the keeper, and of the Debian package's list of changes."""
        changes = (install.TOP / "CHANGELOG.md").read_text(encoding="utf-8")
        version = next(line.split()[1] for line in changes.splitlines() if line.startswith("## "))
        debian = (install.TOP / "packaging/debian/changelog").read_text(encoding="utf-8")
        self.assertEqual((VERSION, debian.split()[1]), (version, f"({version})"))

    def test_a_program_that_its_sources_no_longer_give(self):
        top = pathlib.Path(self.root)
        program, source, test = top / "crates/radio_ntpd/out/radio_ntpd", top / "crates/low/src/lib.rt", top / "crates/low_tests/src/lib.rt"
        for file in (program, source, test, top / "crates.txt"):
            file.parent.mkdir(parents=True, exist_ok=True)
            file.write_text("", encoding="ascii")
            os.utime(file, (1000, 1000))
        os.utime(test, (2000, 2000))
        program.chmod(0o755)
        with mock.patch("keeper.install.TOP", top), mock.patch("keeper.install.built_program", lambda: str(program)):
            self.assertEqual(install.named_program(None), str(program))
            os.utime(source, (2000, 2000))
            with self.assertRaisesRegex(Fault, "the program is older than .*lib.rt: run ./radio_ntpd once"):
                install.named_program(None)
            self.assertEqual(install.named_program(str(program)), str(program), "it is named by --program")
        with mock.patch("keeper.install.TOP", top), mock.patch("keeper.install.built_program", lambda: self.program):
            self.assertEqual(install.named_program(None), self.program, "it is no program of this folder")

    def test_what_an_earlier_version_had_besides_goes(self):
        self.install("--do")
        left = pathlib.Path(self.root, "usr/local/lib/radio_ntpd/tools/measure_shape.py")
        left.write_text("", encoding="ascii")
        self.assertEqual(len(self.install("--do")[:-1]), 1)
        self.assertFalse(left.exists())

    def test_a_link_in_the_place_of_a_file_is_not_followed(self):
        """It is replaced, also where it leads to a folder or nowhere."""
        folder = os.path.dirname(self.program)
        victim, path = (os.path.join(folder, name) for name in ("victim", "unit"))
        self.put(victim, "mine")
        for target in (victim, folder, "/nosuch"):
            os.symlink(target, path)
            self.assertEqual(whole_files.file_at(path), (target.encode(), whole_files.LINK))
            whole_files.put_file(path, b"other", 0o644)
            self.assertEqual(whole_files.file_at(path), (b"other", 0o644))
            self.assertEqual(pathlib.Path(victim).read_text(encoding="ascii"), "mine")
            os.unlink(path)
        self.assertEqual(sorted(os.listdir(folder)), ["program", "victim"])

    def test_a_command_of_the_host_has_a_minute(self):
        self.assertEqual(install.LIMIT, 60)

    def test_what_is_refused_before_anything_is_done(self):
        with mock.patch("keeper.install.os.geteuid", lambda: 1000), self.assertRaisesRegex(Fault, "^only root can do that"):
            install.main(parse(["install", "--do", "--program", self.program]))
        with self.assertRaisesRegex(Fault, "^--prefix is no whole path$"):
            install.main(parse(["install", "--root", self.root, "--prefix", "usr"]))
        self.assertFalse(os.path.exists(self.root))

    def test_the_service_may_read_its_settings_and_others_may_not(self):
        """Their modes, where the operator set others, stay; test_systemd_takes_its_files has the example's."""
        lines = (install.TOP / "packaging/radio_ntpd.tmpfiles").read_text(encoding="ascii").splitlines()
        self.assertEqual([line.split() for line in lines if line.startswith("z")], [
            ["z", f"/etc/radio_ntpd/{name}.toml", "-", "-", "radio_ntpd"] for name in ("keeper", "station")])
        said, done = self.host_steps(False)
        self.assertIn("let the group radio_ntpd read /etc/radio_ntpd, which may have what isn't for everybody", said)

    def test_a_program_that_is_not_built(self):
        os.unlink(self.program)
        with self.assertRaisesRegex(Fault, "no built program"):
            self.install()


class PostInstall(unittest.TestCase):
    """The package's postinst, over commands of the host that only note how they are called."""

    def setUp(self):
        folder = tempfile.TemporaryDirectory()
        self.addCleanup(folder.cleanup)
        self.top = folder.name
        for name in ("bin", "run/systemd/system", "etc/radio_ntpd"):
            os.makedirs(os.path.join(self.top, name))
        for name in ("getent", "usermod"):
            self.stub(name, 0)
        examples = pathlib.Path(self.top, "usr/share/radio_ntpd")
        examples.mkdir(parents=True)
        for name in ("keeper.toml", "station.toml"):
            (examples / name).write_text(f"example {name}", encoding="ascii")

    def stub(self, name, status):
        path = os.path.join(self.top, "bin", name)
        with open(path, "w", encoding="ascii") as file:
            file.write(f'#!/bin/sh\necho {name} "$@" >> {self.top}/calls\nexit {status}\n')
        os.chmod(path, 0o755)

    def configure(self, *words):
        """Its exit status, and the calls."""
        about = {"PATH": f"{self.top}/bin:/usr/bin:/bin", "DPKG_ROOT": self.top}
        done = subprocess.run(["sh", install.TOP / "packaging/debian/postinst", "configure", *words], capture_output=True, env=about, check=False)
        self.said = done.stdout.decode()
        with open(f"{self.top}/calls", encoding="ascii") as file:
            return done.returncode, file.read().splitlines()

    def test_the_user_gets_into_the_group_of_gpio_lines_where_there_is_one(self):
        self.assertIn("usermod -aG gpio radio_ntpd", self.configure()[1])
        os.unlink(f"{self.top}/calls")
        self.stub("getent", 2)
        self.assertEqual(self.configure(), (0, ["getent group gpio"]))

    def test_settings_that_are_there_stay_and_those_that_the_operator_removed_stay_away(self):
        settings = pathlib.Path(self.top, "etc/radio_ntpd")
        self.assertEqual(self.configure("0.2.0")[0], 0)
        self.assertEqual(list(settings.iterdir()), [])
        (settings / "station.toml").write_text("mine", encoding="ascii")
        for words in (("0.2.0",), ()):
            self.assertEqual(self.configure(*words)[0], 0)
            self.assertEqual((settings / "station.toml").read_text(), "mine")
        self.assertEqual((settings / "keeper.toml").read_text(), "example keeper.toml")
        self.assertEqual((settings / "keeper.toml").stat().st_mode & 0o777, 0o640)

    def test_the_next_step_is_said_once(self):
        self.configure()
        self.assertIn("then radio_keeper check, then systemctl enable --now radio_ntpd\n", self.said)
        self.configure("0.2.0")
        self.assertEqual(self.said, "")

    def test_settings_of_a_folder_that_was_removed_are_named(self):
        """As where `radio_keeper install` had put all below /usr/local, and took it away again."""
        self.stub("systemctl", 0)
        pathlib.Path(self.top, "etc/radio_ntpd/keeper.toml").write_text('command = "/usr/local/lib/radio_ntpd/feeders/x"', encoding="ascii")
        self.configure()
        self.assertIn("write /usr/lib/radio_ntpd\n", self.said)
        os.makedirs(f"{self.top}/usr/local/lib/radio_ntpd")
        self.configure()
        self.assertNotIn("write /usr/lib", self.said)


class Sentences(unittest.TestCase):
    def test_commands(self) -> None:
        with self.assertRaisesRegex(Fault, "^`sh -c exit 3` ended with 3$"):
            install.command("sh", "-c", "exit 3")
        with mock.patch.object(install, "LIMIT", 0.1):
            with self.assertRaisesRegex(Fault, "^`sleep 9` isn't over after 0 s$"):
                install.command("sleep", "9")

    def test_a_program_that_is_not_there(self) -> None:
        said = "there is no built program /nosuch: build it, or name it with --program"
        with self.assertRaisesRegex(Fault, said):
            install.main(parse(["install", "--program", "/nosuch"]))


if __name__ == "__main__":
    unittest.main()
