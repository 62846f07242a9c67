#!/usr/bin/env python3
"""Tests of what a build copies, where it lies and what it notes: built_program.py and build_copy.py.

    build/test_built_program.py
"""

import contextlib
import io
import os
import shutil
import unittest
from pathlib import Path
from unittest import mock

HERE = Path(__file__).resolve().parent
import build_copy
import build_program
import built_program
from made_checkout import Room


class Built(Room):
    def test_a_folder_that_was_copied_has_its_program(self):
        """Whatever times the copy has; also where the toolchain isn't there, and where the program's time can't be set."""
        self.run_build()
        self.rt.unlink()
        copied = self.room / "copied"
        shutil.copytree(self.top, copied, copy_function=shutil.copyfile)
        program, source = copied / "crates/radio_ntpd/out/radio_ntpd", copied / "crates/low/src/lib.rt"
        self.words[-1] = str(copied / "build" / "build_program.py")
        self.about["PATH"] = f"{self.room}/kit/bin"
        for renewed in (True, False):
            os.utime(program, (1000, 1000))
            if not renewed:
                with mock.patch("os.utime", side_effect=PermissionError):
                    built_program.renew(copied)
                self.assertEqual(program.stat().st_mtime, 1000)
                continue
            done = self.run_build()
            self.assertEqual((done.returncode, done.stderr), (0, ""))
            self.assertGreater(program.stat().st_mtime, source.stat().st_mtime)
        for changed in (source, program):
            with self.subTest(changed=changed.name):
                before = changed.read_bytes()
                changed.write_bytes(before + b"\n")
                os.utime(program, (1000, 1000))
                done = self.run_build()
                self.assertEqual(done.returncode, 69)
                self.assertIn(f"the program is older than {copied}/crates", done.stderr)
                self.assertEqual(len(done.stderr.splitlines()), 1)
                changed.write_bytes(before)
        os.utime(program, (1000, 1000))
        self.assertEqual(self.run_build().returncode, 0)

    def test_a_source_that_changes_while_it_is_copied_leaves_no_note(self):
        digests = iter(("one", "other"))
        with mock.patch.object(build_program.built_program, "digest_of", lambda top: next(digests)):
            with mock.patch.object(build_program, "run", lambda copy, log, build: 0), mock.patch.object(build_program, "take_program"):
                with contextlib.redirect_stderr(io.StringIO()):
                    build_program.build(self.top, self.room, str(self.rt))
        self.assertFalse(self.program.with_suffix(".sources").exists())

    def test_a_changed_source_is_one_that_the_program_is_built_of(self):
        self.run_build()
        self.assertTrue(built_program.is_of_its_sources(self.top))
        for name, changes in (("crates/some_tests/src/lib.rt", False), ("crates/low/out/old.rt", False), ("crates/low/src/new.rt", True), ("crates.txt", True)):
            with self.subTest(name=name):
                file = self.top / name
                before = file.read_bytes() if file.exists() else None
                file.write_bytes((before or b"") + b"// more\n")
                self.assertEqual(built_program.is_of_its_sources(self.top), not changes)
                if before is None:
                    file.unlink()
                else:
                    file.write_bytes(before)

    def test_a_source_that_has_another_name_is_another_source(self):
        self.run_build()
        source = self.top / "crates/low/src/lib.rt"
        source.rename(source.with_name("other.rt"))
        self.assertFalse(built_program.is_of_its_sources(self.top))

    def test_a_source_as_old_as_the_program_is_not_newer(self):
        self.run_build()
        for file in (*built_program.sources_of(self.top), self.program):
            os.utime(file, ns=(10**18, 10**18))
        self.assertIsNone(built_program.newer_source(self.top))
        source = self.top / "crates/left/src/lib.rt"
        os.utime(source, ns=(10**18, 10**18 + 1000))
        self.assertEqual(built_program.newer_source(self.top), source)

    def test_a_folder_that_cannot_be_written_is_refused_before_the_first_proof(self):
        """A file in the place of `out`, and a folder in which nobody makes a file."""
        out = self.program.parent
        for make in (lambda: out.write_text(""), lambda: out.symlink_to("/proc")):
            with self.subTest(make=make):
                make()
                done = self.run_build()
                self.assertEqual(done.returncode, 70)
                self.assertEqual(len(done.stderr.splitlines()), 1, done.stderr)
                self.assertIn(f"{out}: ", done.stderr)
                self.assertIn("copy this folder to where you may write", done.stderr)
                self.assertFalse(Path(f"{self.notes}.crates").exists())
                out.unlink()

    def test_the_copy_goes_when_the_program_is_built(self):
        self.assertEqual(self.run_build(BROKEN="low").returncode, 70)
        self.assertEqual(len(list(self.room.glob("cache/radio_ntpd/*/copy"))), 1)
        self.assertEqual(self.run_build().returncode, 0)
        self.assertEqual(list(self.room.glob("cache/radio_ntpd/*/copy")), [])

    def test_the_copy_of_this_checkout_has_no_tests(self):
        copy = self.room / "copy"
        top = HERE.parent
        build_copy.make_copy(top, copy, list(build_program.read_crates(top)))
        found = [str(file.relative_to(copy)) for file in copy.rglob("*.rt") if "#[test]" in file.read_text() or "cfg(test)" in file.read_text()]
        self.assertEqual(found, [])
        self.assertTrue((copy / "crates" / "page_cell" / "src" / "cell.rt").is_file())

    def test_modules_of_tests_are_left_out_with_their_proofs_and_each_line_keeps_its_number(self):
        crate = self.top / "crates" / "low"
        (crate / "src" / "lib.rt").write_text("mod a;\n#[cfg(test)]\nmod tests;\nmod b;\n\n#[cfg(test)]\nmod writer;\n")
        for file in ("src/a.rt", "src/tests.rt", "src/tests/shared.rt", "src/writer.rt", "proofs/a/Answers.antt", "proofs/tests/f/Answers.antt", "proofs/writer.antt"):
            (crate / file).parent.mkdir(parents=True, exist_ok=True)
            (crate / file).write_text("")
        copy = self.room / "copy"
        build_copy.make_copy(self.top, copy, ["low"])
        left = copy / "crates" / "low"
        self.assertEqual(sorted(str(file.relative_to(left)) for file in left.rglob("*") if file.is_file()), ["proofs/a/Answers.antt", "src/a.rt", "src/lib.rt"])
        lines = (left / "src" / "lib.rt").read_text().splitlines()
        self.assertEqual([(number, line) for number, line in enumerate(lines) if not line.startswith("//")], [(0, "mod a;"), (3, "mod b;"), (4, "")])
        self.assertEqual(len(lines), 7)

    def test_the_program_is_as_old_as_the_copy(self):
        """So a source that is changed while the program is proved is newer."""
        self.run_build()
        self.assertLess(self.program.stat().st_mtime, Path(f"{self.notes}.left").stat().st_mtime)

    def test_where_proofs_are_kept(self):
        self.assertTrue(build_copy.keeps_proofs(str(self.rt)))
        (self.room / "rattle-kept").mkdir()
        self.assertTrue(build_copy.keeps_proofs(str(self.rt)))
        with mock.patch("os.geteuid", return_value=os.geteuid() + 1):
            self.assertFalse(build_copy.keeps_proofs(str(self.rt)))
        (self.room / "rattle-kept").rmdir()
        with mock.patch("os.access", return_value=False):
            self.assertFalse(build_copy.keeps_proofs(str(self.rt)))

    def test_a_user_without_a_folder_for_the_copy_is_told_what_to_set(self):
        (self.room / "taken").write_text("")
        done = self.run_build(XDG_CACHE_HOME=str(self.room / "taken"))
        self.assertEqual(done.returncode, 70)
        self.assertEqual(len(done.stderr.splitlines()), 1)
        self.assertIn("set XDG_CACHE_HOME", done.stderr)


if __name__ == "__main__":
    unittest.main()
