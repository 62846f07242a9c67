"""Tests of dev/measure_shape.py over small made sources: of each row a case that counts and one that doesn't.

    python3 -m unittest dev.test_measure_shape
"""

import subprocess
import sys
import tempfile
import unittest
from pathlib import Path

from dev.measure_shape import rows_of
from dev.shape_rows import read_checkout

CRATES = "low:\nplan_dcf: low\nradio_ntpd: low plan_dcf   # the program\nlow_tests: low\n"
SIX = "".join(f"    let place_{number} = {number};\n" for number in range(6))
SEVEN = "a: u8, b: [u8; 2], c: (u8, u8), d: Vec<u8, A>, e: &[u8], f: &mut F, g: u8"


class Made(unittest.TestCase):
    def setUp(self):
        self.top = Path(self.enterContext(tempfile.TemporaryDirectory()))
        (self.top / "crates.txt").write_text(CRATES)
        self.put("low/src/lib.rt", "")

    def put(self, path, text):
        """Writes a file of a crate."""
        file = self.top / "crates" / path
        file.parent.mkdir(parents=True, exist_ok=True)
        file.write_text(text, encoding="utf-8")

    def count(self, name):
        """Counts a row, and returns its places as `path:line` from crates/ on, and what stands beside their number."""
        checkout = read_checkout(self.top)
        found = {row.name: row for row in rows_of(checkout)}[name].count(checkout)
        return [f"{place.path.removeprefix('crates/')}:{place.line}" for place in found.places], found.beside

    def places(self, name):
        """Returns the places of a row."""
        return self.count(name)[0]


class Sizes(Made):
    def test_parameters(self):
        self.put(
            "low/src/lib.rt",
            f"fn seven({SEVEN}) {{}}\n"
            "fn six(a: u8, b: [u8; 2], c: (u8, u8), d: Vec<u8, A>, e: fn(u8, u8) -> u8, f: &mut F) {}\n"
            f"// fn said({SEVEN}, h: u8)\n"
            "impl A {\n"
            "    pub fn with_self<F: Fn(u8, u8) -> u8, const N: usize>(\n"
            "        &self,\n        a: u8,\n        b: u8, // and more, of which\n        c: u8,\n        d: u8,\n        e: u8,\n        f: u8,\n        g: u8,\n    ) -> u8 {}\n"
            "}\n",
        )
        self.put("low_tests/src/lib.rt", f"fn seven({SEVEN}) {{}}\n")
        self.assertEqual(self.count("parameters"), (["low/src/lib.rt:5", "low/src/lib.rt:1"], "of 3; the most 8"))

    def test_arguments(self):
        seven = [
            "pub record Named (a b c : ℕ) {T U : Type 0} (d : List (ℕ → ℕ)) (e f g : ℕ) : Type 0 where\n  pub one : ℕ → ℕ → ℕ\n",
            "abbrev pub by_place : {T : Type 0} → (ℕ → ℕ → ℕ) → ℕ → ℕ → (d e f : ℕ) → ℕ → ℕ\nby_place _ a b d e f g = a\n",
            "pub record OverLines (a b c : ℕ) (d : ℕ)\n    (less : a < b) (e f : ℕ) : Type 0 where\n",
        ]
        six = [
            "pub record Named (a b c : ℕ) {T U : Type 0} (d : List (ℕ → ℕ)) (e f : ℕ) : Type 0 where\n  pub one : ℕ → ℕ → ℕ → ℕ → ℕ → ℕ → ℕ\n",
            "abbrev pub by_place : {T : Type 0} → (ℕ → ℕ → ℕ) → ℕ → ℕ → (d e : ℕ) → (f : ℕ) × (f ≡ 0) → ℕ\nby_place a = (λ x. x) → a → a\n",
            "unfoldable pub none : ℕ\nnone = 0\n",
        ]
        self.put("low/specs/Seven.antt", "\n".join(seven))
        self.put("low/specs/Six.antt", "\n".join(six))
        self.put("low_tests/specs/Seven.antt", "\n".join(seven))
        self.assertEqual(self.count("arguments"), ([f"low/specs/Seven.antt:{line}" for line in (1, 4, 7)], "of 6; the most 7"))

    def test_clauses(self):
        def wide(text, width=121):
            return text + "x" * (width - len(text) - 2) + " }\n"

        self.put(
            "low/src/lib.rt",
            wide("ghost use Rattle.low.specs.Lib.{ ")
            + "fn one()\n"
            + wide("    requires { ", 120)
            + wide("    ensures small { λ")
            + "    ensures more { OnOk result\n"
            + wide("        (λ x. { }) // ")
            + wide("        (λ x. x) { ")
            + wide("        // ")
            + "    }\n{\n"
            + wide('    let text = "ensures { ')
            + "}\n"
            + wide("    ghost view = { "),
        )
        self.put("low_tests/src/lib.rt", wide("    ensures { "))
        self.assertEqual(self.places("clauses"), [f"low/src/lib.rt:{line}" for line in (4, 6, 7, 13)])
        self.assertEqual(self.count("ghost-imports"), (["low/src/lib.rt:1"], "of 1; the most 121"))
        self.put("low/src/lib.rt", "ghost use Rattle.low." + "x" * 98 + ";\n")
        self.assertEqual(self.count("ghost-imports"), ([], "of 1; the most 120"))


class Forms(Made):
    def test_receiver_lambdas(self):
        counted = ["A (λ b h. stands_for b h) (λ b. least_start b)", "B (λ r h. g.R.Receiver.stands_for r h)", "C (λ j y h. j.1.stands_for y h)"]
        others = ["D (λ b. least_start b ≡ 0)", "E (λ spare. least_start spare.receiver)", "F stands_for", "G (λ b h. stands_for h b)"]
        self.put("low/src/lib.rt", "".join(f"    ensures {{ {line} }}\n" for line in counted + others) + "// (λ b. least_start b)\n")
        self.put("low/proofs/Laws.antt", "-- (λ b. least_start b)\nlaw = A (λ b. least_start b)\n")
        self.put("low_tests/src/lib.rt", "    ensures { A (λ b. least_start b) }\n")
        lines = [f"low/src/lib.rt:{line}" for line in (1, 1, 2, 3)]
        self.assertEqual(self.count("receiver-lambdas"), ([*lines, "low/proofs/Laws.antt:2"], "source 4, definitions 0, proofs 1"))

    def test_state_lambdas(self):
        counted = ["A (map (λ log. O.Log.state log) logs)", "B (λ x. g.O.Net.Link.opening x)", "C (λ l. L.state l)"]
        others = ["D O.Log.state", "E (λ log. O.Log.state log.now)", "F (λ s. s.state)", "G (λ log. O.Log.name log)", "H (λ w. worlds.state w)"]
        self.put("low/specs/Forms.antt", "".join(f"{line}\n" for line in counted + others) + "-- (λ log. O.Log.state log)\n")
        self.put("low_tests/specs/Forms.antt", "A (λ log. O.Log.state log)\n")
        self.assertEqual(self.count("state-lambdas"), ([f"low/specs/Forms.antt:{line}" for line in (1, 2, 3)], "source 0, definitions 3, proofs 0"))

    def test_undocumented(self):
        self.put(
            "low/src/lib.rt",
            "mod inner;\npub mod open;\npub use inner::{Named, other as renamed};\n"
            "/// Said.\n#[derive(\n    Clone,\n)]\npub struct Said {\n    pub field: u8,\n}\n"
            "// Said to its crate alone.\npub const BARE: u8 = 1;\n"
            "pub const fn bare() {}\n"
            "pub(crate) fn own() {}\n"
            '/// Of another.\nfn private() { "\npub fn in_a_text() {}\n" }\n'
            "pub enum After {}\n",
        )
        self.put("low/src/open.rt", "//! A module.\npub trait Open {\n    fn told();\n}\n")
        self.put("low/src/inner.rt", "pub struct Hidden;\n// One.\npub struct Named;\nimpl<T: Into<u8>> From<T> for Named {\n    pub fn method() {}\n}\nimpl Hidden {\n    pub fn unseen() {}\n}\n")
        self.put("low_tests/src/lib.rt", "pub fn bare() {}\n")
        self.put("radio_ntpd/src/main.rt", "pub fn bare() {}\n")
        own = [f"low/src/lib.rt:{line}" for line in (12, 13, 19)]
        self.assertEqual(self.count("undocumented"), (["low/src/inner.rt:3", "low/src/inner.rt:5", *own, "low/src/open.rt:2"], "of 7"))
        bare = [f"low/src/inner.rt:{line}" for line in (1, 5, 8)]
        self.assertEqual(self.places("uncommented"), [*bare, *own[1:], "low/src/open.rt:2", "radio_ntpd/src/main.rt:1"])


class Files(Made):
    def test_kinds(self):
        self.put("low/src/lib.rt", "mod inner;\n#[cfg(test)]\nmod writer;\n")
        self.put("low/src/inner.rt", "#[cfg(test)]\npub(crate) mod deep;\nmod tested;\n")
        for path in ("src/inner/deep.rt", "src/inner/tested.rt", "src/writer.rt"):
            self.put(f"low/{path}", "one\ntwo\n")
        for path in ("specs/Lib.antt", "proofs/Laws.antt", "proofs/inner/read/Answers.antt", "proofs/writer/of/Answers.antt", "proofs/inner/deep/of/Proof.antt"):
            self.put(f"low/{path}", "one\n")
        for path in ("src/lib.rt", "specs/Lib.antt", "proofs/Lib.antt"):
            self.put(f"low_tests/{path}", "one\n")
        self.put("low/out/lib.rt", "one\n")
        self.assertEqual(self.count("source"), ([f"low/src/{file}.rt:1" for file in ("inner/tested", "inner", "lib")], "8 lines"))
        self.assertEqual(self.count("tests"), (["low/src/inner/deep.rt:1", "low/src/writer.rt:1", "low_tests/src/lib.rt:1"], "5 lines"))
        self.assertEqual(self.count("definitions"), (["low/specs/Lib.antt:1"], "1 lines"))
        self.assertEqual(self.count("proofs"), (["low/proofs/Laws.antt:1", "low/proofs/inner/read/Answers.antt:1"], "2 lines"))
        of_tests = ["low/proofs/inner/deep/of/Proof.antt:1", "low/proofs/writer/of/Answers.antt:1", "low_tests/specs/Lib.antt:1", "low_tests/proofs/Lib.antt:1"]
        self.assertEqual(self.count("test-proofs"), (of_tests, "4 lines"))

    def test_plans(self):
        self.put("low/src/lib.rt", "// dcf\nuse plan_dcf::Dcf;\nlet plan = Plan::Dcf;\n")
        self.put("low/src/said.rt", "/// As DCF77 does.\nfn other() {}\n")
        self.put("low/specs/Plans.antt", "-- DCF77\nword Dcf = [] -- dcf\n")
        self.put("low/proofs/Laws.antt", "-- DCF77\nlaw = refl\n")
        self.put("plan_dcf/src/lib.rt", "fn dcf() {}\n")
        self.put("low_tests/src/lib.rt", "fn dcf() {}\n")
        self.assertEqual(self.count("dcf"), (["low/src/lib.rt:2", "low/specs/Plans.antt:2"], "source 1, definitions 1, proofs 0; besides, tests 1"))

    def test_plans_are_those_of_crates_txt(self):
        (self.top / "crates.txt").write_text("plan_jjy:\nplan_not:\nradio_ntpd: plan_jjy\n")
        self.assertEqual([row.name for row in rows_of(read_checkout(self.top))][-2:], ["uncommented", "jjy"])


class Pairs(Made):
    def test_six_lines(self):
        self.put("low/src/a.rt", "fn one() {\n" + SIX + "    one();\n}\n")
        self.put("low/src/b.rt", "use low::a;\nfn two() {\n" + SIX.replace("    let place_3", "\n// A comment.\n        let place_3") + "    two();\n}\n")
        self.assertEqual(self.count("source-pairs"), (["low/src/b.rt:3"], "6 lines of 18"))

    def test_five_lines_and_imports(self):
        text = "".join(f"use low::place_{n};\nghost use Rattle.low.place_{n}.{{\n    A,\n}};\npub mod place_{n};\n" for n in range(6))
        self.put("low/src/a.rt", SIX)
        self.put("low/src/b.rt", SIX.replace("5", "6"))
        self.assertEqual(self.count("source-pairs"), ([], "0 lines of 12"))
        self.put("low/src/a.rt", text)
        self.put("low/src/b.rt", text)
        self.assertEqual(self.count("source-pairs"), ([], "0 lines of 0"))

    def test_each_place_but_the_first(self):
        self.put("low/src/a.rt", SIX + "a\n" + SIX)
        self.put("low/src/b.rt", SIX + "b\n")
        self.assertEqual(self.places("source-pairs"), ["low/src/a.rt:8", "low/src/b.rt:1"])

    def test_no_line_counts_twice(self):
        for lines, pairs in ((11, 0), (12, 1), (17, 1), (18, 2)):
            with self.subTest(lines=lines):
                self.put("low/src/a.rt", "same\n" * lines)
                self.assertEqual(len(self.places("source-pairs")), pairs)

    def test_tests_apart(self):
        self.put("low/src/a.rt", SIX)
        self.put("low_tests/src/a.rt", SIX)
        self.assertEqual((self.places("source-pairs"), self.places("test-pairs")), ([], []))
        self.put("low_tests/src/b.rt", SIX)
        self.assertEqual((self.places("source-pairs"), self.places("test-pairs")), ([], ["low_tests/src/b.rt:1"]))


class Program(Made):
    def run_it(self, *words):
        """Runs the program on what was made."""
        done = subprocess.run([sys.executable, "-B", "-m", "dev.measure_shape", "--top", self.top, *words], capture_output=True, text=True, timeout=60)
        return done.returncode, done.stdout, done.stderr

    def test_table(self):
        self.put("low/src/lib.rt", f"fn seven({SEVEN}) {{}}\n")
        status, said, fault = self.run_it()
        rows = [line.split(" | ")[0].removeprefix("| ") for line in said.splitlines()]
        self.assertEqual((status, fault, rows[2:]), (0, "", [row.name for row in rows_of(read_checkout(self.top))]))
        self.assertIn("| parameters | functions with more than 6 parameters | 1 | of 1; the most 7 |\n", said)

    def test_list(self):
        self.put("low/src/lib.rt", f"\nfn seven({SEVEN}) {{}}\n")
        self.assertEqual(self.run_it("--list", "parameters"), (0, "crates/low/src/lib.rt:2 7 seven\n", ""))
        self.assertEqual(self.run_it("--list", "clauses"), (0, "", ""))

    def test_help_explains_each_row(self):
        said = " ".join(self.run_it("--help")[1].split())
        for row in rows_of(read_checkout(self.top)):
            self.assertIn(row.more, said)

    def test_what_is_wrong(self):
        self.assertEqual(self.run_it("--list", "none"), (2, "", "measure_shape.py: no row none: --help names them\n"))
        (self.top / "crates/low/src/lib.rt").write_bytes(b"\xff")
        self.assertEqual(self.run_it(), (1, "", "measure_shape.py: a file is not UTF-8\n"))
        (self.top / "crates.txt").unlink()
        self.assertEqual(self.run_it(), (1, "", f"measure_shape.py: {self.top}/crates.txt: No such file or directory\n"))

    def test_a_reader_that_ends(self):
        self.put("low/src/lib.rt", "".join(f"fn f{n}({SEVEN}) {{}}\n" for n in range(5000)))
        words = [sys.executable, "-B", "-m", "dev.measure_shape", "--top", self.top, "--list", "parameters"]
        with subprocess.Popen(words, stdout=subprocess.PIPE, stderr=subprocess.PIPE) as child:
            child.stdout.readline()
            child.stdout.close()
            self.assertEqual((child.stderr.read(), child.wait(60)), (b"", 1))

