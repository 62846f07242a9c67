"""Tests of dev/antt_names.py over made definitions: which names of a definition stand for another one, and which are bound.

    python3 -m unittest dev.test_antt_names
"""

import tempfile
import unittest
from pathlib import Path

from dev.antt_names import Name, Specs

LOW = """-- What is low.

-- the turns
pub record Serves (budget : Nat) : Type 0 where
  pub turns : List Turn
  pub most : length turns <= budget

pub data Turn : Type 0 where
  Still : Turn
  Torn : Nat -> Turn

abbrev pub kept : Turn -> Nat
kept Still = 0
kept (Torn n) = n
"""


class Made(unittest.TestCase):
    def setUp(self):
        self.top = Path(self.enterContext(tempfile.TemporaryDirectory()))
        self.put("low", "Turns", LOW)

    def put(self, crate, file, text):
        """Writes a file of definitions."""
        path = self.top / "crates" / crate / "specs" / f"{file}.antt"
        path.parent.mkdir(parents=True, exist_ok=True)
        path.write_text(text, encoding="utf-8")

    def uses(self, text, name="it"):
        """Returns what a definition of low/Uses names, as `File.name`, and Rust's types."""
        self.put("low", "Uses", text)
        found = Specs(self.top).definition(Name("low", "Uses", name))
        return sorted(f"{one.file}.{one.name}" for one in found.uses), sorted(found.types)

    def test_a_name_of_the_file_is_a_use(self):
        self.assertEqual(self.uses("abbrev pub other : Nat\nother = 1\n\nabbrev pub it : Nat\nit = other + 1\n"), (["Uses.other"], []))

    def test_a_parameter_is_none(self):
        text = "abbrev pub other : Nat\nother = 1\n\nabbrev pub it : (other : Nat) -> Nat\nit other = other\n"
        self.assertEqual(self.uses(text), ([], []))

    def test_it_is_one_in_another_equation(self):
        text = "abbrev pub other : Nat\nother = 1\n\nabbrev pub it : Nat -> Nat\nit zero = other\nit (suc other) = other\n"
        self.assertEqual(self.uses(text), (["Uses.other"], []))

    def test_a_variable_is_none(self):
        for right in ("map (λ other. other) xs", "let other = 2 in other", "(other : Nat) -> other"):
            text = f"abbrev pub other : Nat\nother = 1\n\nabbrev pub it : List Nat -> List Nat\nit xs = {right}\n"
            self.assertEqual(self.uses(text), ([], []), right)

    def test_a_field_is_none(self):
        text = "abbrev pub other : Nat\nother = 1\n\npub record it (n : Nat) : Type 0 where\n  pub other : Nat\n  pub is : other = n\n"
        self.assertEqual(self.uses(text), ([], []))

    def test_a_parameter_named_as_a_field_of_a_record_is_no_use_of_the_record(self):
        text = "pub record Serves : Type 0 where\n  pub turns : Nat\n\nabbrev pub it : Nat -> Nat\nit turns = turns\n"
        self.assertEqual(self.uses(text), ([], []))

    def test_a_constructor_is_a_use_of_its_type(self):
        text = "pub data Turn : Type 0 where\n  still : Turn\n\nabbrev pub it : Nat\nit = count still\n"
        self.assertEqual(self.uses(text), (["Uses.Turn"], []))

    def test_an_import_is_a_use_under_either_name(self):
        text = "use Rattle.low.specs.Turns.{kept as held, Turn}\nabbrev pub it : Turn -> Nat\nit = held\n"
        self.assertEqual(self.uses(text), (["Turns.Turn", "Turns.kept"], []))

    def test_a_constructor_that_is_imported_is_a_use_of_its_type(self):
        text = "use Rattle.low.specs.Turns.Turn.{Still}\nabbrev pub it : Nat\nit = count Still\n"
        self.assertEqual(self.uses(text), (["Turns.Turn"], []))

    def test_a_type_of_rust_is_told_apart(self):
        text = "use Rattle.low.specs.declared.served.End.TheVariants as end\nabbrev pub it : Nat\nit = number end.Count\n"
        self.assertEqual(self.uses(text), ([], ["low.specs.declared.served.End"]))

    def test_a_closure_goes_all_the_way(self):
        self.put("low", "Uses", "use Rattle.low.specs.Turns.{kept}\nabbrev pub it : Nat\nit = kept 1\n")
        met = Specs(self.top).closure([Name("low", "Uses", "it")])
        self.assertEqual([name.name for name in met], ["it", "kept", "Turn"])

