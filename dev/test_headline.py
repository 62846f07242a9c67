"""Tests of dev/headline.py over a made checkout: what each part of a page becomes and what is refused; and that docs/HEADLINE.md is what
it makes of specs/.

    python3 -m unittest dev.test_headline
"""

import tempfile
import unittest
from pathlib import Path

from dev.antt_names import Specs
from dev.headline import PAGE, TOP, made_page
from dev.quoted_lines import Missing

HEAD = """-- The headline.
use Rattle.std.specs.Prelude.{Nat}
use Rattle.low.specs.Low.{Turn, Still, Torn, count_of}
use Rattle.low.specs.declared.end.End.{End}
use Rattle.low.specs.declared.end.End.TheVariants.{Count}

-- what was served
pub record IsServed (turns : List Turn) : Type 0 where
  pub count : Nat
  -- how many there are
  pub few : count_of turns
      = count
  pub end : is_whole End

abbrev pub is_whole : End -> Nat
is_whole Count = 1
"""
LOW = """-- a turn
pub data Turn : Type 0 where
  Still : Turn
  Torn : Nat -> Turn

-- its count,
-- by the table
abbrev pub count_of : Turn -> Nat
count_of Still = 0
count_of (Torn n) = table n

-- the table
abbrev pub table : Nat -> Nat
table n = n
"""
RUN = """ghost use Rattle.high.specs.Head.{IsServed};

/// Serves.
pub fn other(turns: u8) -> u8
    ensures served { other }

pub fn serve(turns: u8) -> u8
    ensures kept { turns }

    ensures served { (n : Nat) -> IsServed { n }
        result }
{
    turns
}

const ROWS: [Row; 1] = [Row {
    name: "it_is_asked",
}];

#[test]
fn it_is_served() {}
"""
LISTS = "<!--read low.Low high.Head-->\n<!--end-->\n"


class Made(unittest.TestCase):
    def setUp(self):
        self.top = Path(self.enterContext(tempfile.TemporaryDirectory()))
        for path, text in (
            ("high/specs/Head.antt", HEAD),
            ("low/specs/Low.antt", LOW),
            ("low/src/deep/end.rt", "//! Ends.\n/// An end.\npub enum End {\n    Count,\n}\n"),
            ("high/src/run.rt", RUN),
        ):
            self.put(path, text)

    def put(self, path, text):
        """Writes a file of a crate."""
        file = self.top / "crates" / path
        file.parent.mkdir(parents=True, exist_ok=True)
        file.write_text(text, encoding="utf-8")

    def make(self, text, lists=LISTS):
        """Returns what is made of a text before the lists of what is to be read, and what made it."""
        made, maker = made_page(Specs(self.top), text + lists, "high.Head.IsServed")
        return made.removesuffix(made[made.index("<!--read") :] if lists is LISTS else ""), maker

    def refused(self, why, text, lists=LISTS):
        """The page is refused, for a reason that begins so."""
        with self.assertRaises(Missing) as raised:
            self.make(text, lists)
        self.assertTrue(str(raised.exception).startswith(why), raised.exception)

    def test_a_record_is_quoted_without_its_comments_and_with_its_names(self):
        made, _ = self.make("Said.\n<!--quote high.Head.IsServed-->\nold\n<!--end-->\n")
        head = "pub record IsServed (turns : List Turn) : Type 0 where\n  pub count : Nat\n"
        quote = f"```\n{head}  pub few : count_of turns\n      = count\n  pub end : is_whole End\n```\n"
        names = (
            "Names: [`Turn`](../crates/low/specs/Low.antt#L2), [`count_of`](../crates/low/specs/Low.antt#L8),\n"
            "[`is_whole`](../crates/high/specs/Head.antt#L15), [`End`](../crates/low/src/deep/end.rt#L3).\n"
        )
        self.assertEqual(made, f"Said.\n<!--quote high.Head.IsServed-->\n\n{quote}\n{names}\n<!--end-->\n")

    def test_what_is_made_is_what_is_made_of_it(self):
        once, _ = self.make("<!--quote high.Head.IsServed-->\n<!--end-->\n\n# Then\n\n<!--counts-->\n<!--end-->\n")
        self.assertEqual(self.make(once)[0], once)

    def test_parts_of_a_record_have_its_head_once(self):
        text = "<!--quote high.Head.IsServed few-->\n<!--end-->\n<!--quote high.Head.IsServed count end-->\n<!--end-->\n"
        made, _ = self.make(text)
        self.assertEqual(made.count("pub record IsServed"), 1)
        self.assertIn("  pub few : count_of turns\n      = count\n```", made)
        self.assertIn("```\n  pub count : Nat\n  pub end : is_whole End\n```", made)

    def test_no_field_is_left_out(self):
        self.refused("end of IsServed is not quoted", "<!--quote high.Head.IsServed count few-->\n<!--end-->\n")

    def test_equations_are_quoted_by_their_constructors(self):
        made, _ = self.make("<!--quote low.Low.count_of Torn-->\n<!--end-->\n")
        self.assertIn("```\ncount_of (Torn n) = table n\n```\n\n1 of its 2 equations. Names: ", made)
        self.assertIn("Names: [`Torn`](../crates/low/specs/Low.antt#L2), [`table`]", made)
        self.refused("no Gone in count_of", "<!--quote low.Low.count_of Gone-->\n<!--end-->\n")

    def test_names_are_linked_once(self):
        quote = "<!--quote low.Low.count_of Torn-->\n<!--end-->\n"
        self.assertEqual(self.make(quote + "\n## Then\n\n" + quote)[0].count("[`table`]"), 1)
        made, _ = self.make("[`Turn`](../crates/low/specs/Low.antt#L2)\n" + quote, LISTS + "\n")
        self.assertEqual([made.count(f"[`{name}`]") for name in ("table", "Turn", "count_of", "IsServed")], [1, 1, 1, 1])

    def test_a_clause_is_quoted(self):
        made, _ = self.make("<!--clause high/src/run.rt serve served-->\n<!--end-->\n")
        self.assertIn("```\nensures served { (n : Nat) -> IsServed { n }\n    result }\n```\n", made)
        self.assertIn("Names: [`IsServed`](../crates/high/specs/Head.antt#L8).", made)
        self.refused("no clause gone of serve", "<!--clause high/src/run.rt serve gone-->\n<!--end-->\n")
        self.refused("a clause has", "<!--clause high/src/run.rt-->\n<!--end-->\n")

    def test_all_that_is_to_be_read_is_listed(self):
        made, _ = self.make("", LISTS + "\n")
        head = "- [`low` `Low`](../crates/low/specs/Low.antt), 12 lines: [`Turn`](../crates/low/specs/Low.antt#L2),\n  [`count_of`]"
        self.assertIn(head, made)
        self.refused("no list of low.Low", "", "<!--read high.Head-->\n<!--end-->\n")
        self.refused("nothing of low.Gone", "", "<!--read low.Low high.Head low.Gone-->\n<!--end-->\n")
        self.refused("high.Head is listed before low.Low, which IsServed needs", "", "<!--read high.Head low.Low-->\n<!--end-->\n")

    def test_what_is_taken_is_not_to_be_read(self):
        made, maker = self.make("<!--taken low.Low.count_of-->\n<!--end-->\n")
        self.assertIn("[`count_of`](../crates/low/specs/Low.antt#L8): 2 definitions, 8 lines in 1 files.", made)
        sizes = {what: (size.definitions, size.lines) for what, size in maker.sizes().items()}
        self.assertEqual(sizes, {"quoted": (0, 0), "to read": (3, 13), "taken on their tests": (2, 8), "both": (5, 21)})

    def test_what_stands_beside_the_headline_is_measured(self):
        self.put("high/specs/Run.antt", "use Rattle.high.specs.Head.{IsServed}\nabbrev pub Runs : Type 0\nRuns = IsServed\n")
        made, maker = self.make("<!--beside high.Run.Runs-->\n<!--end-->\n")
        self.assertIn("[`Runs`](../crates/high/specs/Run.antt#L2): 1 definitions, 2 lines in 1 files more.", made)
        sizes = {what: size.definitions for what, size in maker.sizes().items()}
        self.assertEqual(sizes, {"quoted": 0, "to read": 5, "taken on their tests": 0, "both": 5, "beside the headline": 1})
        counts, _ = self.make("<!--counts-->\n<!--end-->\n<!--beside high.Run.Runs-->\n<!--end-->\n")
        self.assertIn("| both | 5 | 21 | 2 |\n| beside the headline | 1 | 2 | 1 |\n", counts)

    def test_links_get_their_lines(self):
        made, _ = self.make("See [`table`](../crates/low/specs/Low.antt) and [`Turn`](../crates/low/specs/Low.antt#L99).\n")
        self.assertEqual(made, "See [`table`](../crates/low/specs/Low.antt#L13) and [`Turn`](../crates/low/specs/Low.antt#L2).\n")
        self.refused("no definition low.Low.gone", "[`gone`](../crates/low/specs/Low.antt#L1)\n")

    def test_tests_are_looked_up(self):
        self.make("Tests: `it_is_served`, `it_is_asked`.\n\n")
        self.refused("no test serve", "Tests: `it_is_served`,\n`serve`.\n\n")

    def test_a_part_has_an_end(self):
        self.refused("no end of <!--counts-->", "<!--counts-->\n")

    def test_a_part_has_a_kind(self):
        self.refused("no part is called <!--count-->", "<!--count-->\n<!--end-->\n")

    def test_a_definition_that_is_not_there_is_refused(self):
        self.refused("no definition low.Low", "<!--quote low.Low-->\n<!--end-->\n")


class ThePage(unittest.TestCase):
    def test_it_is_what_is_made_of_it(self):
        text = (TOP / PAGE).read_text(encoding="utf-8")
        self.assertTrue(made_page(Specs(TOP), text)[0] == text, f"{PAGE} is not what specs/ make of it: run dev/headline.py --write")

