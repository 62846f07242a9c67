"""Counts from the sources how large and how tangled the program is, and prints one table.

    python3 -m dev.measure_shape [--list ROW] [--top FOLDER]

With --list the places of one row are printed instead, each as file:line. With --top another checkout than this one is measured.
Tests are left out unless a row names them: crates named `.._tests` and modules under `#[cfg(test)]`, with their definitions and proofs.
Comments count in the lines of files alone.
"""

import argparse
import sys
import textwrap
from collections.abc import Callable
from dataclasses import dataclass
from pathlib import Path

from dev.rattle_source import CLAUSE, DEFINITIONS, GHOST_IMPORT, PROOFS, SOURCE, TEST_PROOFS, TESTS
from lab import ends
from dev.shape_rows import RECEIVER_LAMBDA, STATE_LAMBDA, Checkout, Count, read_checkout
from dev.shape_rows import definition_arguments, files_of, lambdas, pairs, parameters, plan_files, uncommented, undocumented, wide


@dataclass(frozen=True)
class Row:
    """A row of the table: its name, what it counts, what more --help says of it, and what counts it."""

    name: str
    counts: str
    more: str
    count: Callable[[Checkout], Count]


ROWS = (
    Row("parameters", "functions with more than 6 parameters", "`self` is one of them; type parameters are not", parameters),
    Row(
        "arguments",
        "definitions with more than 6 arguments",
        "those of specs/, by place; what stands in braces is left out, since no use writes it",
        definition_arguments,
    ),
    Row("clauses", "clause lines above 120 characters", "lines of `requires`, `ensures` and `decreases`, and ghost lines but for imports", wide(CLAUSE)),
    Row("ghost-imports", "ghost imports above 120 characters", "lines of `ghost use`", wide(GHOST_IMPORT)),
    Row(
        "receiver-lambdas",
        "lambdas that only pass on a receiver's `stands_for` or `least_start`",
        "such as `λ b h. stands_for b h` and `λ b. least_start b`, in source, definitions and proofs",
        lambdas(RECEIVER_LAMBDA),
    ),
    Row(
        "state-lambdas",
        "lambdas that only pass on the `state` or `opening` of a log or link",
        "such as `λ log. O.Log.state log`, in source, definitions and proofs",
        lambdas(STATE_LAMBDA),
    ),
    Row("source", "files of source", "those of src/", files_of(SOURCE)),
    Row("tests", "files of tests", "those of src/ in crates of tests and in modules under `#[cfg(test)]`", files_of(TESTS)),
    Row("definitions", "files of definitions", "those of specs/", files_of(DEFINITIONS)),
    Row("proofs", "files of proofs", "those of proofs/", files_of(PROOFS)),
    Row("test-proofs", "files of definitions and proofs of tests", "those of specs/ and proofs/ that belong to tests", files_of(TEST_PROOFS)),
    Row(
        "source-pairs",
        "runs of at least 6 lines that source has twice",
        "exactly the same lines but for their indentation; imports, `mod` lines, comments and blank lines are left out. Of a run that "
        "stands in three places two are counted: each but the first",
        pairs(SOURCE),
    ),
    Row("test-pairs", "runs of at least 6 lines that tests have twice", "as source-pairs, among tests", pairs(TESTS)),
    Row(
        "undocumented",
        "public items without a `///`",
        "functions, types, traits and constants that other crates can name; fields are left out, and what a trait declares",
        undocumented,
    ),
    Row("uncommented", "`pub` items with no comment at all", "also those that only their own crate can name", uncommented),
)
PLANS = "each code plan has a row of its name: the files outside its own crate (`plan_NAME`) in which its name stands, in upper or lower case"


def rows_of(checkout: Checkout) -> list[Row]:
    """Returns all rows, those of the checkout's code plans last."""
    return [*ROWS, *(Row(plan, f"files outside its own crate that name `{plan}`", PLANS, plan_files(plan)) for plan in checkout.plans)]


def table(checkout: Checkout, rows: list[Row]) -> str:
    """Returns the table, as Markdown."""
    lines = ["| row | what it counts | count | beside it |", "|---|---|---|---|"]
    for row in rows:
        found = row.count(checkout)
        lines.append(f"| {row.name} | {row.counts} | {len(found.places)} | {found.beside} |")
    return "\n".join(lines)


def read_arguments() -> argparse.Namespace:
    """Reads the command line; --help explains each row."""
    about, _, more = (__doc__ or "").split("\n\n")
    rows = "\n".join(f"  {row.name}: {row.counts}\n{textwrap.indent(textwrap.fill(row.more, 100), '      ')}" for row in ROWS)
    reader = argparse.ArgumentParser(description=about, epilog=f"{more}\nThe rows:\n{rows}\n  {PLANS}", formatter_class=argparse.RawDescriptionHelpFormatter)
    reader.add_argument("--list", metavar="ROW", help="print the places of this row, each as file:line")
    reader.add_argument("--top", metavar="FOLDER", type=Path, default=Path(__file__).resolve().parent.parent, help="measure this checkout")
    return reader.parse_args()


def main() -> int:
    """Prints the table, or the places of a row."""
    given = read_arguments()
    try:
        checkout = read_checkout(given.top)
        rows = rows_of(checkout)
        if given.list is None:
            print(table(checkout, rows))
            return 0
        found = [row.count(checkout) for row in rows if row.name == given.list]
        if not found:
            print(f"measure_shape.py: no row {given.list}: --help names them", file=sys.stderr)
            return 2
        sys.stdout.writelines(f"{place.path}:{place.line} {place.note}\n" for place in found[0].places)
        return 0
    except UnicodeDecodeError:
        print("measure_shape.py: a file is not UTF-8", file=sys.stderr)
        return 1


if __name__ == "__main__":
    ends.run(main)
