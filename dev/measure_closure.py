"""Prints how much a reader has to believe for a definition: all definitions that it leads to, by names.

    python3 -m dev.measure_closure [CRATE.FILE.NAME ..] [--list]

Without a name it measures the headline's record (station_report.Headline.IsServed). A row has the definitions, their lines with and
without comments, the files that they stand in, and Rust's own types that they name. With --list the lines by file follow.
"""

import argparse
import sys
from collections import Counter
from pathlib import Path

from dev.antt_names import Definition, Name, Specs
from lab import ends

HEADLINE = "station_report.Headline.IsServed"


def lines_of(definition: Definition) -> tuple[int, int]:
    """Returns a definition's lines with the comment before it, and without any comment."""
    bare = [line for line in definition.lines if not line.lstrip().startswith("--")]
    return len(definition.comment) + len(definition.lines), len(bare)


def measure(words: list[str], lists: bool) -> int:
    """Measures each name that is given; `lists`: with the lines by file. Raises OSError."""
    specs = Specs(Path(__file__).resolve().parent.parent)
    print(f"{'definition':44}{'definitions':>12}{'lines':>8}{'bare':>8}{'files':>8}{'types':>8}")
    for word in words:
        try:
            met = specs.closure([Name(*word.split("."))])
        except (KeyError, TypeError):
            print(f"measure_closure: no definition {word}: write CRATE.FILE.NAME", file=sys.stderr)
            return 1
        counts = [lines_of(definition) for definition in met.values()]
        files: Counter[tuple[str, str]] = Counter()
        for one, (whole, _) in zip(met, counts):
            files[one.crate, one.file] += whole
        types = set().union(*(definition.types for definition in met.values()))
        print(f"{word:44}{len(met):12}{sum(c[0] for c in counts):8}{sum(c[1] for c in counts):8}{len(files):8}{len(types):8}")
        if lists:
            for (crate, file), lines in sorted(files.items(), key=lambda item: -item[1]):
                print(f"    {crate}/specs/{file}.antt {lines}")
    return 0


def main() -> int:
    """Measures, and says in a sentence why that can't be done."""
    words = argparse.ArgumentParser(description=__doc__, formatter_class=argparse.RawDescriptionHelpFormatter)
    words.add_argument("names", nargs="*", metavar="CRATE.FILE.NAME", default=[HEADLINE])
    words.add_argument("--list", action="store_true")
    asked = words.parse_args()
    return measure(asked.names, asked.list)


if __name__ == "__main__":
    ends.run(main)
