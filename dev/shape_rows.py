"""The rows of dev/measure_shape.py: each counts one thing in a checkout, and returns the places that it counted.

Unless a row says otherwise tests are left out: crates named `.._tests` and modules under `#[cfg(test)]`, with their definitions and proofs.
"""

import re
from collections.abc import Callable
from dataclasses import dataclass
from pathlib import Path

from dev.antt_names import Definition, Specs
from build.crate_graph import read_crates
from dev.public_items import exported
from dev.rattle_source import DEFINITIONS, PROOFS, SOURCE, TESTS
from dev.rattle_source import File, functions, read_files, spans, split_top, code_lines, without_comments

MOST_PARAMETERS = 6
MOST_WIDTH = 120
RUN = 6
RECEIVER_LAMBDA = re.compile(r"λ (?:\w+ )*?(\w+(?: \w+)*)\. (?:\S+\.)?(?:stands_for|least_start) \1(?=\s*(?:[)}\],;]|$))")
STATE_LAMBDA = re.compile(r"λ (\w+)\. (?:\w+\.)*[A-Z]\w*\.(?:state|opening) \1(?=\s*(?:[)}\],;]|$))")
DECLARED = re.compile(r"^(?:(?:pub|abbrev|unfoldable|opaque|record|data|type)\s+)*\S+\s*")


@dataclass(frozen=True)
class Place:
    """A place that a row counts: a line (from 1) of a file, and a note on it."""

    path: str
    line: int
    note: str


@dataclass(frozen=True)
class Count:
    """What a row comes to: its places, whose number is the row's, and what stands beside that number."""

    places: list[Place]
    beside: str


@dataclass(frozen=True)
class Checkout:
    """A checkout: where it is, its files, and the names of the code plans that the program stands on."""

    top: Path
    files: list[File]
    plans: list[str]

    def of(self, *kinds: str) -> list[File]:
        """Returns the files of these kinds."""
        return [file for file in self.files if file.kind in kinds]


def read_checkout(top: Path) -> Checkout:
    """Reads the sources of a checkout. It raises OSError and UnicodeDecodeError."""
    plans = [name.removeprefix("plan_") for name in read_crates(top) if name.startswith("plan_")]
    return Checkout(top, read_files(top), plans)


def greatest(found: list[tuple[int, Place]], most: int) -> Count:
    """Counts the places whose number is above `most`, the greatest first."""
    places = [Place(place.path, place.line, f"{number} {place.note}") for number, place in sorted(found, key=lambda one: -one[0]) if number > most]
    return Count(places, f"of {len(found)}; the most {max((number for number, _ in found), default=0)}")


def parameters(checkout: Checkout) -> Count:
    """Counts functions by their parameters."""
    found = [(many, Place(file.path, line, name)) for file in checkout.of(SOURCE) for line, name, many in functions(file.text)]
    return greatest(found, MOST_PARAMETERS)


def head_of(definition: Definition) -> str:
    """Returns a definition's declaration from after its name on, in one line: its type's end or its `where` ends it."""
    head: list[str] = []
    for line in definition.lines:
        if head and (not line[:1].isspace() or head[-1].endswith(" where")):
            break
        head.append(re.sub(r"(^|\s)--.*", "", line).strip())
    return DECLARED.sub("", " ".join(head), count=1)


def binders(text: str) -> int | None:
    """Returns how many arguments bracketed groups declare: of `(a b : T) (c : U)` three, of `{T : Type 0}` none. None for any other text."""
    groups = [group for group in split_top(text, " ", "([{", ")]}") if group]
    if not all(group[0] in "({" and " : " in group for group in groups):
        return None
    return sum(len(group[1:].partition(" : ")[0].split()) for group in groups if group[0] == "(")


def arguments(definition: Definition) -> int:
    """Returns how many arguments a definition takes by place: those before its colon and those of its type."""
    before, *kind = split_top(head_of(definition), ":", "([{", ")]}")
    count = binders(before) or 0
    for part in split_top(":".join(kind), "→", "([{", ")]}")[:-1]:
        declared = binders(part)
        count += 1 if declared is None else declared
    return count


def definition_arguments(checkout: Checkout) -> Count:
    """Counts definitions by their arguments."""
    specs, found = Specs(checkout.top), []
    own = {file.path for file in checkout.of(DEFINITIONS)}
    for (crate, short), file in specs.files.items():
        path = f"crates/{crate}/specs/{short}.antt"
        if path in own:
            found += [(arguments(one), Place(path, one.first, one.name.name)) for one in file.definitions.values()]
    return greatest(found, MOST_PARAMETERS)


def wide(start: re.Pattern[str]) -> Callable[[Checkout], Count]:
    """Counts the lines above MOST_WIDTH characters of what begins so."""

    def count(checkout: Checkout) -> Count:
        found = [(len(line), Place(file.path, number, "characters")) for file in checkout.of(SOURCE) for number, line in spans(file.text, start)]
        return greatest(found, MOST_WIDTH)

    return count


def by_kind(places: dict[str, list[Place]]) -> Count:
    """Counts places of several kinds, with the number of each beside it."""
    return Count(sum(places.values(), []), ", ".join(f"{kind} {len(these)}" for kind, these in places.items()))


def lambdas(pattern: re.Pattern[str]) -> Callable[[Checkout], Count]:
    """Counts the lambdas of this form in source, definitions and proofs."""

    def count(checkout: Checkout) -> Count:
        places: dict[str, list[Place]] = {SOURCE: [], DEFINITIONS: [], PROOFS: []}
        for file in checkout.of(*places):
            for number, line in enumerate(without_comments(file).splitlines(), 1):
                places[file.kind] += [Place(file.path, number, found.group()) for found in pattern.finditer(line)]
        return by_kind(places)

    return count


def files_of(kind: str) -> Callable[[Checkout], Count]:
    """Counts the files of a kind, and beside them their lines."""

    def count(checkout: Checkout) -> Count:
        files = checkout.of(kind)
        places = [Place(file.path, 1, f"{len(file.lines)} lines") for file in files]
        return Count(places, f"{sum(len(file.lines) for file in files)} lines")

    return count


def undocumented(checkout: Checkout) -> Count:
    """Counts items that other crates can name and that have no `///`."""
    found = [(file, item) for file, item, out in exported(checkout.of(SOURCE)) if out]
    return Count([Place(file.path, item.line, item.name) for file, item in found if item.comment in ("", "//")], f"of {len(found)}")


def uncommented(checkout: Checkout) -> Count:
    """Counts items that begin with `pub` and have no comment before them."""
    found = [(file, item) for file, item, _ in exported(checkout.of(SOURCE))]
    return Count([Place(file.path, item.line, item.name) for file, item in found if not item.comment], f"of {len(found)}")


def pairs(*kinds: str) -> Callable[[Checkout], Count]:
    """Counts the runs of at least RUN lines that stand in an earlier place too. Each is paired with the first place that has its first lines."""

    def count(checkout: Checkout) -> Count:
        files = [(file.path, code_lines(file.text)) for file in checkout.of(*kinds)]
        first: dict[tuple[str, ...], tuple[int, int]] = {}
        places, whole = [], 0
        for number, (path, lines) in enumerate(files):
            start = 0
            while start + RUN <= len(lines):
                window = tuple(line for _, line in lines[start : start + RUN])
                other, at = first.setdefault(window, (number, start))
                if (other, at) == (number, start) or (other == number and at + RUN > start):
                    start += 1
                    continue
                length = run_length(files[other][1], at, lines, start, other == number)
                earlier = files[other]
                places.append(Place(path, lines[start][0], f"{length} lines as at {earlier[0]}:{earlier[1][at][0]}"))
                start, whole = start + length, whole + length
        return Count(places, f"{whole} lines of {sum(len(lines) for _, lines in files)}")

    return count


def run_length(earlier: list[tuple[int, str]], at: int, lines: list[tuple[int, str]], start: int, one_file: bool) -> int:
    """Returns how many lines are the same from two places on. In one file the runs don't overlap."""
    most = min(len(earlier) - at, len(lines) - start, start - at if one_file else len(lines))
    return next((length for length in range(most) if earlier[at + length][1] != lines[start + length][1]), most)


def plan_files(plan: str) -> Callable[[Checkout], Count]:
    """Counts the files outside a plan's own crate in which its name stands, as a word or a part of one, in upper or lower case."""

    def count(checkout: Checkout) -> Count:
        places: dict[str, list[Place]] = {SOURCE: [], DEFINITIONS: [], PROOFS: [], TESTS: []}
        for file in checkout.of(*places):
            lines = [number for number, line in enumerate(without_comments(file).splitlines(), 1) if plan in line.lower()]
            if lines and file.crate != f"plan_{plan}":
                places[file.kind].append(Place(file.path, lines[0], f"the first of {len(lines)}"))
        tests = places.pop(TESTS)
        found = by_kind(places)
        return Count(found.places, f"{found.beside}; besides, tests {len(tests)}")

    return count
