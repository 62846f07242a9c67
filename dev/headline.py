"""Makes the quoted parts of docs/HEADLINE.md from specs/: what a stranger has to believe of the headline.

    python3 -m dev.headline [--write]

Without --write it says whether the page is what it would make. It prints how many lines of definitions are quoted, are to be read, and
are taken on their tests. A part stands between one of these comments, as `<!--counts-->`, and `<!--end-->`:

    quote CRATE.FILE.NAME [PART ..]   the definition, or of it these fields, or the equations of these constructors; then its names
    clause PATH FUNCTION CLAUSE       a clause of source, by its path below crates/; then its names
    read CRATE.FILE ..                the definitions of these files that are to be read, each file after those that it needs
    taken CRATE.FILE.NAME ..          definitions that are taken on their tests, and how much they lead to
    beside CRATE.FILE.NAME ..         definitions that the headline does not lead to, and how much they lead to that it does not
    counts                            a table of all of it

The names of a quote that were linked before are not linked again, nor is what is to be read of a file. Of a record that is quoted all
fields have to be somewhere on the page. Each link to a definition elsewhere gets its line, and each test after `Tests:` is looked up.
"""

import argparse
import re
import sys
from collections.abc import Iterator
from pathlib import Path

from dev.antt_names import Name, Specs
from dev.quoted_lines import (
    Links,
    Missing,
    chosen_lines,
    clause_lines,
    fenced,
    fields_of,
    find_definition,
    left_out,
    link_to,
    names_of_clause,
    names_of_lines,
    wrapped,
)
from dev.reading_list import ReadingList, Size, size_of
from lab import ends

HEADLINE = "station_report.Headline.IsServed"
PAGE = "docs/HEADLINE.md"
TOP = Path(__file__).resolve().parent.parent

PART = re.compile(r"<!--(quote|clause|read|taken|beside|counts)((?: [\w./]+)*)-->")
END = "<!--end-->"
LINK = re.compile(r"\[`(\w+)`\]\(\.\./crates/(\w+)/specs/(\w+)\.antt(?:#L\d+)?\)")
TESTS = re.compile(r"(?ms)^Tests: (.*?)(?:\n\n|\Z)")


class Maker:
    """Makes the parts of a page, one after another."""

    def __init__(self, specs: Specs, text: str, start: str = HEADLINE):
        """Takes the page as it is. It raises Missing where `look_up_lists` does."""
        self.specs = specs
        # The lines that were quoted of each definition, and what was linked.
        self.quoted: dict[Name, set[str]] = {}
        self.linked: set[tuple[str, Name | str]] = set()
        asked = [(kind, words.split()) for kind, words in PART.findall(text)]
        taken = [find_definition(specs, word).name for kind, words in asked if kind == "taken" for word in words]
        self.list = ReadingList(specs, find_definition(specs, start).name, taken)
        self.beside = [find_definition(specs, word).name for kind, words in asked if kind == "beside" for word in words]
        self.look_up_lists([word for kind, words in asked if kind == "read" for word in words])

    def look_up_lists(self, listed: list[str]) -> None:
        """Looks whether each file of which something is to be read is listed, and after those that it needs. It raises Missing."""
        places = {word: place for place, word in enumerate(listed)}
        for name in self.list.to_read:
            if f"{name.crate}.{name.file}" not in places:
                raise Missing(f"no list of {name.crate}.{name.file}, of which {name.name} is to be read")
        for name, one in self.list.to_read.items():
            for need in sorted(one.uses & self.list.to_read.keys()):
                if places[f"{need.crate}.{need.file}"] > places[f"{name.crate}.{name.file}"]:
                    raise Missing(f"{name.crate}.{name.file} is listed before {need.crate}.{need.file}, which {name.name} needs")

    def make(self, kind: str, words: list[str]) -> list[str]:
        """Returns the lines of a part. It raises Missing."""
        make = {
            "quote": self.quote,
            "clause": self.clause,
            "read": self.read,
            "taken": self.take,
            "beside": self.measure,
            "counts": self.count,
        }
        return make[kind](words)

    def new_links(self, names: Links) -> list[str]:
        """Returns links of those of the names that have none yet."""
        new = {word: one for word, one in names.items() if (word, one) not in self.linked}
        self.linked.update(new.items())
        return [link_to(self.specs, word, one) for word, one in new.items()]

    def note_links(self, text: str) -> None:
        """Notes the definitions that a text links. It raises Missing."""
        for word, crate, file in LINK.findall(text):
            self.linked.add((word, find_definition(self.specs, f"{crate}.{file}.{word}").name))

    def links(self, names: list[Name]) -> str:
        """Returns links to definitions by their names."""
        return ", ".join(link_to(self.specs, one.name, one) for one in names)

    def quote(self, words: list[str]) -> list[str]:
        """Quotes a definition, or parts of it. The head of a record stands where it is quoted first."""
        definition = find_definition(self.specs, words[0] if words else "")
        lines = chosen_lines(definition, words[1:], definition.name not in self.quoted)
        self.quoted.setdefault(definition.name, set()).update(lines)
        links = self.new_links(names_of_lines(self.specs, definition, lines))
        return fenced(lines, links, left_out(definition, lines))

    def clause(self, words: list[str]) -> list[str]:
        """Quotes a clause of source."""
        if len(words) != 3:
            raise Missing("a clause has a path, a function and a name")
        lines = clause_lines(self.specs.top, *words)
        return fenced(lines, self.new_links(names_of_clause(self.specs, words[0], lines)))

    def look_up_fields(self) -> None:
        """Looks whether a record of which a part was quoted was quoted whole. It raises Missing."""
        for name, lines in self.quoted.items():
            definition = self.specs.definition(name)
            for part, own in fields_of(definition).items() if definition.is_of("record") else ():
                if not lines.issuperset(own):
                    raise Missing(f"{part} of {name.name} is not quoted")

    def read(self, words: list[str]) -> list[str]:
        """Lists what is to be read of files: each with its lines, and with links to what has none yet."""
        lines: list[str] = []
        for word in words:
            crate, _, file = word.partition(".")
            own = self.list.of_file(crate, file)
            if not own:
                raise Missing(f"nothing of {word} is to be read")
            links = ", ".join(self.new_links({one.name.name: one.name for one in own}))
            head = f"- [`{crate}` `{file}`](../crates/{crate}/specs/{file}.antt), {size_of(own).lines} lines"
            lines += wrapped(f"{head}: {links}" if links else head, "  ")
        return lines

    def take(self, words: list[str]) -> list[str]:
        """Lists definitions that are taken on their tests, and how much they lead to."""
        names = [find_definition(self.specs, word).name for word in words]
        return wrapped(f"{self.links(names)}: {size_of(self.list.led_to(names, self.list.to_read))}.")

    def measure(self, words: list[str]) -> list[str]:
        """Lists definitions beside the headline, and how much they lead to that it does not."""
        names = [find_definition(self.specs, word).name for word in words]
        return wrapped(f"{self.links(names)}: {size_of(self.list.led_to(names, self.list.whole))} more.")

    def count(self, words: list[str]) -> list[str]:
        """Makes the table of all of it."""
        sizes = self.list.sizes() | self.size_beside()
        rows = [f"| {what} | {size.definitions} | {size.lines} | {size.files} |" for what, size in sizes.items()]
        return ["| definitions | how many | lines | files |", "|---|---|---|---|", *rows]

    def size_beside(self) -> dict[str, Size]:
        """Measures what stands beside the headline, where anything does."""
        return {"beside the headline": size_of(self.list.led_to(self.beside, self.list.whole))} if self.beside else {}

    def sizes(self) -> dict[str, Size]:
        """Measures what was quoted, what there is to read, and what stands beside the headline."""
        files = {(name.crate, name.file) for name in self.quoted}
        quoted = Size(len(self.quoted), sum(map(len, self.quoted.values())), len(files))
        return {"quoted": quoted, **self.list.sizes(), **self.size_beside()}


def parts_of(text: str) -> Iterator[tuple[str, list[str], str]]:
    """Gives each part of a page by its kind and its words, with the text before it, its comment included; and last the text after them
    all, as a part of no kind. It raises Missing."""
    at = 0
    for found in re.finditer(r"<!--(?!end-->).*", text):
        if not PART.fullmatch(found.group()):
            raise Missing(f"no part is called {found.group()}")
    for found in PART.finditer(text):
        end = text.find(END, found.end())
        if end < 0 or PART.search(text, found.end(), end):
            raise Missing(f"no end of {found.group()}")
        yield found.group(1), found.group(2).split(), text[at : found.end()]
        at = end
    yield "", [], text[at:]


def place_links(specs: Specs, text: str) -> str:
    """Returns a text in which each link to a definition has its line. It raises Missing."""

    def place(found: re.Match[str]) -> str:
        name, crate, file = found.groups()
        return link_to(specs, name, find_definition(specs, f"{crate}.{file}.{name}").name)

    return LINK.sub(place, text)


def look_up_tests(top: Path, text: str) -> None:
    """Looks up each test that the page names: a function, or a row of a table with that name. It raises Missing."""
    names = {name for paragraph in TESTS.findall(text) for name in re.findall(r"`(\w+)`", paragraph)}
    for path in sorted(top.glob("crates/*/src/**/*.rt")):
        names -= set(re.findall(r"(?:#\[test\]\s*fn |\bname: \")(\w+)", path.read_text(encoding="utf-8")))
    if names:
        raise Missing(f"no test {sorted(names)[0]}")


def made_page(specs: Specs, text: str, start: str = HEADLINE) -> tuple[str, Maker]:
    """Returns the page that is made of this one, and what made it. It raises Missing."""
    look_up_tests(specs.top, text)
    maker, made = Maker(specs, text, start), ""
    for kind, words, before in parts_of(text):
        made += place_links(specs, before)
        maker.note_links(before)
        if kind:
            made += "\n\n" + "\n".join(maker.make(kind, words)) + "\n\n"
    maker.look_up_fields()
    return made, maker


def main() -> int:
    """Makes the page, or says whether it is made."""
    options = argparse.ArgumentParser(description=__doc__, formatter_class=argparse.RawDescriptionHelpFormatter)
    options.add_argument("--write", action="store_true", help="write the page anew")
    asked = options.parse_args()
    try:
        text = (TOP / PAGE).read_text(encoding="utf-8")
        made, maker = made_page(Specs(TOP), text)
        if asked.write:
            (TOP / PAGE).write_text(made, encoding="utf-8")
    except Missing as why:
        print(f"headline: {why}", file=sys.stderr)
        return 1
    if made != text and not asked.write:
        print(f"headline: {PAGE} is not what specs/ make of it: run python3 -m dev.headline --write", file=sys.stderr)
        return 1
    print("headline: " + "; ".join(f"{what}: {size}" for what, size in maker.sizes().items()))
    return 0


if __name__ == "__main__":
    ends.run(main)
