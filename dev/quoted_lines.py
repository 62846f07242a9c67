"""Quotes definitions of specs/ and clauses of source for a page in docs/: which lines, and which names they use, each with its place.

A place is a link from docs/ to a file and a line. Comments are not quoted.
"""

import re
import textwrap
from pathlib import Path

from dev.antt_names import FIELD, WORD, Definition, File, Name, Specs, bound_by, bound_in, read_use
from dev.rattle_source import end_of_group

WIDTH = 140
# The words of a text that stand for a definition, or for a type of Rust by its name.
Links = dict[str, Name | str]


class Missing(Exception):
    """A name, a part of a definition, a clause or a type that isn't there."""


def find_definition(specs: Specs, word: str) -> Definition:
    """Returns the definition that CRATE.FILE.NAME stands for. It raises Missing."""
    try:
        return specs.definition(Name(*word.split(".")))
    except (KeyError, TypeError):
        raise Missing(f"no definition {word}") from None


def fields_of(definition: Definition) -> dict[str, list[str]]:
    """Returns the fields of a record, each with its lines."""
    fields: dict[str, list[str]] = {}
    now: list[str] = []
    for line in definition.clauses()[0].splitlines()[1:]:
        found = FIELD.match(line)
        if found and len(line) - len(line.lstrip()) == 2:
            now = fields.setdefault(found.group(1), [])
        now.append(line)
    return fields


def equations_of(definition: Definition) -> list[tuple[set[str], list[str]]]:
    """Returns the equations of a function, each with the words of its left side and its lines."""
    return [(set(WORD.findall(text.partition("=")[0])), text.splitlines()) for text in definition.clauses()[1:]]


def chosen_lines(definition: Definition, parts: list[str], with_head: bool) -> list[str]:
    """Returns the lines of a definition that are quoted: all; or of a record these fields, with its head where it is asked for; or of
    a function the equations of these constructors. It raises Missing."""
    if not parts:
        return [line for text in definition.clauses() for line in text.splitlines()]
    lines = definition.lines[:1] if with_head and definition.is_of("record") else []
    for part in parts:
        if definition.is_of("record"):
            found = [fields_of(definition).get(part, [])]
        else:
            found = [text for words, text in equations_of(definition) if part in words]
        if not any(found):
            raise Missing(f"no {part} in {definition.name.name}")
        lines += [line for text in found for line in text]
    return lines


def left_out(definition: Definition, lines: list[str]) -> str:
    """Returns a sentence on how many equations of a function are not quoted, or nothing."""
    if definition.is_of("record") or definition.lines[0] in lines:
        return ""
    all_of_it = [text for _, text in equations_of(definition)]
    return f"{sum(text[0] in lines for text in all_of_it)} of its {len(all_of_it)} equations. "


def place_of_type(top: Path, kind: str) -> str:
    """Returns the link to a type of Rust, which is named CRATE.specs.declared.MODULE.TYPE. It raises Missing."""
    crate, name = kind.split(".")[0], kind.split(".")[-1]
    declared = re.compile(rf"pub (?:enum|struct) {name}\b")
    for path in sorted((top / "crates" / crate / "src").rglob("*.rt")):
        for number, line in enumerate(path.read_text(encoding="utf-8").splitlines(), 1):
            if declared.search(line):
                return f"../{path.relative_to(top)}#L{number}"
    raise Missing(f"no type {kind}")


def place_of(specs: Specs, one: Name | str) -> str:
    """Returns the link to a definition's line, or to a type of Rust. It raises Missing."""
    if isinstance(one, Name):
        return f"../crates/{one.crate}/specs/{one.file}.antt#L{specs.definition(one).first}"
    return place_of_type(specs.top, one)


def link_to(specs: Specs, word: str, one: Name | str) -> str:
    """Returns a link to a definition or to a type of Rust, from a word that stands for it or for a constructor of it."""
    return f"[`{word}`]({place_of(specs, one)})"


def names_in(specs: Specs, file: File, own: Name, lines: list[str], bound: set[str]) -> Links:
    """Returns the words of lines that stand for a definition or a type of Rust, as they come, each with what it stands for. What is
    bound there stands for none."""
    found: Links = {}
    for word in WORD.findall("\n".join(lines)):
        head = word.partition(".")[0]
        if head not in bound:
            seen = Definition(own, 0)
            specs.look_up_word(file, seen, word)
            for one in (seen.uses | seen.types) - {own}:
                found[head if head in file.imports or head in file.definitions else word] = one
    return found


def names_of_lines(specs: Specs, definition: Definition, lines: list[str]) -> Links:
    """Returns what quoted lines of a definition name."""
    file = specs.files[definition.name.crate, definition.name.file]
    found: Links = {}
    for clause in definition.clauses():
        own = [line for line in clause.splitlines() if line in lines]
        found |= names_in(specs, file, definition.name, own, bound_in(definition, clause))
    return found


def clause_lines(top: Path, path: str, function: str, clause: str) -> list[str]:
    """Returns the lines of a function's clause, from the file at a path below crates/, without their indent. It raises Missing."""
    try:
        text = (top / "crates" / path).read_text(encoding="utf-8")
        start = text.index(f"ensures {clause} {{", text.index(f"fn {function}"))
    except (OSError, ValueError):
        raise Missing(f"no clause {clause} of {function} in {path}") from None
    end = end_of_group(text.replace("->", "  "), text.index("{", start))
    indent = start - text.rindex("\n", 0, start) - 1
    return textwrap.dedent(" " * indent + text[start:end]).splitlines()


def names_of_clause(specs: Specs, path: str, lines: list[str]) -> Links:
    """Returns what a quoted clause names, by the ghost imports of its file."""
    file = File()
    for line in (specs.top / "crates" / path).read_text(encoding="utf-8").splitlines():
        if line.startswith("ghost use "):
            read_use(file, line.removeprefix("ghost ").rstrip(";"))
    return names_in(specs, file, Name("", "", ""), lines, bound_by("\n".join(lines)))


def fenced(lines: list[str], links: list[str], note: str = "") -> list[str]:
    """Returns the quoted lines as a block, and after it a note and the links to the names in it."""
    after = note + (f"Names: {', '.join(links)}." if links else "")
    return ["```", *lines, "```", *(["", *wrapped(after)] if after else [])]


def wrapped(text: str, indent: str = "") -> list[str]:
    """Returns a text in lines of at most WIDTH characters, where no link is longer. All but the first are indented."""
    return textwrap.wrap(text, WIDTH, subsequent_indent=indent, break_long_words=False, break_on_hyphens=False)
