"""Reads the definitions of specs/: which there are, where each stands, and which others it names.

A definition is a text that starts at the beginning of a line with its declaration (`pub`, `abbrev`, `record`, `data` ..) and goes
on up to the next declaration. Names are looked up by the imports of their file. Rust's own types (`specs.declared`) and the names of
the toolchain's library are distinguished from definitions of this repository. A name that a clause binds, as a parameter, a field or a
variable, stands for no definition there. What a tactic or a field's projection names isn't seen.
"""

import re
from dataclasses import dataclass, field
from pathlib import Path

DECLARATION = re.compile(r"^((?:pub|abbrev|unfoldable|opaque|record|data|type)\s+)+(\S+)")
PLAIN = re.compile(r"^(\S+)\s*:\s")
USE = re.compile(r"^(pub )?use (Rattle|mathlib|lib)\.(\S+?)(?:\.\{(.*)\})?(?: as (\S+))?$")
# The parts of a text that may be names: what stands between blanks and brackets.
WORD = re.compile(r"[^\s(){},;\[\]λ→]+")
FIELD = re.compile(r"\s+(?:pub )?(\S+)\s*:")
# What binds names: those before a colon in brackets, those of a function, that of a `let`, and the left side of an equation.
BOUND = re.compile(r"[({]((?:[^\s(){}:]+ )+): |λ ([^.]*)\. |\blet (\S+) =")
LEFT = re.compile(r"\S+ ([^:=\n]*?) =(?: |$)", re.MULTILINE)


@dataclass(frozen=True, order=True)
class Name:
    """A definition: its crate, its file in the crate's specs/ without the ending, and its name there."""

    crate: str
    file: str
    name: str


@dataclass
class Definition:
    """A definition's lines, comments before it among them, and the names that they use."""

    name: Name
    first: int
    lines: list[str] = field(default_factory=list)
    comment: list[str] = field(default_factory=list)
    uses: set[Name] = field(default_factory=set)
    types: set[str] = field(default_factory=set)

    def is_of(self, kind: str) -> bool:
        """Says whether it is a `record` or a `data`."""
        return kind in self.lines[0].split()[:2]

    def clauses(self) -> list[str]:
        """Returns its declaration and its equations, each a text, without comments."""
        found: list[str] = []
        for line in self.lines:
            if line.lstrip().startswith("--"):
                continue
            if line[0].isspace() and found:
                found[-1] += "\n" + line
            else:
                found.append(line)
        return found


def bound_by(text: str) -> set[str]:
    """Returns the names that a text binds itself, on no left side."""
    return {name for found in BOUND.findall(text) for part in found for name in part.split()}


def bound_in(definition: Definition, clause: str) -> set[str]:
    """Returns the names that a clause binds. A name on the left side of an equation that begins with a capital is a constructor."""
    bound = bound_by(clause)
    if definition.is_of("record"):
        bound.update(found.group(1) for line in clause.splitlines()[1:] if (found := FIELD.match(line)))
    elif not definition.is_of("data") and (found := LEFT.match(clause)):
        bound.update(word for word in WORD.findall(found.group(1)) if not word[0].isupper())
    return bound


@dataclass
class File:
    """A file of specs/: what it imports by plain names and by names of modules, its definitions, and which constructor is of which."""

    imports: dict[str, tuple[str, str]] = field(default_factory=dict)
    modules: dict[str, str] = field(default_factory=dict)
    passed_on: list[str] = field(default_factory=list)
    definitions: dict[str, Definition] = field(default_factory=dict)
    makers: dict[str, str] = field(default_factory=dict)


def read_use(file: File, line: str) -> None:
    """Takes an import. A name under `as` stands for the name before it."""
    found = USE.match(line.strip())
    if not found:
        return
    public, root, module, names, alias = found.groups()
    if root != "Rattle":
        return
    if names is None:
        file.modules[alias or module.rpartition(".")[2]] = module
        if public:
            file.passed_on.append(module)
        return
    for one in names.split(","):
        name, _, other = one.strip().partition(" as ")
        file.imports[(other or name).strip()] = module, name.strip()


def read_file(path: Path, crate: str) -> File:
    """Reads one file of specs/."""
    file, now = File(), None
    comment: list[str] = []
    short = path.stem
    for number, line in enumerate(path.read_text(encoding="utf-8").splitlines(), 1):
        if line.startswith(("use ", "pub use ")):
            read_use(file, line)
            comment, now = [], None
        elif line.startswith("--"):
            comment.append(line)
            now = None
        elif not line.strip():
            comment = comment if now is None and comment and not comment[-1].startswith("-- ----") else []
            now = None
        else:
            found = DECLARATION.match(line) or (None if line[0].isspace() else PLAIN.match(line))
            if found and not line.startswith(("pub mod", "mod ")):
                name = found.group(2) if found.re is DECLARATION else found.group(1)
                now = Definition(Name(crate, short, name), number, comment=comment)
                file.definitions[name] = now
                comment = []
            elif not line[0].isspace():
                # A clause of a definition that was declared before.
                now = file.definitions.get(line.split()[0], now)
            if now:
                now.lines.append(line)
                made = FIELD.match(line) if now.is_of("data") else None
                if made:
                    file.makers.setdefault(made.group(1), now.name.name)
    return file


def rust_type(module: str, name: str) -> str:
    """Returns the Rust type that a module of `declared` stands for, or that a name there is; a variant stands for its type."""
    parts = module.removesuffix(".TheVariants").split(".")
    return ".".join(parts if parts[-1][0].isupper() else [*parts, name])


class Specs:
    """All definitions of a checkout."""

    def __init__(self, top: Path):
        self.top = top
        self.files = {
            (path.parent.parent.name, path.stem): read_file(path, path.parent.parent.name)
            for path in sorted(top.glob("crates/*/specs/*.antt"))
        }
        for file in self.files.values():
            for definition in file.definitions.values():
                self.look_up(file, definition)

    def find(self, module: str, name: str, depth: int = 4) -> Name | None:
        """Returns the definition that a name of a module stands for; modules are written as `crate.specs.File`."""
        parts = module.split(".")
        if len(parts) < 3 or parts[1] != "specs":
            return None
        file = self.files.get((parts[0], parts[2]))
        if file is None:
            return None
        if len(parts) > 3 and parts[3] in file.definitions:
            return file.definitions[parts[3]].name
        if name in file.definitions:
            return file.definitions[name].name
        if name in file.makers:
            return file.definitions[file.makers[name]].name
        if name in file.imports and depth:
            return self.find(*file.imports[name], depth - 1)
        return None

    def look_up(self, file: File, definition: Definition) -> None:
        """Notes which definitions and which of Rust's types the clauses of a definition name."""
        for clause in definition.clauses():
            bound = bound_in(definition, clause)
            for word in WORD.findall(clause):
                if word.partition(".")[0] not in bound:
                    self.look_up_word(file, definition, word)
        definition.uses.discard(definition.name)

    def look_up_word(self, file: File, definition: Definition, word: str) -> None:
        """Notes what a word of a definition names."""
        head, dot, rest = word.partition(".")
        if head in file.definitions:
            definition.uses.add(file.definitions[head].name)
            return
        if head in file.imports:
            module, name = file.imports[head]
        elif dot and head in file.modules:
            module, name = file.modules[head], rest.split(".")[0]
        else:
            if word in file.makers:
                definition.uses.add(file.definitions[file.makers[word]].name)
            return
        if ".declared." in f".{module}.":
            definition.types.add(rust_type(module, name))
        elif found := self.find(module, name):
            definition.uses.add(found)

    def definition(self, name: Name) -> Definition:
        """Returns the definition of a name."""
        return self.files[name.crate, name.file].definitions[name.name]

    def closure(self, start: list[Name]) -> dict[Name, Definition]:
        """Returns these definitions and all that they lead to, in the order in which they are met."""
        met: dict[Name, Definition] = {}
        waiting = list(start)
        while waiting:
            name = waiting.pop(0)
            if name not in met:
                met[name] = self.definition(name)
                waiting += sorted(met[name].uses)
        return met
