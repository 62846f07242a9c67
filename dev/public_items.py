"""Reads which items of Rattle's sources begin with `pub`, what is said of each, and which of them another crate can name."""

import re
from collections.abc import Iterable, Iterator
from dataclasses import dataclass

from dev.rattle_source import File, end_of_group, hide

ITEM = re.compile(r"\s*pub (?:unsafe |const (?=fn|unsafe))*(?:fn|struct|enum|trait|const|static|type|union)\s+(\w+)")
USE = re.compile(r"(?m)^pub use ([^;]*);")
OPEN_MODULE = re.compile(r"(?m)^pub mod (\w+);")
IMPL = re.compile(r"(?m)^impl\b")
LAST_NAME = re.compile(r"(\w+)\s*(?=[,}]|$)")


@dataclass(frozen=True)
class Item:
    """An item: its line, its name, the type that it belongs to (empty where it does to none), and what begins the comment before it."""

    line: int
    name: str
    owner: str
    comment: str


def owners(bare: str) -> dict[int, str]:
    """Returns the type of each `impl` by the line that it begins in."""
    types = {}
    for found in IMPL.finditer(bare):
        start = end_of_group(bare, found.end()) if bare[found.end() : found.end() + 1] == "<" else found.end()
        head = bare[start : bare.find("{", start)].rpartition(" for ")[2]
        name = re.search(r"\w+", head)
        types[bare.count("\n", 0, found.start()) + 1] = name.group() if name else ""
    return types


def items(text: str) -> Iterator[Item]:
    """Gives each item that begins with `pub`, but for modules, imports and fields. Attributes may stand after its comment."""
    bare = hide(text)
    types, owner, comment, brackets = owners(bare), "", "", 0
    for number, (line, code) in enumerate(zip(text.splitlines(), bare.splitlines()), 1):
        owner = types.get(number, "" if code.startswith("}") else owner)
        said = re.match(r"\s*(///|#\[doc|//(?!!))", line)
        if said:
            comment = said.group(1)
        elif brackets or code.lstrip().startswith("#["):
            brackets += code.count("[") - code.count("]")
        else:
            found = ITEM.match(code)
            if found:
                yield Item(number, found.group(1), owner if code[0].isspace() else "", comment)
            comment = ""


def exported(files: Iterable[File]) -> list[tuple[File, Item, bool]]:
    """Returns the items of files, and whether another crate can name each: by open modules, or by a `pub use` of its crate's root.

    A method can be named where its type can. A program exports nothing."""
    files = list(files)
    opened = {(file.crate, (*file.module, name)) for file in files for name in OPEN_MODULE.findall(hide(file.text))}
    roots = [file for file in files if file.path.endswith("/src/lib.rt")]
    names = {(file.crate, name) for file in roots for use in USE.findall(hide(file.text)) for name in LAST_NAME.findall(use)}
    libraries = {file.crate for file in roots}

    def is_out(file: File, item: Item) -> bool:
        parts = file.module
        by_path = file.crate in libraries and all((file.crate, parts[:length]) in opened for length in range(1, len(parts) + 1))
        return by_path or (file.crate, item.owner or item.name) in names

    return [(file, item, is_out(file, item)) for file in files for item in items(file.text)]
