"""What there is to read of a definition: all that it leads to but what is taken on its tests, and how much that is."""

from dataclasses import dataclass, field

from dev.antt_names import Definition, Name, Specs


@dataclass
class Size:
    """How much there is of definitions: how many, their lines with the comments before them, and their files."""

    definitions: int = 0
    lines: int = 0
    files: int = 0

    def __str__(self) -> str:
        return f"{self.definitions} definitions, {self.lines} lines in {self.files} files"


def size_of(definitions: list[Definition]) -> Size:
    """Measures definitions."""
    return Size(
        len(definitions),
        sum(len(one.comment) + len(one.lines) for one in definitions),
        len({(one.name.crate, one.name.file) for one in definitions}),
    )


@dataclass
class ReadingList:
    """All that a definition leads to, and of that what is to be read: what is taken on its tests is not, nor what that alone leads to."""

    specs: Specs
    start: Name
    taken: list[Name]
    to_read: dict[Name, Definition] = field(default_factory=dict)
    whole: dict[Name, Definition] = field(default_factory=dict)

    def __post_init__(self) -> None:
        self.whole = self.specs.closure([self.start])
        waiting = [self.start]
        while waiting:
            name = waiting.pop(0)
            if name not in self.to_read and name not in self.taken:
                self.to_read[name] = self.whole[name]
                waiting += sorted(self.whole[name].uses)

    def of_file(self, crate: str, file: str) -> list[Definition]:
        """Returns what is to be read of a file, in its order."""
        own = [one for name, one in self.to_read.items() if (name.crate, name.file) == (crate, file)]
        return sorted(own, key=lambda one: one.first)

    def led_to(self, names: list[Name], less: dict[Name, Definition]) -> list[Definition]:
        """Returns what these names lead to, and they themselves, less some definitions."""
        return [one for name, one in self.specs.closure(names).items() if name not in less]

    def sizes(self) -> dict[str, Size]:
        """Measures what is to be read, what is taken on its tests, and both."""
        return {
            "to read": size_of(list(self.to_read.values())),
            "taken on their tests": size_of([one for name, one in self.whole.items() if name not in self.to_read]),
            "both": size_of(list(self.whole.values())),
        }
