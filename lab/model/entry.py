"""An entry of a journal, as the model's parts hand it on."""

from typing import NamedTuple


class Entry(NamedTuple):
    """What one feed reported at one moment: the keyword, and the numbers after it.

    An address is a number too.
    """

    feed: int
    at: int
    word: str
    values: tuple[int, ...]

    def text(self) -> str:
        """Version 1 of the text, without its line feed."""
        values = [str(value) for value in self.values]
        if self.word == "sample":
            values[4] = f"{self.values[4]:08x}"
        return " ".join([str(self.feed), str(self.at), self.word, *values])
