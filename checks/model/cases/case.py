"""A case: the files and arguments of one run, and what it is due."""

import contextlib
from typing import Callable, ContextManager, NamedTuple

from lab.model.commands import Ended

Files = dict[str, bytes]


class Case(NamedTuple):
    """A run of the program in a folder that has these files. `due` gives the text and the status that it must have,
    from the text that it wrote: the feeds of `serve` may be mingled in any way. `meant` names something that the case
    has to meet. `beside` is entered before the run, and gives more files.
    """

    name: str
    words: list[str]
    files: Files
    due: Callable[[str], Ended]
    meant: str | None = None
    beside: Callable[[], ContextManager[Files]] = lambda: contextlib.nullcontext({})
