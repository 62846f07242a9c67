"""Whether the built program is of the sources beside it: by their times, and where a copy or
`touch` changed these by what the files have in them.
"""

import contextlib
import hashlib
import os
import tempfile
from collections.abc import Iterator
from pathlib import Path

PROGRAM = "crates/radio_ntpd/out/radio_ntpd"
MARK = "sources"  # the suffix of a file beside the program that says of what it was built


def sources_of(top: Path) -> Iterator[Path]:
    """The files that the program is built of, in order, without crates of tests."""
    yield top / "crates.txt"
    for file in sorted((top / "crates").rglob("*.rt")):
        folders = file.relative_to(top).parts
        if "out" not in folders and not any(folder.endswith("_tests") for folder in folders):
            yield file


def newer_source(top: Path) -> Path | None:
    """A source that is newer than the program, if there are one and the other. Raises `OSError`."""
    program = top / PROGRAM
    if not program.is_file():
        return None
    built = program.stat().st_mtime_ns
    return next((file for file in sources_of(top) if file.stat().st_mtime_ns > built), None)


def digest_of(top: Path) -> str:
    """The names and the contents of all sources, as SHA-256. Raises `OSError`."""
    whole = hashlib.sha256()
    for file in sources_of(top):
        text = file.read_bytes()
        whole.update(f"{file.relative_to(top)} {len(text)}\n".encode() + text)
    return whole.hexdigest()


def mark_of(sources: str, program: Path) -> str:
    """What is noted of a program: its sources' digest, and its own. Raises `OSError`."""
    return f"{sources} {hashlib.sha256(program.read_bytes()).hexdigest()}\n"


def note(sources: str, program: Path) -> None:
    """Notes of which sources a program was built, whole or not at all. Raises `OSError`."""
    mark = program.with_suffix(f".{MARK}")
    new = mark.with_suffix(".new")
    new.write_text(mark_of(sources, program), encoding="ascii")
    new.replace(mark)


def is_of_its_sources(top: Path) -> bool:
    """Whether the program was built of these sources, whatever the times of the files are."""
    program = top / PROGRAM
    try:
        noted = program.with_suffix(f".{MARK}").read_text(encoding="ascii", errors="replace")
        return noted == mark_of(digest_of(top), program)
    except OSError:
        return False


def was_put_since(top: Path, since: float) -> bool:
    """Whether the program was put in its place after a moment, in seconds of the host's clock."""
    with contextlib.suppress(OSError):
        return (top / PROGRAM).stat().st_ctime > since
    return False


def renew(top: Path) -> None:
    """Gives the program the time of now, where this user may, so that no start compares again."""
    with contextlib.suppress(OSError):
        os.utime(top / PROGRAM)


def try_place(top: Path) -> None:
    """Makes the program's folder and tries a file in it. Raises `OSError` where that fails."""
    folder = (top / PROGRAM).parent
    try:
        folder.mkdir(parents=True, exist_ok=True)
        with tempfile.TemporaryFile(dir=folder):
            pass
    except OSError as error:
        cure = "the built program goes there, so copy this folder to where you may write"
        raise OSError(error.errno, f"{error.strerror}; {cure}", str(folder)) from error
