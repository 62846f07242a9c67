"""Reads crates.txt: which crates the program stands on, and how large they are."""

from pathlib import Path

PROGRAM = "radio_ntpd"
SOURCES = ("src", "specs", "proofs")


def read_crates(top: Path) -> dict[str, list[str]]:
    """Returns the crates that the program stands on, itself last, each with those of them that it stands on."""
    below = {}
    for line in (top / "crates.txt").read_text(encoding="utf-8").splitlines():
        name, colon, libraries = line.split("#")[0].partition(":")
        if colon:
            below[name.strip()] = libraries.split()
    wanted: dict[str, list[str]] = {}

    def add(name: str) -> None:
        if name in below and name not in wanted:
            for library in below[name]:
                add(library)
            wanted[name] = [library for library in below[name] if library in below]

    add(PROGRAM)
    return wanted


def count_lines(crate: Path) -> int:
    """Returns the lines of a crate's sources, definitions and proofs, which its time goes by."""
    files = (file for part in SOURCES for file in (crate / part).rglob("*") if file.suffix in (".rt", ".antt"))
    return 1 + sum(file.read_bytes().count(b"\n") for file in files)
