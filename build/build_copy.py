"""The copy of a checkout in which its program is proved and built, and where it lies."""

import hashlib
import os
import re
import shutil
from pathlib import Path

# What a crate's folder has that the program doesn't need: what was built, and the wrong bodies that the gate tries.
LEFT_OUT = ("out", "must-fail")
# A module of tests, as a crate's root file declares it.
TEST_MODULE = re.compile(r"#\[cfg\(test\)\]\nmod (\w+);\n")


def cache_of(top: Path) -> Path:
    """Returns the folder for a checkout's copy and log. Raises `OSError` where this user can have none."""
    try:
        home = Path(os.environ.get("XDG_CACHE_HOME") or Path.home() / ".cache")
    except RuntimeError as error:
        raise FileNotFoundError(2, "this user has none: set XDG_CACHE_HOME", "the home folder") from error
    cache = home / "radio_ntpd" / hashlib.sha256(bytes(top)).hexdigest()[:16]
    try:
        cache.mkdir(parents=True, exist_ok=True)
    except OSError as error:
        raise OSError(error.errno, f"{error.strerror}; set XDG_CACHE_HOME to a folder of yours", str(cache)) from error
    return cache


def keeps_proofs(rt: str) -> bool:
    """Returns whether the toolchain keeps for this user what it has proved. It does so in a folder beside its own, for its owner alone."""
    kit = Path(rt).resolve().parent.parent
    kept = kit.parent / "rattle-kept"
    try:
        return kept.is_dir() and kept.stat().st_uid == os.geteuid() if kept.exists() else os.access(kit.parent, os.W_OK)
    except OSError:
        return False


def leave_out_tests(crate: Path) -> None:
    """Takes the modules of tests out of a copied library, with their proofs. Two lines of comment stand in place of each: all lines keep
    their numbers, so the library comes out the same, byte for byte, and the gate need not prove again what stands on it. Raises `OSError`."""
    root = crate / "src" / "lib.rt"
    if not root.is_file():
        return
    text = root.read_text(encoding="utf-8")
    for name in TEST_MODULE.findall(text):
        for part, suffix in (("src", ".rt"), ("proofs", ".antt")):
            (crate / part / f"{name}{suffix}").unlink(missing_ok=True)
            shutil.rmtree(crate / part / name, ignore_errors=True)
    root.write_text(TEST_MODULE.sub("// The module of tests that stands here in the checkout\\n// is not part of the program.\\n", text), encoding="utf-8")


def make_copy(top: Path, copy: Path, crates: list[str]) -> None:
    """Copies these crates of a checkout, in place of what was copied before, without their tests. Raises `OSError`."""
    shutil.rmtree(copy, ignore_errors=True)
    for name in crates:
        shutil.copytree(top / "crates" / name, copy / "crates" / name, ignore=shutil.ignore_patterns(*LEFT_OUT))
        leave_out_tests(copy / "crates" / name)
    shutil.copyfile(top / "HANDLES", copy / "HANDLES")
    lines = (top / "crates.txt").read_text(encoding="utf-8").splitlines(keepends=True)
    (copy / "crates.txt").write_text("".join(line for line in lines if line.partition(":")[0].strip() in crates), encoding="utf-8")


def take_program(copy: Path, program: Path, since: float) -> None:
    """Puts the program that was built in the copy in its place, whole or not at all. It is as old as the copy, made at `since` in seconds of
    the host's clock: a source that was changed while the program was proved is newer. Raises `OSError`."""
    program.parent.mkdir(parents=True, exist_ok=True)
    new = program.with_name(f"{program.name}.new")
    shutil.copy2(copy / "crates" / program.name / "out" / program.name, new)
    os.utime(new, (since, since))
    new.replace(program)
