#!/usr/bin/env python3
"""Changes a module at one place at a time, in a copy of the repository, and lists the changes that
no test of its package sees.

    checks/mutation.py keeper/reporter/health.py              # each change
    checks/mutation.py --most 60 --seed 2 keeper/status.py    # sixty of them, drawn by chance
    checks/mutation.py --seeds 30 keeper/supervisor/runs.py   # the simulation judges what is left

A change is a comparison at its border or turned round, a number one greater, `and` for `or`, a
condition negated, a sum for a difference, `min` for `max`, a call or an assignment to a field left
out, a value that isn't returned. The module's own test runs first, then those of whoever imports
it. A test that doesn't end within --limit seconds sees the change.

Exit status: 0 each was seen, 1 one was not, 2 invalid arguments, or a test fails without a change.
"""

import argparse
import ast
import contextlib
import copy
import os
import random
import re
import shutil
import signal
import subprocess
import sys
import tempfile
from collections.abc import Iterator
from dataclasses import dataclass
from pathlib import Path

TOP = Path(__file__).resolve().parent.parent
COPIED = ("checks", "docs", "examples", "feeders", "keeper", "lab", "packaging", "tools", "bench",
          "build", "radio_keeper", "README.md", "CHANGELOG.md", "CONTRIBUTING.md")
PYTHON = (sys.executable, "-B")
LIMIT = 120.0  # for a test file (s)
TURNED: dict[type[ast.cmpop], type[ast.cmpop]] = {
    ast.Lt: ast.LtE, ast.LtE: ast.Lt, ast.Gt: ast.GtE, ast.GtE: ast.Gt, ast.Eq: ast.NotEq,
    ast.NotEq: ast.Eq, ast.Is: ast.IsNot, ast.IsNot: ast.Is, ast.In: ast.NotIn, ast.NotIn: ast.In}
SWAPPED: dict[type[ast.operator], type[ast.operator]] = {
    ast.Add: ast.Sub, ast.Sub: ast.Add, ast.Mult: ast.Div, ast.Div: ast.Mult,
    ast.FloorDiv: ast.Mult, ast.Mod: ast.Mult}
OTHER = {"min": "max", "max": "min", "any": "all", "all": "any"}


@dataclass(frozen=True)
class Change:
    """At this line (from 1) `text` stands in place of bytes `start` to `end` of the module."""

    line: int
    start: int
    end: int
    before: str
    text: str

    def applied(self, source: bytes) -> bytes:
        return source[:self.start] + self.text.encode() + source[self.end:]


def changed(node: ast.AST) -> Iterator[ast.AST]:
    """What may stand in a node's place."""
    new: ast.AST = copy.deepcopy(node)
    if isinstance(new, ast.Compare) and type(new.ops[-1]) in TURNED:
        new.ops[-1] = TURNED[type(new.ops[-1])]()
        yield new
    elif isinstance(new, ast.Constant) and isinstance(new.value, bool):
        yield ast.Constant(not new.value)
    elif isinstance(new, ast.Constant) and isinstance(new.value, (int, float)):
        yield ast.Constant(new.value + 1 if isinstance(new.value, int) else new.value * 1.5)
    elif isinstance(new, ast.BoolOp):
        new.op = ast.And() if isinstance(new.op, ast.Or) else ast.Or()
        yield new
    elif isinstance(new, (ast.BinOp, ast.AugAssign)) and type(new.op) in SWAPPED:
        new.op = SWAPPED[type(new.op)]()
        yield new
    elif isinstance(new, ast.Call) and isinstance(new.func, ast.Name) and new.func.id in OTHER:
        new.func.id = OTHER[new.func.id]
        yield new
    elif isinstance(new, ast.UnaryOp) and isinstance(new.op, ast.Not):
        yield new.operand
    elif isinstance(new, ast.Expr) and isinstance(new.value, ast.Call):
        yield ast.Pass()
    elif isinstance(new, ast.Return) and not isinstance(new.value, (type(None), ast.Constant)):
        yield ast.Return(None)
    if isinstance(node, (ast.AugAssign, ast.Assign)):
        targets = node.targets if isinstance(node, ast.Assign) else [node.target]
        if all(isinstance(one, (ast.Attribute, ast.Subscript)) for one in targets):
            yield ast.Pass()


def changes(source: bytes) -> list[Change]:
    """All changes of a module, in the order of their places."""
    tree = ast.parse(source)
    begins = [0]
    for row in source.splitlines(keepends=True):
        begins.append(begins[-1] + len(row))
    inner = {id(one) for text in ast.walk(tree) if isinstance(text, ast.JoinedStr)
             for one in ast.walk(text)}  # before Python 3.12 those have no true places
    tests = {id(one.test) for one in ast.walk(tree) if isinstance(one, (ast.If, ast.IfExp))}
    found = set()
    for node in ast.walk(tree):
        if id(node) in inner or not isinstance(node, (ast.expr, ast.stmt)):
            continue
        start = begins[node.lineno - 1] + node.col_offset
        end = begins[(node.end_lineno or 1) - 1] + (node.end_col_offset or 0)
        before = source[start:end].decode()
        texts = [ast.unparse(one) for one in changed(node)]
        texts += [f"not ({before})"] if id(node) in tests else []
        found |= {Change(node.lineno, start, end, before, f"({one})" if isinstance(
            node, ast.expr) else one) for one in texts}
    return sorted(found, key=lambda one: (one.start, one.end, one.text))


def tests_of(top: Path, module: str) -> list[str]:
    """The test files of a module's package: its own, then those that import it, then those of the
    modules that do."""
    path = Path(module)
    found = sorted((top / path.parts[0]).rglob("*.py"))
    line = re.compile(rf"^(?:from|import)\b.*\b{path.stem}\b", re.MULTILINE)
    users = {f"test_{one.stem}": one for one in found if line.search(one.read_text())}
    tests = [one for one in found if one.stem.startswith("test_")]
    rows = ([one for one in tests if one.stem == f"test_{path.stem}"],
            [one for one in tests if one in users.values()],
            [one for one in tests if one.stem in users])
    return list(dict.fromkeys(str(one.relative_to(top)) for row in rows for one in row))


def passes(top: Path, words: list[str], limit: float, folder: str = ".") -> bool:
    """Whether a command ends with 0 in time. Nothing that it started stays."""
    child = subprocess.Popen(words, cwd=top / folder, stdin=subprocess.DEVNULL,
                             stdout=subprocess.DEVNULL, stderr=subprocess.DEVNULL,
                             start_new_session=True)
    try:
        return child.wait(limit) == 0
    except subprocess.TimeoutExpired:
        return False
    finally:
        with contextlib.suppress(ProcessLookupError):
            os.killpg(child.pid, signal.SIGKILL)
        child.wait()


def test(top: Path, file: str, limit: float) -> bool:
    """Whether a test file passes in a copy; one of a folder that is no package runs in there."""
    path, folder = Path(file), "."
    name = ".".join(path.with_suffix("").parts)
    if not (top / path.parent / "__init__.py").exists():
        folder, name = str(path.parent), path.stem
    return passes(top, [*PYTHON, "-m", "unittest", "--failfast", name], limit, folder)


def try_all(top: Path, module: str, asked: argparse.Namespace) -> int:
    """How many changes of a module nothing sees in the copy at `top`; -1 where a test fails as it
    is."""
    path, files, missed = top / module, tests_of(top, module), 0
    source = path.read_bytes()
    simulate = [*PYTHON, "checks/simulate.py", str(asked.seeds), "--span", "600"]
    failing = [one for one in files if not test(top, one, asked.limit)]
    if failing or not files:
        print(f"{module}: {', '.join(failing) or 'no test'}: fails without a change", flush=True)
        return -1
    all_ = changes(source)
    drawn = random.Random(asked.seed).sample(all_, min(asked.most or len(all_), len(all_)))
    for one in sorted(drawn, key=lambda one: one.start):
        path.write_bytes(one.applied(source))
        seen = next((file for file in files if not test(top, file, asked.limit)), None)
        if seen:
            files.insert(0, files.pop(files.index(seen)))  # it may see the next, too
        elif not asked.seeds or passes(top, simulate, asked.limit * 3):
            missed += 1
            print(f"{module}:{one.line}: {one.before!r} -> {one.text!r}", flush=True)
    path.write_bytes(source)
    print(f"{module}: {missed} of {len(drawn)} changes not seen ({len(all_)} there are)", flush=True)
    return missed


def main() -> int:
    words = argparse.ArgumentParser(description=__doc__,
                                    formatter_class=argparse.RawDescriptionHelpFormatter)
    words.add_argument("modules", nargs="+", metavar="MODULE")
    words.add_argument("--most", type=int, default=0, help="at most this many changes of each")
    words.add_argument("--seed", type=int, default=1, help="of the draw")
    words.add_argument("--seeds", type=int, default=0, help="of the simulation, 0 for none of it")
    words.add_argument("--limit", type=float, default=LIMIT, help="for a test file (s)")
    asked = words.parse_args()
    if wrong := [one for one in asked.modules if not (TOP / one).is_file()]:
        words.error(f"{wrong[0]}: there is no such module")
    with tempfile.TemporaryDirectory() as folder:
        for name in filter(lambda name: (TOP / name).exists(), COPIED):
            if (TOP / name).is_dir():
                shutil.copytree(TOP / name, Path(folder, name))
            else:
                shutil.copy2(TOP / name, Path(folder, name))
        found = [try_all(Path(folder), one, asked) for one in asked.modules]
    return 2 if min(found) < 0 else 1 if sum(found) else 0


if __name__ == "__main__":
    sys.exit(main())
