"""Compares docs/STANDARD_ERROR.md with the texts of crates/standard_error and of service_links: each sentence of the page stands in the
source. Each text of the source is looked for on the page, which has one of each kind, and in checks/messages.sh, which has the program
say it. The ranges of a station's keys are compared with those of docs/FORMATS.md. It runs nothing.

    python3 -m checks.pages.texts

Exit status: 0 where they agree, 1 where they don't, 2 for an argument; what differs is said on standard error.
"""

import argparse
import re
import sys

from lab.program import TOP

SOURCE = TOP / "crates/standard_error/src"
# What stands for something else in the page's sentences.
PLACES = re.compile(r"\b(?:WHAT|FILE|REASON|FAULT|HINT|LINE|LIMIT|NAME|ONE|OTHER|WORD|COMMAND|KEY|RANGE|COUNT|MOST|CONDITION|TEXT|WHY|PORT)\b|--[a-z]+ wants\b")
# Texts that no run can reach: each key has a range, and each array a greatest count.
NEVER = {"another value", "fewer"}
LITERAL = re.compile(r'"((?:[^"\\]|\\.)*)"', re.DOTALL)
RANGE = re.compile(r'Range \{\s*table: "(\w*)",\s*name: "(\w+)",\s*wants: "((?:[^"\\]|\\.)*)"', re.DOTALL)


def plain(text: str) -> str:
    """The text with one space in place of each run of blanks, and without what a literal or a sentence has at its ends."""
    return " ".join(text.replace("\\n", " ").replace('\\"', '"').split()).removeprefix("radio_ntpd:").strip(" :(),`-")


def literals(name: str) -> list[str]:
    """The literals of a source file, cut where a value is put in."""
    text = "\n".join(line for line in (SOURCE / name).read_text(encoding="utf-8").splitlines() if not line.lstrip().startswith("//"))
    return [plain(piece) for found in LITERAL.findall(text) for piece in re.split(r"\{[^}]*\}", found)]


def constants() -> list[str]:
    """The sentences of texts.rt: its constants, but for the help, the command lines, the version, and the tables of keys."""
    text = (SOURCE / "texts.rt").read_text(encoding="utf-8")
    found = re.findall(r'pub const (\w+): &str =\s*"((?:[^"\\]|\\.)*)";', text, re.DOTALL)
    return [plain(value) for name, value in found if name not in ("HELP", "COMMAND_LINES", "VERSION")]


def sentences(page: str) -> list[str]:
    """The pieces of the sentences in the page's tables, cut at what stands for something else."""
    found = []
    for line in page.splitlines():
        if line.startswith("|"):
            for quoted in re.findall(r"`([^`]*)`", line):
                if " " in quoted and not re.match(r"(unknown|missing|range|many) KEY", quoted):
                    found += [plain(piece) for piece in PLACES.split(quoted)]
    return [piece for piece in found if piece]


def ranges(formats: str) -> list[str]:
    """The keys whose numbers differ from those of the table of docs/FORMATS.md."""
    rows = {key: rest for key, rest in re.findall(r"^\| `([\w.]+)` \| (.*)$", formats, re.MULTILINE)}
    wrong = []
    for table, name, wants in RANGE.findall((SOURCE / "texts.rt").read_text(encoding="utf-8")):
        key = f"{table}.I.{name}" if table else name
        if key in rows:
            numbers = re.findall(r"\b\d+\b", re.sub(r'\\"[^"]*\\"', "", wants))
            if not set(numbers) <= set(re.findall(r"\b\d+\b", rows[key])):
                wrong.append(f"{key} wants '{wants}', and docs/FORMATS.md has '{rows[key]}'")
    return wrong


def main() -> int:
    argparse.ArgumentParser(description="Compares docs/STANDARD_ERROR.md with the texts of crates/standard_error.").parse_args()
    page = (TOP / "docs/STANDARD_ERROR.md").read_text(encoding="utf-8")
    held = [*literals("../../service_links/src/handed.rt"), *literals("../../service_links/src/outside.rt")]
    spoken = [*literals("fault.rt"), *literals("message.rt"), *literals("names.rt"), *literals("beginning.rt"), *constants(), *held]
    said = "\n".join(spoken)
    read = plain(page + (TOP / "checks/messages.sh").read_text(encoding="utf-8"))
    wrong = [f"no text of the source has '{piece}'" for piece in sentences(page) if piece not in said]
    wrong += [f"neither docs/STANDARD_ERROR.md nor checks/messages.sh has '{text}'" for text in spoken if " " in text and text not in NEVER and text not in read]
    wrong += ranges((TOP / "docs/FORMATS.md").read_text(encoding="utf-8"))
    for sentence in wrong:
        print(f"texts: {sentence}", file=sys.stderr)
    return 1 if wrong else 0


if __name__ == "__main__":
    sys.exit(main())
