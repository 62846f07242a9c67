"""The text of a station, as TOML has it."""

import json


def _pairs(values: dict) -> list[str]:
    """A line for each key. A value in one line is TOML's as JSON's, but for `=` and for DEL."""
    lines = [f"{json.dumps(key, ensure_ascii=False)} = "
             + json.dumps(one, ensure_ascii=False, separators=(", ", " = "))
             for key, one in values.items()]
    return [line.replace("\x7f", "\\u007f") for line in lines]


def text_of(values: dict) -> str:
    """The TOML of a station that the program takes, and so without floats and dates."""
    tables = {key: rows for key, rows in values.items() if isinstance(rows, list) and rows
              and all(isinstance(row, dict) for row in rows)}
    lines = _pairs({key: one for key, one in values.items() if key not in tables})
    for key, rows in tables.items():
        for row in rows:
            lines += ["", f"[[{json.dumps(key)}]]", *_pairs(row)]
    return "\n".join(lines) + "\n"
