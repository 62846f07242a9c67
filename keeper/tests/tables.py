"""The tables of docs/KEEPER.md that say what the code says: `python3 -B -m keeper.tests.tables`
prints them."""

import dataclasses
import typing
from collections.abc import Iterator

from keeper.reporter import metrics
from keeper.reporter.alarms import EVENTS
from keeper.reporter.state import State


def alarms() -> list[str]:
    """A row for each event that raises an alarm."""
    return [f"| `{one}` | {about} |" for one, about in EVENTS.items()]


def families() -> list[str]:
    """A row for each family of metrics."""
    return [f"| `{name}` | {about} |" for one in metrics.FAMILIES.values() for name, about, _ in one]


def fields() -> list[str]:
    """A row for each part of `state.json`, with its fields."""
    return [f"| {f'`{path}`' if path else 'top'} | {'; '.join(said)} |"
            for path, said in _parts("", State)]


def _parts(path: str, kind: typing.Any) -> Iterator[tuple[str, list[str]]]:
    hints = typing.get_type_hints(kind)
    yield path, [f"`{one.name}` {one.metadata['about']}" for one in dataclasses.fields(kind)]
    for name, hint in hints.items():
        is_list = typing.get_origin(hint) is list
        for inner in (*typing.get_args(hint), hint):
            if dataclasses.is_dataclass(inner):
                yield from _parts(f"{path}.{name}".lstrip(".") + "[]" * is_list, inner)


if __name__ == "__main__":
    print("\n".join([*alarms(), "", *families(), "", *fields()]))
