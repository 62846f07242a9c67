"""What a case met: rules, refusals and outcomes, by the names that listed.py has."""

_met: set[str] = set()


def met(name: str) -> None:
    """Notes that the case at hand met this."""
    _met.add(name)


def taken() -> set[str]:
    """What was met since this was last asked."""
    found = set(_met)
    _met.clear()
    return found
