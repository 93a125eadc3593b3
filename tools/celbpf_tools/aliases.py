"""Values that aliases of YAML make larger than their text."""

from typing import Any

# the most lists and maps that are inside one another
DEEPEST = 300
# the most values of a document, each counted as often as it is repeated by an alias
LARGEST = 5_000_000


class TooLarge(ValueError):
    """A value that has itself as a part, or that aliases make too large or too deep; the text says which."""


def parts_of(value: Any) -> list[Any]:
    """The lists and maps that are parts of a list or a map."""
    parts = value.values() if isinstance(value, dict) else value
    return [part for part in parts if isinstance(part, (dict, list))]


def refuse_large(value: Any) -> None:
    """Refuses a value that has itself as a part, or that aliases make too large or too deep."""
    # by the identity of a list or a map how many values it has, counted with repetitions, and how deep it is
    measures: dict[int, tuple[int, int]] = {}
    begun: set[int] = set()
    waiting = [value] if isinstance(value, (dict, list)) else []
    while waiting:
        one = waiting[-1]
        parts = parts_of(one)
        missing = [part for part in parts if id(part) not in measures]
        if not missing:
            inner = [measures[id(part)] for part in parts]
            measures[id(one)] = (1 + len(one) + sum(size for size, _ in inner), 1 + max((deep for _, deep in inner), default=0))
            waiting.pop()
            continue
        if id(one) in begun and any(id(part) in begun for part in missing):
            raise TooLarge("a value has itself as a part, by an alias")
        begun.add(id(one))
        waiting += missing
    size, deep = measures.get(id(value), (1, 0))
    if deep > DEEPEST:
        raise TooLarge("aliases nest it too deep")
    if size > LARGEST:
        raise TooLarge(f"aliases make it larger than {LARGEST:,} values")
