"""Numbers: as `kubectl` sends them, and those that no review may have.

`kubectl` writes `3.0` and `1e3` as `3` and `1000`. A number that then is no 64-bit int is not decided.
"""

from typing import Any, Iterator, Union

LEAST, MOST = -(2**63), 2**63 - 1
# keys that are written in a path as they are
PLAIN = set("abcdefghijklmnopqrstuvwxyzABCDEFGHIJKLMNOPQRSTUVWXYZ0123456789_-")


class NotJson(Exception):
    """A value that JSON does not have; the text says which, and where."""


def key_of(key: Any) -> str:
    """A key as JSON has it: YAML also has keys that are bools, numbers and null."""
    if isinstance(key, str):
        return key
    if isinstance(key, bool):
        return "true" if key else "false"
    if key is None:
        return "null"
    if isinstance(key, (int, float)):
        return str(number_of(key))
    raise NotJson(f"a key is a {type(key).__name__}")


def number_of(value: Union[int, float]) -> Union[int, float]:
    """A number as it is sent: one without a fraction becomes an int."""
    if isinstance(value, float) and value.is_integer() and LEAST <= value <= MOST:
        return int(value)
    return value


def below(path: str, key: str) -> str:
    """The path of a key of a map."""
    if key and set(key) <= PLAIN:
        return f"{path}.{key}" if path else key
    return f"{path}['{key}']"


def sent(value: Any) -> Any:
    """A value as it is sent, with keys that are texts."""
    holder = [value]
    waiting: list[tuple[Any, Any, str]] = [(holder, 0, "")]
    while waiting:
        parent, place, path = waiting.pop()
        one = parent[place]
        if isinstance(one, dict):
            parent[place] = made = {key_of(key): part for key, part in one.items()}
            waiting += [(made, key, below(path, key)) for key in made]
        elif isinstance(one, (list, tuple)):
            parent[place] = listed = list(one)
            waiting += [(listed, index, f"{path}[{index}]") for index in range(len(listed))]
        elif isinstance(one, float):
            parent[place] = number_of(one)
        elif not (one is None or isinstance(one, (str, bool, int))):
            raise NotJson(f"{path or 'the document'} is a {type(one).__name__}, which JSON does not have")
    return holder[0]


def is_decided(value: Union[int, float]) -> bool:
    """Whether a review may have this number."""
    return isinstance(value, int) and LEAST <= value <= MOST


def shown(value: Union[int, float]) -> str:
    """A number, cut if it is long."""
    try:
        text = str(value)
    except ValueError:
        return "an int of more than 4,300 digits"
    return text if len(text) <= 40 else f"{text[:40]}.."


def undecided_numbers(value: Any, path: str = "") -> Iterator[tuple[str, str]]:
    """The path and the text of each number that no review may have, in the order of the document."""
    waiting = [(value, path)]
    while waiting:
        one, where = waiting.pop()
        if isinstance(one, dict):
            waiting += [(part, below(where, key)) for key, part in reversed(one.items())]
        elif isinstance(one, list):
            waiting += [(part, f"{where}[{place}]") for place, part in reversed(list(enumerate(one)))]
        elif isinstance(one, (int, float)) and not isinstance(one, bool) and not is_decided(one):
            yield where, shown(one)
