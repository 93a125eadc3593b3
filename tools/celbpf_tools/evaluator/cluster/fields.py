"""Fields of JSON objects. A field that is null is absent."""

from typing import Any, Optional

from ..refused import Refused


def demand(condition: Any, text: str) -> None:
    """Refuses if the condition is false."""
    if not condition:
        raise Refused(text)


def field(value: Any, *path: str) -> Any:
    """The value at a path of keys, or None if a step is missing or null."""
    for key in path:
        if not isinstance(value, dict):
            return None
        value = value.get(key)
    return value


def text(value: Any, key: str, refusal: str, default: Optional[str] = None) -> str:
    """A text that may be absent if it has a default."""
    found = field(value, key)
    if found is None and default is not None:
        return default
    demand(isinstance(found, str), refusal)
    return found


def items(value: Any, key: str, refusal: str, kind: type) -> list[Any]:
    """A list of this kind of items, empty if absent."""
    found = field(value, key)
    if found is None:
        return []
    demand(isinstance(found, list) and all(isinstance(one, kind) for one in found), refusal)
    return found


def texts(value: Any, key: str, refusal: str) -> list[Any]:
    """A list of texts, empty if absent."""
    return items(value, key, refusal, str)


def objects(value: Any, key: str, refusal: str) -> list[Any]:
    """A list of objects, empty if absent."""
    return items(value, key, refusal, dict)


def text_map(value: Any, refusal: str) -> dict[str, Any]:
    """A map of texts, empty if absent."""
    if value is None:
        return {}
    demand(isinstance(value, dict) and all(isinstance(one, str) for one in value.values()), refusal)
    return value


def only(value: Any, keys: tuple[Any, ...], refusal: str) -> None:
    """An object with no other keys than these."""
    demand(isinstance(value, dict) and value.keys() <= set(keys), refusal)


def in_name_order(name: str) -> bytes:
    """Names are ordered by their bytes in UTF-8."""
    return name.encode()
