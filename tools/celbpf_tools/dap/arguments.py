"""The arguments of a request, with what is wrong of them as one line."""

from typing import Any, Optional


class BadRequest(Exception):
    """A request that cannot be done; the text says why."""


class Arguments:
    """The arguments of a request; a key that is missing or of another type is a `BadRequest`."""

    def __init__(self, found: Any):
        if found is not None and not isinstance(found, dict):
            raise BadRequest("arguments: not an object")
        self.found: dict[str, Any] = found or {}

    def optional(self, key: str, kind: type, named: str) -> Any:
        """The value of a key, or `None` if it is missing or null."""
        value = self.found.get(key)
        if value is not None and (not isinstance(value, kind) or (kind is int and isinstance(value, bool))):
            raise BadRequest(f"{key}: not {named}")
        return value

    def text(self, key: str) -> Optional[str]:
        """A text, or `None`."""
        return self.optional(key, str, "a text")

    def needed_text(self, key: str) -> str:
        """A text that has to be there."""
        value = self.text(key)
        if value is None:
            raise BadRequest(f"{key}: missing")
        return value

    def number(self, key: str, default: Optional[int] = None) -> int:
        """A whole number; it has to be there if there is no default."""
        value = self.optional(key, int, "a whole number")
        if value is None and default is None:
            raise BadRequest(f"{key}: missing")
        return default if value is None else value

    def truth(self, key: str, default: bool) -> bool:
        """True or false."""
        value = self.optional(key, bool, "true or false")
        return default if value is None else value

    def part(self, key: str) -> "Arguments":
        """An object; an empty one if it is missing."""
        return Arguments(self.optional(key, dict, "an object"))

    def parts(self, key: str) -> list["Arguments"]:
        """The objects of a list; none if it is missing."""
        return [Arguments(one) for one in self.optional(key, list, "a list") or []]

    def texts(self, key: str) -> list[str]:
        """The texts of a list; none if it is missing."""
        found = self.optional(key, list, "a list") or []
        if not all(isinstance(one, str) for one in found):
            raise BadRequest(f"{key}: not a list of texts")
        return found
