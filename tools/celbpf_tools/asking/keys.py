"""The key of a policy's document that is refused, as the program answers for each key alone."""

from typing import Any, Optional

from .policies import whole

TRUE = {"expression": "true"}
# what an item of each list has at the least
LEAST = {
    "variables": {"name": "item", "expression": "true"},
    "matchConditions": {"name": "item", "expression": "true"},
    "validations": TRUE,
}


class Keys:
    """The program, and the number of the refusal that is looked for."""

    def __init__(self, program: Any, number: str):
        self.program = program
        self.number = number

    def refuses(self, spec: dict[str, Any], **beside: Any) -> bool:
        """Whether a policy with this specification and these other keys is refused so."""
        return self.program.refusal({**whole(spec), **beside}).split()[:1] == [self.number]

    def of_policy(self, policy: dict[str, Any]) -> Optional[tuple[Any, ...]]:
        """The path of the first key that is refused, and what it has; `None` where it is none alone."""
        for key, value in policy.items():
            if key not in ("apiVersion", "kind", "spec") and self.refuses({"validations": [TRUE]}, **{key: value}):
                return key, value
        spec = policy.get("spec")
        if not isinstance(spec, dict):
            return ("spec", spec) if "spec" in policy else ("the document", "spec is missing")
        for key, value in spec.items():
            if self.refuses({"validations": [TRUE], key: value}):
                return self.of_list(key, value) if key in LEAST and isinstance(value, list) else (f"spec.{key}", value)
        return None if "validations" in spec else ("spec", "validations is missing")

    def in_list(self, key: str, items: list[Any]) -> bool:
        """Whether a list of these items is refused."""
        return self.refuses({"validations": [TRUE], key: items})

    def of_list(self, key: str, items: list[Any]) -> tuple[Any, ...]:
        """The first item of a list that is refused, or the first with which the list is."""
        for place, item in enumerate(items):
            path = f"spec.{key}[{place}]"
            if self.in_list(key, [item]):
                return self.of_item(key, path, item)
            if self.in_list(key, items[: place + 1]):
                return path, f"item {place + 1} of {len(items)}" if self.number == "K5" else item
        return f"spec.{key}", items

    def of_item(self, key: Any, path: Any, item: Any) -> Any:
        """The first key of an item that is refused, or the one that is missing."""
        if not isinstance(item, dict):
            return path, item
        for inner, value in item.items():
            if self.in_list(key, [{**LEAST[key], inner: value}]):
                return f"{path}.{inner}", value
        missing = [inner for inner in LEAST[key] if inner not in item]
        return path, f"{missing[0]} is missing" if missing else item
