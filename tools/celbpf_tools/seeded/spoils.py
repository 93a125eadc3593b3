"""Documents with one thing wrong."""

from typing import Any


def with_key(key: Any, value: Any) -> Any:
    """A change that sets a key of a document."""
    return lambda document: {**document, key: value}


def in_spec(key: Any, value: Any) -> Any:
    """A change that sets a key of the specification."""
    return lambda document: {**document, "spec": {**document["spec"], key: value}}


def in_request(key: Any, value: Any) -> Any:
    """A change that sets a key of the request."""
    return lambda document: {**document, "request": {**document["request"], key: value}}


def without(key: Any) -> Any:
    """A change that takes a key away."""
    return lambda document: {name: value for name, value in document.items() if name != key}


TWICE = [{"name": "v", "expression": "1"}, {"name": "v", "expression": "1"}]
POLICIES = [
    with_key("kind", "Policy"), with_key("apiVersion", None), without("kind"), without("spec"),
    with_key("status", {}), with_key("metadata", []), lambda document: [document],
    in_spec("failurePolicy", "fail"), in_spec("failurePolicy", None), in_spec("matchConstraints", []),
    in_spec("variables", TWICE), in_spec("variables", [{"name": "in", "expression": "1"}]),
    in_spec("matchConditions", [{"name": "", "expression": "true"}]), in_spec("matchConditions", TWICE),
    in_spec("validations", []), in_spec("validations", {}),
    in_spec("validations", [{"expression": "true"}] * 65),
    in_spec("validations", [{"expression": "true", "message": "a\nb"}]),
    in_spec("validations", [{"expression": "true", "reason": ""}]),
    in_spec("validations", [{"expression": "true", "messageExpression": 1}]),
    in_spec("validations", [{"message": "a"}]), in_spec("variables", [{"name": "v"}]),
]
REVIEWS = [
    with_key("kind", "Review"), with_key("apiVersion", "v1"), without("request"), with_key("request", []),
    in_request("uid", 1), in_request("uid", None), lambda document: None,
]


def spoiled(numbers: Any, spoils: list[Any], document: dict[str, Any]) -> dict[str, Any]:
    """A document that now and then has one thing wrong."""
    return numbers.pick(spoils)(document) if numbers.one_in(50) else document


def cut(numbers: Any, written: bytes) -> bytes:
    """A document's bytes, of which now and then the last is missing."""
    return written[:-1] if numbers.one_in(200) else written
