"""The reviews of example policies with parts that are made large."""

import json
from dataclasses import replace
from typing import Any, Iterator

from celbpf_tools.seeded.examples import examples

from .shapes import MOST, REST, Shape, line_of

ROOTS = ("object", "oldObject")
# the places of a review that a shape is put at, at most
PLACES = 4


def places(value: Any, kind: type, path: tuple[Any, ...] = ()) -> Iterator[tuple[Any, ...]]:
    """The paths of the values of a kind in a value."""
    if isinstance(value, kind):
        yield path
    inner = value.items() if isinstance(value, dict) else enumerate(value) if isinstance(value, list) else ()
    for key, item in inner:
        yield from places(item, kind, (*path, key))


def at(value: Any, path: tuple[Any, ...]) -> Any:
    for key in path:
        value = value[key]
    return value


def put(value: Any, path: tuple[Any, ...], part: Any) -> Any:
    """A value with another part at a path; what is beside the path is shared."""
    if not path:
        return part
    key, *rest = path
    if isinstance(value, list):
        return [put(item, tuple(rest), part) if place == key else item for place, item in enumerate(value)]
    return {**value, key: put(value[key], tuple(rest), part)}


def has(value: Any, path: tuple[Any, ...], kind: type) -> bool:
    try:
        return isinstance(at(value, path), kind)
    except (KeyError, IndexError, TypeError):
        return False


def chosen(paths: list[Any]) -> list[Any]:
    """At most `PLACES` of these, from the first to the last."""
    step = max(1, -(-len(paths) // PLACES))
    return paths[::step]


def with_part(review: dict[str, Any], path: tuple[Any, ...], shape: Shape, most: int) -> bytes:
    """A review with a part at a path of each of its objects, as a line of at most so many bytes."""
    request = review["request"]
    roots = [name for name in ROOTS if has(request.get(name), path, shape.kind)]
    room = (most - REST - len(line_of(review))) // len(roots)
    while True:
        made = {name: put(request[name], path, shape.part(at(request[name], path), room)) for name in roots}
        line = line_of({**review, "request": {**request, **made}})
        if len(line) <= most:
            return line
        room = room * 3 // 4


def lines(review: dict[str, Any], shape: Shape, most: int = MOST) -> Iterator[bytes]:
    """The review with the shape at some places of its objects."""
    request = review["request"]
    found = {path: None for name in ROOTS if request.get(name) for path in places(request[name], shape.kind)}
    for path in chosen(list(found)):
        yield with_part(review, path, shape, most)


def cases() -> Iterator[tuple[Any, ...]]:
    """For each example policy its name, and the case whose review is the longest, with the review."""
    longest: dict[str, Any] = {}
    for name, case, _ in examples():
        try:
            review = json.loads(case.review)
        except ValueError:
            continue
        policy = name.split("/")[0]
        if isinstance(review, dict) and isinstance(review.get("request"), dict):
            if policy not in longest or len(case.review) > len(longest[policy][0].review):
                longest[policy] = replace(case), review
    yield from ((name, *found) for name, found in longest.items())
