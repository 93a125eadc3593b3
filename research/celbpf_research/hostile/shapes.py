"""The dozen shapes: loops whose calls read much, and documents that take long to read.

Each has a policy and an object of its own. Its part takes the place of values of one kind in the reviews of the example
policies.
"""

import json
from dataclasses import dataclass
from typing import Any, Callable

from . import loops

# the bytes of a review, at most: what an API server takes as a document
MOST = 3 * 1024 * 1024
# what the rest of a review takes
REST = 1_024
# lists in one another: a reader takes 127, of which a review has some
DEEP = 100
SIGNS = "abcdefghijklmnopqrstuvwxyzABCDEFGHIJKLMNOPQRSTUVWXYZ0123456789-_"
POLICY = {"apiVersion": "admissionregistration.k8s.io/v1", "kind": "ValidatingAdmissionPolicy"}
REVIEW = {"apiVersion": "admission.k8s.io/v1", "kind": "AdmissionReview"}


@dataclass(frozen=True)
class Shape:
    """A shape: the expression and the object for so many bytes, and what takes the place of a value of a kind."""

    name: str
    made: Callable[[int], tuple[Any, ...]]
    kind: type
    part: Callable[[Any, int], Any]
    # whether it is the limit of reads that ends its loop
    is_limited: bool = False

    def policy(self, room: int = MOST) -> dict[str, Any]:
        expression, _ = self.made(room - REST)
        return {**POLICY, "metadata": {"name": "shape"}, "spec": {"validations": [{"expression": expression}]}}

    def line(self, room: int = MOST) -> bytes:
        """A review of its object, as a line of at most so many bytes."""
        _, thing = self.made(room - REST)
        return line_of({**REVIEW, "request": {"uid": "u", "object": thing}})


def line_of(review: dict[str, Any]) -> bytes:
    return json.dumps(review, separators=(",", ":"), ensure_ascii=False).encode() + b"\n"


def looped(turn: Callable[[int], loops.Turn]) -> Callable[[int], tuple[Any, ...]]:
    """The loop of a turn, and its document."""

    def made(room: int) -> tuple[Any, ...]:
        found = turn(room - 2 * loops.SIDE)
        return found.loop, found.document()

    return made


# parts of reviews of examples, in place of a value


def repeated(unit: str) -> Callable[[str, int], str]:
    return lambda text, room: (unit or text or "a") * (room // max(1, len((unit or text or "a").encode())))


def begins_alike(text: str, room: int) -> str:
    return text + "q" * (room - loops.length(text))


def copies(item: Any, room: int) -> list[Any]:
    return [item] * max(1, room // (loops.length(item) + 1))


def own_items(items: list[Any], room: int) -> list[Any]:
    """A list as this one, with many items of the kind of its first, no two of them equal."""
    item = items[0] if items else ""
    return [changed(item, place) for place in range(max(1, room // (loops.length(item) + 8)))]


def changed(value: Any, place: int) -> Any:
    """A value with a number at the end of its texts, and added to its ints."""
    if isinstance(value, str):
        return f"{value}{place}"
    if isinstance(value, list):
        return [changed(item, place) for item in value]
    if isinstance(value, dict):
        return {key: changed(item, place) for key, item in value.items()}
    return value + place if type(value) is int else value


def first_value(entries: dict[str, Any]) -> Any:
    return next(iter(entries.values()), "")


def long_keys(entries: dict[str, Any], room: int) -> dict[str, Any]:
    value = first_value(entries)
    return dict.fromkeys((f"{'q' * 1_000}{place:06}" for place in range(room // (1_012 + loops.length(value)))), value)


def two_keys(entries: dict[str, Any], room: int) -> dict[str, Any]:
    return {**entries, **dict.fromkeys(("q" * (room // 2) + end for end in "ab"), first_value(entries))}


def short_keys(count: int) -> list[Any]:
    """So many keys of up to four signs, in an order that does not repeat."""
    places = (place * 9_999_991 % 64**4 for place in range(count))
    return ["".join(SIGNS[place // 64**power % 64] for power in range(4)) for place in places]


def many_keys(entries: dict[str, Any], room: int) -> dict[str, Any]:
    value = first_value(entries)
    return {**entries, **dict.fromkeys(short_keys(room // (8 + loops.length(value))), value)}


def tower(inner: Any) -> Any:
    for _ in range(DEEP):
        inner = [inner]
    return inner


# documents that take long to read, with an expression that goes over them


def many_ints(room: int) -> tuple[Any, ...]:
    """As many values as there can be, in a loop that takes all steps that a program has."""
    return "object.l.all(i, object.l.all(j, true))", {"l": [0] * (room // 2)}


def towers(room: int) -> tuple[Any, ...]:
    """Lists in one another, as deep as they can be, in two lists that are equal."""
    lists = copies(tower(0), room // 2)
    return "object.a == object.b", {"a": lists, "b": lists}


def small_maps(room: int) -> tuple[Any, ...]:
    """Many maps of one entry, each compared with each."""
    return "object.l.all(x, object.l.all(y, x == y))", {"l": copies({"": 0}, room)}


def keys_in_no_order(room: int) -> tuple[Any, ...]:
    """One map of many short keys in no order, each of which is sought in it."""
    return "object.l.all(i, object.m.all(k, k in object.m))", {"l": [0] * loops.SIDE, "m": many_keys({"": 0}, room - 3_000)}


SHAPES = (
    Shape("contains", looped(loops.contains), str, repeated("a"), True),
    Shape("equal", looped(loops.equal), list, lambda items, room: copies([0] * 1_000, room), True),
    Shape("member", looped(loops.member), list, own_items, True),
    Shape("keys", looped(loops.keys), dict, long_keys, True),
    Shape("put", looped(loops.put), dict, two_keys, True),
    Shape("join", looped(loops.join), str, repeated("\n")),
    Shape("less", looped(loops.less), str, begins_alike, True),
    Shape("ends", looped(loops.ends), str, repeated(""), True),
    Shape("ints", many_ints, list, lambda items, room: copies(0, room)),
    Shape("towers", towers, list, lambda items, room: copies(tower(0), room)),
    Shape("small maps", small_maps, list, lambda items, room: copies({"": 0}, room)),
    Shape("many keys", keys_in_no_order, dict, many_keys, True),
)
