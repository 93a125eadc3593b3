"""Turns of loops: calls of helpers that read as much as they can, on documents of any size."""

import json
from dataclasses import dataclass
from typing import Any

# a loop over a list of so many items in another loop over it
SIDE = 1_000
# the entries of a map with long keys, whose number has ten binary digits
ENTRIES = 1_000
DIGITS = ENTRIES.bit_length()


@dataclass
class Turn:
    """An expression without side effects, the members of `object` that it names, and what its calls read."""

    expression: str
    members: dict[str, Any]
    # by the table of the page on helpers, without what the fields of `object` read
    reads: int

    @property
    def loop(self) -> str:
        return f"object.l.all(i, object.l.all(j, {self.expression}))"

    def document(self, side: int = SIDE) -> dict[str, Any]:
        """The object, with the list that the loop goes over."""
        return {"l": [0] * side, **self.members}


def length(value: Any) -> int:
    """The bytes of the compact JSON text of a value."""
    return len(json.dumps(value, separators=(",", ":"), ensure_ascii=False).encode())


def contains(room: int) -> Turn:
    """A text that is searched for one that nearly occurs everywhere."""
    part = "a" * (room // 4) + "b" + "a" * (room // 4)
    text = "a" * (room // 2 + 8)
    return Turn("!object.t.contains(object.u)", {"t": text, "u": part}, len(text) + len(part))


def size(room: int) -> Turn:
    """A text whose code points are counted."""
    text = "é" * (room // 2)
    return Turn("size(object.t) >= 0", {"t": text}, len(text.encode()))


def equal(room: int) -> Turn:
    """Two lists that differ in their last items."""
    first, second = [0] * (room // 4) + [0], [0] * (room // 4) + [1]
    return Turn("object.a != object.b", {"a": first, "b": second}, length(first))


def member(room: int) -> Turn:
    """A list that is sought among lists that differ from it."""
    items, sought = [[[[1]]]] * max(1, room // 8), [[[0]]]
    reads = min(length(items) + length(sought), len(items) * (8 + length(sought)))
    return Turn("!(object.x in object.b)", {"x": sought, "b": items}, reads)


def keys(room: int) -> Turn:
    """Long keys that begin alike, and are sought in a map of many: one by its name, one by a text, and one for its value."""
    head = "q" * max(0, room // ENTRIES - 8)
    entries = {f"{head}{place:04}": 0 for place in range(ENTRIES)}
    missing, there = f"{head}zzzz", f"{head}{ENTRIES - 1:04}"
    expression = f"!has(object.m.{missing}) && !(object.k in object.m) && object.m[object.n] == 0"
    members = {"m": entries, "k": missing, "n": there}
    return Turn(expression, members, 3 * len(missing) * DIGITS)


def put(room: int) -> Turn:
    """A map that is made of two long keys that begin alike."""
    head = "q" * (room // 2)
    members = {"t": f"{head}a", "u": f"{head}b"}
    return Turn("{object.t: 0, object.u: 0} != {}", members, 1 + len(head) + 1)


def join(room: int) -> Turn:
    """Two lists that are joined, which the charge bounds."""
    items = [0] * (room // 4)
    return Turn("object.a + object.b != []", {"a": items, "b": items}, 2 * len(items))


def less(room: int) -> Turn:
    """Two texts that begin alike."""
    head = "q" * (room // 2)
    return Turn("object.t < object.u", {"t": f"{head}a", "u": f"{head}b"}, len(head) + 1)


def ends(room: int) -> Turn:
    """A text that begins, and ends, nearly as another."""
    head = "q" * (room // 2)
    expression = "!object.t.startsWith(object.u) && !object.t.endsWith(object.u)"
    return Turn(expression, {"t": f"{head}qb", "u": f"{head}c"}, 2 * (len(head) + 1))
