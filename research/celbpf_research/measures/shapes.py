"""Reviews of seeded shapes, each just below 3 MiB, and which of them cost most."""

import os
import random
from typing import Any

from .policies import ALLOWED, DENIED, policy
from .runs import row

LIMIT = 3 * 1024 * 1024
# how deep lists and maps may nest below `object.l`
DEPTH = 123
# no document below 3 MiB is to cost more
MOST_SECONDS = 1.0
MOST_MEGABYTES = 200.0

HEAD = '{"apiVersion":"admission.k8s.io/v1","kind":"AdmissionReview","request":{"uid":"u",'

SCALARS = ("0", "-1", "9223372036854775807", "null", "true", '""', '"x"', '"\\n"', '"\\u0001"', '"\\ud83d\\ude00"')
KEYS = ('""', '"a"', '"\\n"', '"key"')
EXPRESSIONS = ("true", "object == oldObject", "object.l.all(x, x == x)", "object.l.size() >= 0", "object != oldObject")

# shapes that are worst in one way
LISTS = "[" * DEPTH + "]" * DEPTH
WORST = {
    "lists in lists": LISTS,
    "ints before lists in lists": "[0," * (DEPTH - 1) + "0" + "]" * (DEPTH - 1),
    "maps in maps, empty keys": '{"":' * (DEPTH - 1) + "0" + "}" * (DEPTH - 1),
    "ints": "0",
    "empty lists": "[]",
    "empty maps": "{}",
    "empty texts": '""',
    "texts of an escape": '"\\u0001"',
    "maps of an empty key": '{"":0}',
    "a key ten times": "{" + ",".join(['"":0'] * 10) + "}",
}


def repeated(unit: str, room: int) -> str:
    """A list of this unit again and again."""
    return "[" + ",".join([unit] * max(1, room // (len(unit) + 1))) + "]"


def key_of(drawn: Any, place: int) -> str:
    return drawn.choice((*KEYS, f'"{place}"', f'"k{place:05}"'))


def unit(drawn: Any, depth: int, room: int) -> str:
    """A value of about this length."""
    if depth == 0 or room < 4 or drawn.random() < 0.15:
        return drawn.choice(SCALARS)
    if drawn.random() < 0.3:
        return tower(drawn, min(depth, room // 2))
    count = drawn.choice((0, 1, 1, 2, 3, 10))
    parts = [unit(drawn, depth - 1, room // max(1, count)) for _ in range(count)]
    if drawn.random() < 0.5:
        return "[" + ",".join(parts) + "]"
    return "{" + ",".join(f"{key_of(drawn, place)}:{part}" for place, part in enumerate(parts)) + "}"


def tower(drawn: Any, depth: int) -> str:
    """Lists and maps in one another."""
    head, tail = drawn.choice((("[", "]"), ("[0,", "]"), ("[", ",0]"), ('{"":', "}"), ('{"a":', ',"b":[]}'), ('["",', "]")))
    return head * depth + drawn.choice(SCALARS) + tail * depth


def wide(drawn: Any, room: int) -> str:
    """One map of many keys, or one long text."""
    if drawn.random() < 0.5:
        piece = drawn.choice(("x", "\\n", "\\u0001", "\\\\", "\u00e9", "\\ud83d\\ude00"))
        return '["' + piece * (room // len(piece.encode())) + '"]'
    form = drawn.choice(('"{:x}":0', '"k{:07}":[]', '"{:x}":""', '"{:x}":{{}}'))
    places = list(range(room // (len(form.format(room // 10)) + 1)))
    order = drawn.choice((sorted, lambda ps: sorted(ps, reverse=True), lambda ps: drawn.sample(ps, len(ps))))
    return "[{" + ",".join(form.format(place) for place in order(places)) + "}]"


def drawn_list(drawn: Any, room: int) -> str:
    if drawn.random() < 0.1:
        return wide(drawn, room - 4)
    return repeated(unit(drawn, DEPTH - 1, drawn.choice((4, 20, 100, 1_000, 20_000))), room)


def review(thing: str, old: str) -> str:
    return HEAD + f'"object":{{"l":{thing}}},"oldObject":{{"l":{old}}}}}}}'


def drawn_review(drawn: Any) -> str:
    """A review whose object, or both objects, have this shape."""
    room = LIMIT - len(HEAD) - 60
    if drawn.random() < 0.3:
        both = drawn_list(drawn, room // 2)
        return review(both, both)
    return review(drawn_list(drawn, room), "[]")


def cost(runs: Any, text: str, expression: str) -> Any:
    """The seconds and the megabytes of a review of this text."""
    path = f"{runs.folder}/shape-review.json"
    with open(path, "w", encoding="utf-8") as file:
        file.write(text)
    words = ["review", "--policy", policy(runs, "shape", [expression]), "--review", path, "--steps", "1000000000"]
    seconds = runs.run(words, statuses=(ALLOWED, DENIED))
    return seconds, runs.memory(words), os.path.getsize(path)


def shown(name: str, costs: Any) -> None:
    seconds, memory, size = costs
    row(name, f"{size / 1_000_000:.2f} MB in {seconds:.2f} s", memory)


def measure(runs: Any) -> None:
    """Each of the worst shapes alone, and the two objects compared."""
    room = LIMIT - len(HEAD) - 60
    for name, shape in WORST.items():
        shown(name, cost(runs, review(repeated(shape, room), "[]"), "true"))
        both = repeated(shape, room // 2)
        shown(f"{name}, compared", cost(runs, review(both, both), "object == oldObject"))


def seeded(runs: Any, count: int = 100, seed: int = 1) -> None:
    """So many shapes from a seed; those that cost most, and each that costs too much."""
    worst: Any = {}
    for number in range(count):
        drawn = random.Random(f"{seed}-{number}")
        text, expression = drawn_review(drawn), drawn.choice(EXPRESSIONS)
        costs = cost(runs, text, expression)
        if costs[0] > MOST_SECONDS or costs[1] > MOST_MEGABYTES:
            shown(f"shape {seed}-{number} COSTS TOO MUCH", costs)
        for way in (0, 1):
            if way not in worst or costs[way] > worst[way][1][way]:
                worst[way] = (number, costs)
    for number, costs in worst.values():
        shown(f"the dearest of {count}: {seed}-{number}", costs)
