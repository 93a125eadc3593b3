"""How long calls on values take, and a checkpoint's copy of them."""

from typing import Any

from .runs import left, row
from .steps import COUNTING

# each turn appends to the newest list
PUSHES = """call 16
mov64 r6, r0
again:
mov64 r1, r6
mov64 r2, 3
call 17
mov64 r6, r0
ja again
"""

# two lists of the same 100,000 ints, built apart, and then compared
LISTS = """call 16
mov64 r6, r0
call 16
mov64 r7, r0
mov64 r8, 0
build:
mov64 r1, r8
call 3
mov64 r2, r0
mov64 r1, r6
call 17
mov64 r6, r0
mov64 r1, r8
call 3
mov64 r2, r0
mov64 r1, r7
call 17
mov64 r7, r0
add64 r8, 1
jne64 r8, 100000, build
mov64 r1, r6
mov64 r2, r7
call 9
exit
"""
BUILDING = 5 + 14 * 100_000 + 2

# each turn looks up the 5,000th key of the object
KEYS = """mov64 r1, 4
mov64 r2, 5000
call 20
mov64 r6, r0
again:
mov64 r1, 4
mov64 r2, r6
call 7
ja again
"""

STEPS = 1_000_000


def pushes(runs: Any) -> None:
    """Calls that append to the newest list."""
    path = runs.image("pushes", PUSHES)
    seconds, memory = runs.best(["run-image", path, "--steps", "5000000"])
    row("push onto the newest list", f"{1_000_000 / seconds:,.0f} calls/s", memory)


def lists(runs: Any) -> None:
    """One call that compares two long lists."""
    path = runs.image("lists", LISTS)
    built, _ = runs.best(["run-image", path, "--steps", str(BUILDING)])
    whole, memory = runs.best(["run-image", path, "--steps", str(BUILDING + 1)])
    figure = left(whole, built, lambda seconds: f"{seconds * 1000:.1f} ms")
    row("equal, two lists of 100,000 ints", figure, memory)


def on_object(runs: Any, image: Any, name: str, thing: Any) -> Any:
    """The seconds of a session of so many steps on this object, those of its start, and the memory."""
    session = ["debug", image, "--review", runs.review(name, thing)]
    begun, _ = runs.best(session, "s 1\n")
    whole, memory = runs.best(session, f"s {STEPS}\n")
    return whole, begun, memory


def keys(runs: Any) -> None:
    """Calls that find a key of a map."""
    image = runs.image("keys", KEYS)
    for count in (10_000, 100_000):
        thing = {f"k{key:06}": key for key in range(count)}
        whole, begun, memory = on_object(runs, image, "keys", thing)
        figure = left(whole, begun, lambda seconds: f"{STEPS / 4 / seconds:,.0f} calls/s")
        row(f"find, a map of {count:,} keys", figure, memory)


def checkpoints(runs: Any) -> None:
    """What a checkpoint adds to a session for a table of many cells."""
    image = runs.image("counting", COUNTING)
    without, _ = runs.best(["debug", image], f"s {STEPS}\n")
    whole, begun, memory = on_object(runs, image, "items", {"items": list(range(100_000))})
    figure = left(whole - begun, without, lambda seconds: f"{seconds / (STEPS / 1024) * 1_000_000:.1f} us")
    row("a checkpoint over 100,000 cells", figure, memory)


def measure(runs: Any) -> None:
    """Each kind of call."""
    pushes(runs)
    lists(runs)
    keys(runs)
    checkpoints(runs)
