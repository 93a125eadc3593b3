"""How long steps take, in runs and in sessions."""

from typing import Any

from .runs import left, row

STEPS = 10_000_000

ARITHMETIC = """again:
add64 r0, 1
xor64 r1, r0
mul64 r1, 3
add64 r2, r1
ja again
"""

# the count is kept in memory, so that each turn loads and stores
COUNTING = """again:
ldxdw r1, [r10-8]
add64 r1, 1
stxdw [r10-8], r1
ja again
"""

MILLION = "s 1000000\n"

# the slots that code can have behind the loop's four, none of which it reaches
SLOTS = range(4, 65_536)


def long_run(runs: Any, name: str, steps: Any, words: Any, lines: Any = '') -> None:
    """How many steps a second a run of so many takes."""
    seconds, memory = runs.best(words, lines)
    row(name, f"{steps / seconds:,.0f} steps/s", memory)


def after(runs: Any, name: str, path: Any, before: Any, lines: Any) -> None:
    """What each of `lines` adds to a session that begins with `before`."""
    without = min(runs.run(["debug", path], before) for _ in range(3))
    whole, memory = runs.best(["debug", path], before + lines)
    count = lines.count("\n")
    row(name, left(whole, without, lambda seconds: f"{seconds * 1000 / count:.2f} ms a line"), memory)


def breakpoints_set(slots: Any) -> Any:
    """The lines that set breakpoints at these slots."""
    return "".join(f"b {slot}\n" for slot in slots)


def breakpoints(runs: Any, path: Any) -> None:
    """Searches without breakpoints, and among as many as there can be where the loop does not come."""
    after(runs, "rc without breakpoints, at 100,000,000", path, "g 100000000\n", "rc\n")
    rising, falling = breakpoints_set(SLOTS), breakpoints_set(reversed(SLOTS))
    for name, lines in (("b, 65,532 slots that rise", rising), ("b, 65,532 slots that fall", falling)):
        seconds, memory = runs.best(["debug", path], lines)
        row(name, f"{seconds * 1000:.0f} ms", memory)
    after(runs, "c 1000000 with 65,532 breakpoints", path, rising, "c 1000000\n")
    after(runs, "rc with 65,532 breakpoints", path, MILLION + rising, "rc\n")


def measure(runs: Any) -> None:
    """Two loops, and sessions on one of them."""
    arithmetic = runs.image("arithmetic", ARITHMETIC)
    counting = runs.image("counting", COUNTING)
    for name, path in (("loop of arithmetic", arithmetic), ("loop of loads and stores", counting)):
        long_run(runs, name, STEPS, ["run-image", path, "--steps", str(STEPS)])
    long_run(runs, "s 1000000", 1_000_000, ["debug", counting], MILLION)
    after(runs, "rs 1, a hundred times after it", counting, MILLION, "rs 1\n" * 100)
    # a breakpoint at a slot that the loop does not reach, so that all steps are searched
    searched = "b 9\nc 1000000\n"
    long_run(runs, "c 1000000 with a breakpoint", 1_000_000, ["debug", counting], searched)
    after(runs, "rc, a hundred times", counting, MILLION + "b 1\n", "rc\n" * 100)
    again = MILLION + "g 3\ns 100000\n"
    after(runs, "rs 1, after g 3 and s 100000", counting, again, "rs 1\n" * 100)
    breakpoints(runs, counting)
