"""Nanoseconds a read: the worst call of each helper that reads, at three sizes of its operands."""

import math
from typing import Any

from ..hostile import loops
from .policies import ALLOWED, policy
from .runs import row

# bytes of the document, near enough
ROOMS = (3_000, 100_000, 3_000_000)
# what a run reads, near enough, and one that the charge bounds
READS, CHARGED = 100_000_000, 13_500_000
# the turns of a loop, at most
TURNS = 300_000
STEPS = ["--steps", "1000000000"]
CALLS = (
    loops.contains, loops.size, loops.equal, loops.member, loops.keys, loops.put, loops.join, loops.less, loops.ends,
)


def seconds(runs: Any, turn: loops.Turn, side: int) -> float:
    """The processor time of a review whose loop takes this many turns on each side."""
    review = runs.review("reads-review", turn.document(side))
    words = ["review", "--policy", policy(runs, "reads", [turn.loop]), "--review", review, *STEPS]
    return runs.processor(words, (ALLOWED,))


def measure(runs: Any) -> None:
    """The time of a run, without that of one turn, by what the other turns read. So it has the steps of each turn."""
    for call in CALLS:
        for room in ROOMS:
            turn = call(room)
            most = CHARGED if call is loops.join else READS
            side = max(2, math.isqrt(min(TURNS, most // turn.reads)))
            taken = seconds(runs, turn, side) - seconds(runs, turn, 1)
            each = taken / (side**2 - 1)
            figure = f"{each * 1e9 / turn.reads:.3f} ns a read"
            row(f"{call.__name__}, {turn.reads:,} reads a turn", figure)
