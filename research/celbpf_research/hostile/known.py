"""Reviews from a seed whose reads are calculated by the table of the page on helpers.

Half of them are loops whose calls read much, on documents of any size; the others are documents of any shape, which are
compared or gone over.
"""

import json
import math
import random
from dataclasses import dataclass
from typing import Any, Callable

from ..measures.shapes import EXPRESSIONS, drawn_review
from . import loops
from .shapes import MOST, POLICY, REST, REVIEW, line_of

TURNS = (
    loops.contains, loops.size, loops.equal, loops.member, loops.keys, loops.put, loops.join, loops.less, loops.ends,
)
# what a loop reads together at most, which is the gatekeeper's limit if none is given
READS = 2**24
# the turns of a loop at most, so that it takes fewer than ten million steps
MOST_TURNS = 60_000
# what the joins of a loop charge at most
CHARGE = 12_000_000
# a loop of more turns may run out of steps
TURNS_IN_STEPS = 300_000


@dataclass(frozen=True)
class Known:
    """A review, the expression of a policy for it, and what its run reads unless it is out of steps before."""

    name: str
    expression: str
    line: bytes
    reads: int
    may_end_in_steps: bool = False

    @property
    def policy(self) -> dict[str, Any]:
        return {**POLICY, "metadata": {"name": "known"}, "spec": {"validations": [{"expression": self.expression}]}}


def turn_reads(turn: loops.Turn) -> tuple[int, int]:
    """What the field of the list and each turn of a loop over it read: the calls, and the fields of `object`.

    The names of these fields have one letter, which is compared once for each binary digit of their number.
    """
    digits = (1 + len(turn.members)).bit_length()
    return digits, turn.reads + turn.expression.count("object.") * digits


def looped(name: str, turn: loops.Turn, count: int) -> Known:
    """A loop of so many turns. One of `keys` also compares the int that it finds, of one digit."""
    first, each = turn_reads(turn)
    reads = first + count * (each + (1 if name == "keys" else 0))
    line = line_of({**REVIEW, "request": {"uid": "u", "object": turn.document(count)}})
    return Known(name, f"object.l.all(i, {turn.expression})", line, reads)


def drawn_loop(drawn: random.Random) -> Known:
    """A loop on a document of any size, which may read as much as the limit allows."""
    made: Callable[[int], loops.Turn] = drawn.choice(TURNS)
    room = MOST - REST - 2 * MOST_TURNS
    turn = made(round(math.exp(drawn.uniform(math.log(100), math.log(room)))))
    _, each = turn_reads(turn)
    most = CHARGE // (each + 100) if made is loops.join else READS // (each + 1)
    return looped(made.__name__, turn, drawn.randint(1, max(1, min(MOST_TURNS, most - 1))))


def compared(request: dict[str, Any]) -> int:
    """What the comparison of both objects reads."""
    first, second = loops.length(request["object"]), loops.length(request["oldObject"])
    return first if first == second else 0


# what the expressions read; the key `l` is compared once
DOCUMENT_READS: dict[str, Callable[[dict[str, Any]], int]] = {
    "true": lambda request: 0,
    "object == oldObject": compared,
    "object != oldObject": compared,
    "object.l.all(x, x == x)": lambda request: 1 + sum(map(loops.length, request["object"]["l"])),
    "object.l.size() >= 0": lambda request: 1,
}


def drawn_document(drawn: random.Random) -> Known:
    """A document of any shape, of nearly three mebibytes."""
    text, expression = drawn_review(drawn), drawn.choice(EXPRESSIONS)
    request = json.loads(text)["request"]
    ends = "all" in expression and len(request["object"]["l"]) > TURNS_IN_STEPS
    return Known("document", expression, text.encode() + b"\n", DOCUMENT_READS[expression](request), ends)


def known(seed: int, number: int) -> Known:
    """The review of a seed with this number."""
    drawn = random.Random(f"{seed}-{number}")
    return drawn_loop(drawn) if drawn.random() < 0.5 else drawn_document(drawn)
