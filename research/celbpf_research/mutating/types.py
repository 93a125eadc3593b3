"""The changes of a type that says what holds: a field, a case or a premise is left out."""

import re
from typing import Iterator

from .change import Change

BINDER = re.compile(r"[({]\w+(?: \w+)* : ")
CLOSES = {")": "(", "}": "{"}


def parts(text: str, sign: str) -> list[str]:
    """What stands between the signs that are in no bracket, from its first to its last."""
    found, depth, begin = [], 0, 0
    for at, letter in enumerate(text):
        depth += (letter in "({") - (letter in ")}")
        if depth == 0 and text.startswith(f" {sign} ", at):
            found.append(text[begin:at])
            begin = at + len(sign) + 2
    return [*found, text[begin:]]


def members(lines: list[str]) -> list[tuple[int, int]]:
    """The fields or cases below a head, as the first line of each and the line after its last; comments are none."""
    begins = [at for at, line in enumerate(lines) if at > 0 and re.match(r"  (?! |--)\S", line)]
    ends = []
    for at in begins:
        end = at + 1
        while end < len(lines) and lines[end].startswith("    "):
            end += 1
        ends.append(end)
    return list(zip(begins, ends))


def of_premises(case: list[str], place: int) -> Iterator[Change]:
    """A case with one of its premises left out; what binds a name stays."""
    joined = " ".join([case[0].rstrip(), *(line.strip() for line in case[1:])])
    head, colon, rest = joined.partition(" : ")
    pieces = parts(rest, "→") if colon else []
    for at, piece in enumerate(pieces[:-1]):
        if not BINDER.match(piece):
            left = " → ".join([*pieces[:at], *pieces[at + 1 :]])
            yield Change("premise", place, tuple(case), (f"{head} : {left}",))


def of_type(lines: list[str], place: int) -> Iterator[Change]:
    """The changes of a type: the first line is its head."""
    is_data = bool(re.match(r" *(?:\w+ )*data ", lines[0]))
    for begin, end in members(lines):
        of_member = lines[begin:end]
        yield Change("case" if is_data else "field", place + begin, tuple(of_member), ())
        if is_data:
            yield from of_premises(of_member, place + begin)
