"""Compares what the built program reads with what Python's json reads, on documents from a seed.

usage: tools/json-documents [--seed N] [--count N] [--program PROGRAM]

It goes on until N documents (by default 10,000) were read: reviews, namespaces and params, with repeated keys,
escapes, surrogates, control characters, bytes that are not UTF-8, numbers and depths at their limits, and faults of
each production. The rules beside Python's json are in celbpf_tools/json_texts/reading.py.

For each review a session shows the five roots, and `review` answers under a policy that compares object with
oldObject and params with namespaceObject: status, both outputs and the uid are to be those that are due. It prints
counts, and the smallest documents of a case that differs; then it ends with status 1.
"""

import argparse
import tempfile
from collections import Counter
from pathlib import Path
from typing import Any

from ..entry import parser_of
from ..home import built
from ..json_texts.answers import POLICY, Answer, Case, answer
from ..json_texts.documents import cases
from ..json_texts.shrinking import smallest
from ..seeded.numbers import Numbers
from ..seeded.program import Program

SEED = 50
LINES = "v 4\nv 5\nv 6\nv 7\nv 8\n"


def words() -> argparse.Namespace:
    parser = parser_of(__doc__)
    parser.add_argument("--seed", type=int, default=SEED)
    parser.add_argument("--count", type=int, default=10_000)
    parser.add_argument("--program", default=built("celbpf"))
    return parser.parse_args()


def due(given: Answer) -> list[Any]:
    """What a session and `review` end with."""
    if given.refusal:
        return [(3, "", f"celbpf: {given.refusal}\n")] * 2
    response = given.response()
    return [(0, given.lines(), ""), (0 if '"allowed":true' in response else 1, response, "")]


def found(program: Program, case: Case) -> list[Any]:
    """The same of the program."""
    named = []
    for name in ("review", "namespace", "params"):
        document = getattr(case, name)
        if document is not None:
            program.write(name, document)
            named += [f"--{name}", name]
    return [
        program.run("debug", "policy.img", *named, lines=LINES),
        program.run("review", "--policy", "policy.json", *named),
    ]


def differs(program: Program, case: Case) -> bool:
    return found(program, case) != due(answer(case))


def tell(program: Program, case: Case) -> None:
    """Prints the smallest case that still differs."""
    case = smallest(case, lambda other: differs(program, other))
    print(case)
    for name, is_due, is_found in zip(("debug", "review"), due(answer(case)), found(program, case)):
        print(f"    {name} {is_found!r} and not {is_due!r}" if is_found != is_due else f"    {name} as is due")


def compare(program: Program, seed: int, count: int) -> Any:
    """How many cases there were of each answer, and how many differ."""
    answers: Counter[str] = Counter()
    documents = differing = 0
    for case in cases(Numbers(seed)):
        if documents >= count:
            break
        given = answer(case)
        answers[given.refusal or "read"] += 1
        documents += sum(document is not None for document in (case.review, case.namespace, case.params))
        if found(program, case) != due(given):
            differing += 1
            tell(program, case)
    print(f"documents {documents}: " + ", ".join(f"{name} {number}" for name, number in sorted(answers.items())))
    return differing


def main() -> int:
    given = words()
    with tempfile.TemporaryDirectory() as folder:
        program = Program(Path(given.program).resolve(), folder)
        program.write("policy.json", POLICY)
        program.run("compile", "policy.json", "policy.img")
        differing = compare(program, given.seed, given.count)
    if differing:
        print(f"{differing} cases differ")
        return 1
    print("the program read as Python's json")
    return 0
