"""Compares the built program with an evaluator written apart, on policies and reviews from a seed.

usage: tools/seeded-policies [--seed N] [--count N] [--program PROGRAM]
       tools/seeded-policies --examples [--program PROGRAM]
       tools/seeded-policies --costs
       tools/seeded-policies --rows | --write-rows

The first form goes on until N policies (by default 1,000) were accepted with their reviews; the second goes
over the reviews of examples/policies. The others need no program: --costs prints EXAMPLE/REVIEW WORK SPENT, a
line for each of these, --rows makes the 1,000 rows of crates/review_tests/src/tests/seeded again and compares
them with the stored ones, and --write-rows stores them.

It builds nothing and proves nothing. `review` is run within 128 steps for each unit of the policy's work,
and its status and both outputs are to be the evaluator's, byte for byte; where the bound on charge and depth
holds, it may not be stopped. A session tells after how many steps the program exits: within these it is to
answer the same, within one fewer and within none N4. It prints counts, and ends with status 1 where anything
differs.
"""

import argparse
import tempfile
from pathlib import Path
from typing import Any

from ..home import built
from ..seeded.cases import case_of, outcome_of, wanted
from ..seeded.counts import Counts
from ..seeded.examples import examples
from ..seeded.numbers import Numbers
from ..seeded.program import Program
from ..seeded.rows import other_files, write_rows

SEED = 18


def words() -> argparse.Namespace:
    usage = __doc__.split("usage: ")[1].split("\n\n")[0]
    parser = argparse.ArgumentParser(usage=usage)
    parser.add_argument("--seed", type=int, default=SEED)
    parser.add_argument("--count", type=int, default=1_000)
    parser.add_argument("--program", default=built("celbpf"))
    parser.add_argument("--examples", action="store_true")
    parser.add_argument("--costs", action="store_true")
    parser.add_argument("--rows", action="store_true")
    parser.add_argument("--write-rows", action="store_true")
    return parser.parse_args()


def tell(name: str, case: Any, differences: Any) -> None:
    """Prints where the program differs, with the documents."""
    print(f"{name} differs", *differences, case, sep="\n    ")


def over_seed(program: Program, seed: int, count: int) -> Counts:
    """Cases from a seed, until so many are accepted."""
    numbers, counts, place = Numbers(seed), Counts(), 0
    while counts.accepted < count:
        case = case_of(numbers)
        outcome = outcome_of(program, case)
        counts.add(outcome)
        if outcome.differences:
            tell(f"case {place}", case, outcome.differences)
        place += 1
    return counts


def over_examples(program: Any) -> Any:
    """The reviews of the examples, whose responses are stored."""
    counts = Counts()
    for name, case, stored in examples():
        outcome = outcome_of(program, case)
        if outcome.answer is None or outcome.answer.response + "\n" != stored:
            outcome.differences = (*outcome.differences, "the stored response is another")
        counts.add(outcome)
        if outcome.differences:
            tell(name, case, outcome.differences)
        else:
            work, steps = outcome.answer.costs.work, outcome.steps
            print(f"{name:24} steps {steps:4} work {work:3} steps for each {steps / work:.1f}")
    return counts


def print_costs() -> None:
    for name, case, _ in examples():
        costs = wanted(case)[0].costs
        print(name, costs.work, costs.spent)


def over_rows() -> Any:
    """Compares the stored rows with those from the seed."""
    others = other_files(Numbers(SEED))
    print(*(f"{path.name} holds other rows" for path in others), sep="\n", end="\n" if others else "")
    if others:
        return 1
    print("the stored rows are those from the seed")
    return 0


def main() -> int:
    given = words()
    if given.costs:
        print_costs()
        return 0
    if given.write_rows:
        write_rows(Numbers(SEED))
    if given.rows or given.write_rows:
        return over_rows()
    with tempfile.TemporaryDirectory() as folder:
        program = Program(Path(given.program).resolve(), folder)
        counts = over_examples(program) if given.examples else over_seed(program, given.seed, given.count)
    print(*counts.lines(), sep="\n")
    if counts.differing:
        return 1
    print("the program answered as the evaluator")
    return 0
