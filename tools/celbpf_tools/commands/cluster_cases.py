"""Compares a gatekeeper with an evaluator written apart, on states of clusters and requests from a seed.

usage: tools/cluster-cases [--seed N] [--count N] [--reviews N] [GATEKEEPER]
       tools/cluster-cases --evaluator [--seed N] [--count N] [--reviews N]

It makes N states (by default 1,000) of policies, bindings, namespaces, ConfigMaps and a custom resource, some of which
are refused, and for each of them reviews (20) near the borders of what the state says. `gatekeeper --profile --cluster`
has to answer each line as tools/celbpf_tools/evaluator/cluster does, byte for byte, or to refuse the state; standard
error is compared too. The first difference is printed whole, with a smaller state if that differs too, and ends it with
status 1.

It prints how often each kind of answer was due. --evaluator asks no program, and ends with status 1 if some kind of
answer was never due.
"""

import argparse
import itertools
from typing import Any

from ..clusters.cases import Case, cases, difference, due, found, smallest
from ..clusters.counts import Counts
from ..entry import parser_of
from ..home import built
from ..seeded.numbers import Numbers

SEED = 36


def words() -> argparse.Namespace:
    parser = parser_of(__doc__)
    parser.add_argument("gatekeeper", nargs="?", default=built("gatekeeper"))
    parser.add_argument("--evaluator", action="store_true")
    parser.add_argument("--seed", type=int, default=SEED)
    parser.add_argument("--count", type=int, default=1_000)
    parser.add_argument("--reviews", type=int, default=20)
    return parser.parse_args()


def difference_of(gatekeeper: Any, case: Case) -> Any:
    """Where a gatekeeper differs on a case, or None."""
    return difference(case, due(case), found(gatekeeper, case))


def show(gatekeeper: Any, case: Case) -> None:
    """Prints a case that differs, as small as is easily found."""
    case = smallest(case, lambda other: difference_of(gatekeeper, other) is not None)
    print(*(f"list {text.decode(errors='replace')}" for text in case.lists), sep="\n")
    print("with --partial" if case.partial else "without --partial")
    print(difference_of(gatekeeper, case))


def main() -> int:
    given = words()
    counts = Counts()
    made = cases(Numbers(given.seed), given.reviews)
    for place, case in enumerate(itertools.islice(made, given.count)):
        wanted = due(case)
        counts.add(wanted)
        if not given.evaluator and difference(case, wanted, found(given.gatekeeper, case)) is not None:
            print(f"state {place} of seed {given.seed} differs")
            show(given.gatekeeper, case)
            return 1
    print(*counts.shown(), sep="\n")
    if not given.evaluator:
        print(f"the gatekeeper answered {given.count} states as the evaluator")
        return 0
    never = counts.never()
    print(f"never due: {', '.join(never)}" if never else "each kind of answer was due")
    return 1 if never else 0
