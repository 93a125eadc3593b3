"""Compares a gatekeeper with an evaluator of the wide language, on expressions from a seed.

usage: tools/wide-cases [--lists] [--seed N] [--count N] [--all] [GATEKEEPER]
       tools/wide-cases --profile-only [--seed N] [--count N] [--all] [GATEKEEPER]
       tools/wide-cases --evaluator [--seed N] [--count N]

The wide language is a wider part of CEL than the profile: it has optionals, macros of two names, and functions of
Kubernetes such as quantity. The first form makes N expressions (by default 20,000) with variables, and for each of them
three reviews whose documents have nulls, absent fields and values of other kinds. Two policies show whether the
gatekeeper has the value that tools/celbpf_tools/wide gives, or the error. What it refuses with W4 or W5, since it does
not translate it yet, is counted apart. With --lists the expressions have no functions of texts and no quantities, so that
more of them have optionals, indices of lists and keys of maps.

--profile-only makes expressions until N (5,000) are in the profile of docs/CEL.md too and mean the same there, and
compares the gatekeeper with its option --profile on these. Each form also compares the trees and results with those of
the profile's evaluator, if an expression is in the profile.

The first difference is printed with its documents, and ends it with status 1. With --all it goes on, prints each of
them and counts them. It prints how often each kind of refusal was due. --evaluator asks no program: it prints how often
each clause of the meaning was evaluated, and ends with status 1 if one never was.
"""

import argparse
import itertools
import json
from collections import Counter
from typing import Any, Iterator, Optional

from ..entry import parser_of
from ..home import built
from ..seeded.numbers import Numbers
from ..wide.cases import Case, cases, due
from ..wide.clauses import EXPECTED, Clauses
from ..wide.comparing import Compared
from ..wide.profile import Beside, in_profile, is_apart

SEED = 41
REVIEWS = 3
# of a hundred parts, how many have a form that the profile lacks
WIDE_SHARE, PROFILE_SHARE = 60, 4


def words() -> argparse.Namespace:
    parser = parser_of(__doc__)
    parser.add_argument("gatekeeper", nargs="?", default=built("gatekeeper"))
    parser.add_argument("--lists", action="store_true")
    parser.add_argument("--profile-only", action="store_true")
    parser.add_argument("--evaluator", action="store_true")
    parser.add_argument("--all", action="store_true")
    parser.add_argument("--seed", type=int, default=SEED)
    parser.add_argument("--count", type=int)
    return parser.parse_args()


class Run:
    """Cases from a seed, and what came of them."""

    def __init__(self, given: argparse.Namespace):
        self.given = given
        self.clauses = Clauses()
        self.refusals: Counter[Any] = Counter()
        self.beside = Beside()
        self.compared = Compared(("--profile",) if given.profile_only else ())
        self.most = given.count or (5_000 if given.profile_only else 20_000)

    def is_done(self, place: int) -> bool:
        return (self.compared.expressions if self.given.profile_only else place) >= self.most

    def difference(self, case: Case) -> Optional[str]:
        """The first difference over a case, or None."""
        wanted = due(case, self.clauses)
        profile = in_profile(case)
        found = self.beside.difference(case, profile, wanted) if profile else None
        if wanted.refusal:
            self.refusals[wanted.refusal.split(" ")[0]] += 1
        if found or self.given.evaluator:
            return found
        if self.given.profile_only and (wanted.refusal or not profile or is_apart(profile, wanted)):
            return None
        return self.compared.difference(self.given.gatekeeper, case, wanted)

    def lines(self) -> list[Any]:
        """What came of the cases."""
        shown = [self.beside.line()]
        if self.refusals:
            shown.append("refused: " + ", ".join(f"{name} {count}" for name, count in sorted(self.refusals.items())))
        return shown if self.given.evaluator else [*shown, f"the gatekeeper answered {self.compared.line()}"]


def show(case: Case, difference: str) -> None:
    """Prints a case that differs."""
    print(f"expression {case.text}")
    for name, text in case.variables.items():
        print(f"variable {name}: {text}")
    for roots in case.roots:
        print(json.dumps(roots, ensure_ascii=False))
    print(difference)


def clauses_shown(clauses: Clauses) -> int:
    """Prints how often each clause was evaluated; the status."""
    for clause, count in sorted(clauses.counts.items()):
        print(f"{count:9} {clause}")
    never = clauses.never(EXPECTED)
    print(f"never evaluated: {', '.join(never)}" if never else "each clause was evaluated")
    return 1 if never else 0


def compared(run: Run) -> Iterator[tuple[Any, ...]]:
    """The place of each case that differs, with the case and its difference."""
    share = PROFILE_SHARE if run.given.profile_only else WIDE_SHARE
    made = cases(Numbers(run.given.seed), share, REVIEWS, run.given.lists)
    for place in itertools.count():
        if run.is_done(place):
            return
        case: Any = next(made)
        difference = run.difference(case)
        if difference:
            yield place, case, difference


def main() -> int:
    given = words()
    run, differing = Run(given), 0
    for place, case, difference in compared(run):
        print(f"case {place} of seed {given.seed} differs")
        show(case, difference)
        differing += 1
        if not given.all:
            return 1
    print(*run.lines(), sep="\n")
    if given.evaluator:
        return max(clauses_shown(run.clauses), 1 if differing else 0)
    print(f"the gatekeeper answered {run.compared.expressions} expressions as the evaluator", end="")
    print(f", and {differing} otherwise" if differing else "")
    return 1 if differing else 0
