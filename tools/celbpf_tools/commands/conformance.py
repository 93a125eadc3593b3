"""Runs the conformance data of cel-spec through `compile` and `review`.

usage: tools/conformance [--data FOLDER] [--program PROGRAM] [--list]

FOLDER has the files `*.textproto`; by default it is where Debian's golang-cel-expr-dev puts them, or
golang-github-google-cel-spec-dev. --list prints each case that is out of the profile with its reason. It prints
the cases that fail, how many passed and how many are out of the profile by which reason, and ends with status 1 where
a case fails, 3 where there is no data.
"""

import argparse
from collections import Counter
from pathlib import Path
from typing import Any, Optional

from ..asking.program import located
from ..conformance.cases import Case, cases_of
from ..conformance.profile import IS_UNTYPED, reason
from ..conformance.running import faults
from ..entry import Stop, parser_of

INSTALLED = [
    Path("/usr/share/gocode/src") / package / "tests/simple/testdata"
    for package in ("cel.dev/expr", "github.com/google/cel-spec")
]


def data(given: Optional[str]) -> Path:
    """The folder of the data."""
    for folder in [Path(given)] if given else INSTALLED:
        if any(folder.glob("*.textproto")):
            return folder
    raise Stop(f"{given or INSTALLED[0]}: no data; Debian's golang-cel-expr-dev has it", 3)


def summary(found: Counter[Any]) -> list[str]:
    """How many cases are out of the profile by which reason, functions on one line."""
    functions = {why.split()[1]: count for why, count in found.items() if why.startswith("function ")}
    told = Counter({why: count for why, count in found.items() if not why.startswith("function ")})
    if functions:
        names = ", ".join(sorted(functions))
        told[f"function out of the profile: {names}"] = sum(functions.values())
    return [f"{count:5} {why}" for why, count in sorted(told.items(), key=lambda it: (-it[1], it[0]))]


def words() -> argparse.Namespace:
    parser = parser_of(__doc__)
    parser.add_argument("--data")
    parser.add_argument("--program")
    parser.add_argument("--list", action="store_true")
    return parser.parse_args()


def told(case: Case, why: str) -> str:
    """A line on a case."""
    return f"{case.name}: {why}: {case.expression}"


def main() -> int:
    given = words()
    sorted_out = [(case, reason(case)) for case in cases_of(data(given.data))]
    others = [(case, why) for case, why in sorted_out if why]
    if given.list:
        print(*(told(case, why) for case, why in others), sep="\n")
    inside = [case for case, why in sorted_out if why is None]
    untyped = [case for case, why in others if why == IS_UNTYPED]
    failed = faults(located(given.program), inside, untyped)
    print(*(f"failed: {told(case, why)}" for case, why in failed), sep="\n", end="\n" if failed else "")
    print(f"out of the profile: {len(others)} of {len(sorted_out)} cases")
    print(*summary(Counter(why for _, why in others)), sep="\n")
    if failed or not inside:
        print(f"{len(failed)} of {len(inside) + len(untyped)} cases failed")
        return 1
    print(f"all {len(inside)} cases in the profile passed, and {len(untyped)} ill-typed ones are refused")
    return 0
