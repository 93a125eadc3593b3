"""Refuses each allocation of some work in turn: each run is to answer as with ample memory, or that memory ran out.

usage: tools/refused-allocations [--quick|--programs FOLDER] [NAME..]

A work is run with ample memory, which counts its allocations, and then once for each, which a library refuses that is
loaded before those of the program. If memory runs out, a command writes one line and no answer, and no file; a session
answers `? memory` at the line, and goes on as if that line were not there; a gatekeeper does not start, or refuses the
one line. The programs are the proved ones, those that are compiled without a proof, or those of FOLDER.

Other works are calls of the libraries, by a program of tools/data/refused-allocations, which is compiled of a copy
without a proof: after a call that is refused all values are as before, and the call succeeds if it is made again.
"""

import tempfile
from collections import Counter
from pathlib import Path
from typing import Optional

from ..asking.program import tested
from ..copies import copied
from ..entry import parser_of
from ..refusing.driver import CALLS, made
from ..refusing.runs import Runs
from ..refusing.works import Answer, Calls, Work, of_programs


def refuse(name: str, work: Work, runs: Runs) -> bool:
    """Refuses each allocation of a work; whether each run answered as it is to."""
    work.begin(runs)
    count = runs.made()
    answers = [work.answer(runs, refused) for refused in range(1, count + 1)]
    said = Counter(answers)
    print(f"{name}: {count} allocations, {said[Answer.MEMORY]} answers that memory ran out", flush=True)
    if said[Answer.WRONG]:
        wrong = [str(refused) for refused, answer in enumerate(answers, 1) if answer is Answer.WRONG]
        print(f"    wrong answers: {said[Answer.WRONG]}, with these refused: {' '.join(wrong[:10])}", flush=True)
    return 0 < count and not said[Answer.WRONG]


def of_calls(names: list[str], folder: Path) -> dict[str, Work]:
    """The works that are calls of the libraries, if some of them are asked for."""
    if not set(names) & set(CALLS):
        return {}
    with copied("out") as copy:
        program = made(copy, folder)
    return {name: Calls([program], str(place).encode()) for place, name in enumerate(CALLS)}


def programs_of(quick: bool, folder: Optional[str]) -> tuple[Path, Path]:
    """The two programs."""
    if folder:
        return Path(folder, "celbpf").resolve(), Path(folder, "gatekeeper").resolve()
    given = "--quick" if quick else None
    return tested(given, "celbpf"), tested(given, "gatekeeper")


def main() -> int:
    parser = parser_of(__doc__)
    parser.add_argument("--quick", action="store_true", help="programs that are compiled without a proof")
    parser.add_argument("--programs", metavar="FOLDER", help="a folder with celbpf and gatekeeper")
    parser.add_argument("names", metavar="NAME", nargs="*", help="a work; all if none is given")
    given = parser.parse_args()
    with tempfile.TemporaryDirectory() as name:
        folder = Path(name).resolve()
        runs = Runs(folder)
        works = of_programs(runs, *programs_of(given.quick, given.programs))
        known = [*works, *CALLS]
        if unknown := [one for one in given.names if one not in known]:
            parser.error(f"there is no {unknown[0]}, only {', '.join(known)}")
        names = given.names or known
        works.update(of_calls(names, folder))
        # all are run, also after one that fails
        passed = [refuse(one, works[one], runs) for one in names]
    if not all(passed):
        return 1
    print(f"in {len(passed)} works each run answered as with ample memory, or that memory ran out")
    return 0
