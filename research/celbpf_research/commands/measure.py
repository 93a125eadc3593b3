"""Runs the built program on images and documents that it makes, and prints how long each run takes.

usage: research/measure [PROGRAM [PART..]]   (steps, values, policies, worst, reads, shapes, seeded, audit)

It builds nothing and proves nothing. Each row is the best of some runs, the program's start included:
steps or calls a second if the row is of one long run, else milliseconds, of a whole run or of one of
a session's lines; and the greatest resident memory, which GNU time tells. `reads` prints the processor
time of calls of helpers by what they read. `audit` has `vapctl audit` check ten thousand Deployments by the gatekeeper
beside the program, and compares its numbers with those that are counted by Python. What is run is in
celbpf_research/measures.
"""

import os
import sys
import tempfile
from typing import Any, Callable

from celbpf_tools.home import EXAMPLES, built

from ..measures import audit, policies, reads, shapes, steps, values, worst
from ..measures.runs import Runs

PARTS: dict[str, Callable[[Runs], Any]] = {
    "steps": steps.measure,
    "values": values.measure,
    "policies": lambda runs: policies.measure(runs, f"{EXAMPLES}/replicas"),
    "worst": worst.measure,
    "reads": reads.measure,
    "shapes": shapes.measure,
    "seeded": shapes.seeded,
    "audit": audit.measure,
}


def main() -> None:
    program = os.path.abspath(sys.argv[1] if len(sys.argv) > 1 else str(built("celbpf")))
    if not os.access(program, os.X_OK):
        sys.exit(f"measure: no program at {program}; build it first")
    with tempfile.TemporaryDirectory() as folder:
        runs = Runs(program, folder)
        for name in sys.argv[2:] or PARTS:
            PARTS[name](runs)
    print("each row was measured")
