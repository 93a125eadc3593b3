"""Gives a gatekeeper reviews that take long to decide or to read, and prints what each takes.

usage: research/hostile [--own | --examples] [--keep FOLDER] [--program PROGRAM] [SHAPE..]
       research/hostile --seeded COUNT [--first NUMBER] [--seed N] [--keep FOLDER] [--program PROGRAM]

A shape is a loop whose calls of helpers read as much as they can, or a document that takes long to read; shapes.py in
celbpf_research/hostile has a dozen: contains, equal, member, keys, put, join, less, ends, ints, towers, 'small maps',
'many keys'. Without names it takes all. Each is a line of some three mebibytes. First it is given to a gatekeeper with
a policy of its own (--own), then its parts are put into the longest review of each of `examples/policies`, at up to
four places (--examples).

Each line has to be decided or refused within 0.5 s of processor time, or 0.8 s if its program takes all ten million
steps, and 150 MB. For a loop that the limit of reads ends, ten times the limit has to take at most about ten times as
long; for the others ten times the bytes. It prints each shape under its own policy, and of the examples the costliest
line of each shape. It ends with status 1 if one took more; with `--keep` such lines are written to a folder, with
their policies. An interrupt ends it early. The examples are up to 3,500 lines, some minutes. It builds nothing.

With --seeded it gives a gatekeeper so many reviews from a seed (1), from a number (0) on, whose reads are calculated. Each
has to be decided with that limit of reads and refused by N7 with one less, within the same bounds. known.py has them.
"""

import argparse
import json
import tempfile
from dataclasses import dataclass, field
from pathlib import Path
from typing import Any, Optional

from celbpf_tools.entry import parser_of
from celbpf_tools.home import built

from ..hostile.known import Known, known
from ..hostile.places import cases, lines
from ..hostile.shapes import MOST, SHAPES, Shape
from ..hostile.watched import OUT_OF_READS, Cost, Watched

NAMES = ("policy", "namespace", "params")
# the gatekeeper's limit of reads if none is given
READS = 2**24
TIMES = 10
# ten times the limit may take a little more than ten times as long, since a run is measured once
MOST_TIMES = 13.0


def words() -> argparse.Namespace:
    parser = parser_of(__doc__)
    parser.add_argument("shapes", nargs="*", metavar="SHAPE", choices=[[], *(shape.name for shape in SHAPES)])
    parser.add_argument("--keep", type=Path)
    parser.add_argument("--program", default=built("gatekeeper"))
    parts = parser.add_mutually_exclusive_group()
    parts.add_argument("--own", action="store_true")
    parts.add_argument("--examples", action="store_true")
    parts.add_argument("--seeded", type=int, metavar="COUNT")
    parser.add_argument("--first", type=int, default=0, metavar="NUMBER")
    parser.add_argument("--seed", type=int, default=1)
    return parser.parse_args()


def told(name: str, length: int, cost: Cost, more: str = "") -> None:
    print(f"{name:34} {length:9,} bytes {cost.seconds:6.2f} s {cost.megabytes:6.0f} MB  {cost.ending}{more}", flush=True)


@dataclass
class Trial:
    """Lines that are given to gatekeepers, and how many took too much."""

    program: Any
    folder: Path
    keep: Optional[Path] = None
    count: int = 0
    bad: int = 0
    worst: dict[str, Any] = field(default_factory=dict)

    def watched(self, documents: dict[str, Any], *more: str) -> Watched:
        """A gatekeeper with these documents."""
        arguments = list(more)
        for name, held in documents.items():
            path = self.folder / f"{name}.json"
            path.write_bytes(held)
            arguments += [f"--{name}", str(path)]
        return Watched(self.program, arguments)

    def judge(self, is_good: bool, documents: dict[str, Any], line: bytes) -> None:
        """Counts a line, and keeps one that is not good."""
        self.count += 1
        if is_good:
            return
        self.bad += 1
        if self.keep:
            kept = self.keep / str(self.count)
            kept.mkdir(parents=True, exist_ok=True)
            for name, held in {**documents, "line": line}.items():
                (kept / f"{name}.json").write_bytes(held)

    def cost(self, documents: dict[str, Any], line: bytes, *more: str) -> Cost:
        with self.watched(documents, *more) as watched:
            return watched.give(line)

    def own(self, shape: Shape) -> None:
        """A shape under its own policy, and how much longer ten times as much takes."""
        documents, line = policy_of(shape), shape.line()
        cost = self.cost(documents, line)
        if shape.is_limited:
            free = self.cost(documents, line, "--reads", "0").seconds
            more = self.cost(documents, line, "--reads", str(TIMES * READS)).seconds
            times = (more - free) / max(0.001, cost.seconds - free)
            note = f"; {TIMES} times the limit {times:.1f} times as long"
        else:
            times = cost.seconds / max(0.001, self.cost(policy_of(shape, MOST // TIMES), shape.line(MOST // TIMES)).seconds)
            note = f"; {TIMES} times the bytes {times:.1f} times as long"
        told(shape.name, len(line), cost, note)
        ends_so = cost.answer.startswith(OUT_OF_READS) == shape.is_limited
        self.judge(cost.is_within and ends_so and times <= MOST_TIMES, documents, line)

    def known(self, number: int, case: Known) -> None:
        """A review with the limit of reads that it needs, and with one less. No expression is translated (--profile)."""
        documents = {"policy": json.dumps(case.policy).encode()}
        cost = self.cost(documents, case.line, "--profile", "--reads", str(case.reads))
        endings = [cost.ending]
        if case.reads:
            endings.append(self.cost(documents, case.line, "--profile", "--reads", str(case.reads - 1)).ending)
        in_steps = case.may_end_in_steps and cost.ending == "N4"
        is_exact = in_steps or (endings[0] in ("allowed", "denied") and endings[1:] in ([], ["N7"]))
        is_good = is_exact and cost.is_within
        self.judge(is_good, documents, case.line)
        if not is_good:
            told(f"{case.name} {number}", len(case.line), cost, f"; {case.reads:,} reads: {', then '.join(endings)}")
        if case.name not in self.worst or cost.seconds > self.worst[case.name][2].seconds:
            self.worst[case.name] = str(number), len(case.line), cost

    def seeded(self, seed: int, numbers: range) -> None:
        """Reviews from a seed, whose reads are calculated."""
        for number in numbers:
            self.known(number, known(seed, number))
        self.tell_worst()

    def under(self, name: str, case: Any, review: dict[str, Any], shape: Shape) -> None:
        """A shape in the review of an example policy, one line after another."""
        documents = {kind: held for kind in NAMES if (held := getattr(case, kind)) is not None}
        with self.watched(documents) as watched:
            for line in lines(review, shape):
                cost = watched.give(line)
                self.judge(cost.is_within, documents, line)
                if not cost.is_within:
                    told(f"{shape.name}, {name}", len(line), cost, "; too much")
                if shape.name not in self.worst or cost.seconds > self.worst[shape.name][2].seconds:
                    self.worst[shape.name] = name, len(line), cost

    def examples(self, shapes: list[Any]) -> None:
        """Shapes in the reviews of all example policies."""
        for name, case, review in cases():
            for shape in shapes:
                self.under(name, case, review, shape)
        self.tell_worst()

    def tell_worst(self) -> None:
        """The costliest line of each shape."""
        for shape, (name, length, cost) in self.worst.items():
            told(f"{shape}, {name}", length, cost)


def policy_of(shape: Shape, room: int = MOST) -> dict[str, Any]:
    return {"policy": json.dumps(shape.policy(room)).encode()}


def main() -> int:
    asked = words()
    shapes = [shape for shape in SHAPES if not asked.shapes or shape.name in asked.shapes]
    with tempfile.TemporaryDirectory() as folder:
        trial = Trial(asked.program, Path(folder), asked.keep)
        try:
            if asked.seeded is not None:
                trial.seeded(asked.seed, range(asked.first, asked.first + asked.seeded))
            for shape in () if asked.examples or asked.seeded is not None else shapes:
                trial.own(shape)
            if not asked.own and asked.seeded is None:
                trial.examples(shapes)
        except KeyboardInterrupt:
            pass
    print(f"{trial.count - trial.bad} of {trial.count} lines were answered within the bounds")
    return 1 if trial.bad else 0
