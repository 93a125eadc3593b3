"""Changes definitions one at a time, and lists the changes that no row and no law notices.

usage: research/mutate-definitions [--seed N].. [--count N] [--crate NAME].. [--above N] [--again FILE]
                                [--list | --unpinned | --computed] [FILE NAME]

From each seed it draws --count changes out of the definitions that tools/belief lists, those of FILE and NAME alone if
they are given. A change moves a number by one, takes `<` for `<=`, true for false, one variant or argument for another,
exchanges or merges results of cases, exchanges tests, or leaves out a case, a premise, a field or a part of a
statement. The prover reads the changed definitions of a crate in one run; changes without a meaning are not counted.
Then the literal rows of all crates are computed in Python (`computing`) over each change, those alone that run the
definition; as they stand, all that have an answer there are true. Where none is false, the prover checks the rows and
laws of the definition's crate that rest on it, which follow no code, on a copy of the crates, and then the rows of the
--above (1) nearest crates above that rest on it. Each change gets a line: killed, by rows or by laws; survived;
equivalent, where the file `equivalent` of research/data/mutate-definitions says why it means the same as what it replaces,
and then it is not tried; or undecided, where laws alone are not proved any more and the file `false-laws` does not say
how the change makes one false: that may be its proof alone. A table has the counts of each crate. --again tries the
changes that survived or were undecided by the lines of FILE, what an earlier run printed. --computed asks no prover:
what no computed row refuses is left, also without a meaning. --list prints changes and tries none; --unpinned prints
the definitions on which no literal row rests. It ends with status 1 where a change survived.
"""

import argparse
import time
from collections import Counter
from itertools import islice
from pathlib import Path
from tempfile import TemporaryDirectory
from typing import Iterator

from celbpf_tools.definitions import CRATES, Module
from celbpf_tools.entry import Stop, parser_of

from ..computing.rows import Rows
from ..mutating import known
from ..mutating.change import Change
from ..mutating.drawing import Drawn, again, believed, changes, drawn, read_all
from ..mutating.pins import Pin, all_pins
from ..mutating.trying import Sources, Workshop, with_imports, workshop
from ..mutating.verdicts import MEANT, VERDICTS, Outcome, decided


def words() -> argparse.Namespace:
    parser = parser_of(__doc__)
    parser.add_argument("--seed", type=int, action="append")
    parser.add_argument("--count", type=int, default=20)
    parser.add_argument("--crate", action="append", default=[])
    parser.add_argument("--above", type=int, default=1)
    parser.add_argument("--again", type=Path)
    parser.add_argument("--list", action="store_true")
    parser.add_argument("--computed", action="store_true")
    parser.add_argument("--unpinned", action="store_true")
    parser.add_argument("definition", nargs="*", metavar="FILE NAME")
    given = parser.parse_args()
    if len(given.definition) not in (0, 2):
        parser.error("FILE and NAME go together")
    return given


def by_crate(changes: list[Drawn]) -> dict[str, list[Drawn]]:
    """Changes with the others of their crate, so that a crate is copied once."""
    found: dict[str, list[Drawn]] = {}
    for one in changes:
        found.setdefault(one.crate, []).append(one)
    return found


class Computed:
    """The rows of all crates, which are computed over a change."""

    def __init__(self, seconds: float = 2):
        self.rows, self.seconds = Rows(), seconds
        for row in self.rows.all:
            self.rows.compute(row, seconds)
        answers = Counter(row.answer for row in self.rows.all)
        print(f"{answers[True]} rows are true as computed, {answers[None]} have no answer, {answers[False]} are false", flush=True)
        if answers[False]:
            raise Stop("rows that are proved are false as computed", 1)

    def outcome(self, one: Drawn) -> Outcome:
        """What the rows say of a change: killed, or left."""
        began = time.process_time()
        whole = (CRATES / one.file).read_text(encoding="utf-8")
        text = with_imports(one.change.applied(whole), one.change.new)
        row, count = self.rows.against(one.definition, one.crate, text, self.seconds)
        seconds = time.process_time() - began
        return Outcome("killed", [row.told], seconds=seconds) if row else Outcome("left", [f"{count} rows"], seconds=seconds)


class Run:
    """A run: what is known of changes, what notices them, and what came of them so far, by crates."""

    def __init__(self, pins: list[Pin], sources: Sources, most_above: int):
        self.pins, self.sources, self.most_above = pins, sources, most_above
        self.same, self.false_laws = known.read(known.EQUIVALENT), known.read(known.FALSE_LAWS)
        self.computed = Computed()
        self.counts: dict[str, Counter[str]] = {}
        self.seconds: list[float] = []

    def tell(self, one: Drawn, outcome: Outcome) -> None:
        """Counts an outcome, and prints its line."""
        counts = self.counts.setdefault(one.crate, Counter())
        counts[outcome.verdict] += 1
        counts["by rows"] += outcome.verdict == "killed" and bool(outcome.rows)
        if outcome.verdict in MEANT and outcome.verdict != "equivalent":
            self.seconds.append(outcome.seconds)
        print(f"{outcome.told}: {one.told}", flush=True)

    def outcomes(self, changes: list[Drawn]) -> Iterator[tuple[Drawn, Outcome]]:
        """What comes of changes; those that are known to mean the same are not tried."""
        for one in changes:
            if one.told in self.same:
                yield one, Outcome("equivalent", reason=self.same[one.told])
        for crate, of_crate in by_crate([one for one in changes if one.told not in self.same]).items():
            with workshop(crate, self.pins, self.sources, self.most_above) as place:
                without = place.ill_typed(of_crate)
                for one in of_crate:
                    outcome = Outcome("ill-typed") if one in without else self.computed.outcome(one)
                    yield one, self.by_prover(place, one) if outcome.verdict == "left" else outcome

    def by_prover(self, place: Workshop, one: Drawn) -> Outcome:
        """What comes of a change by the prover."""
        return decided(place.tried(one), self.false_laws.get(one.told, ""))

    def try_until(self, changes: Iterator[Drawn], count: int) -> None:
        """Tries changes until so many had a meaning, or there are no more."""
        left = count
        while left and (some := list(islice(changes, left))):
            for one, outcome in self.outcomes(some):
                self.tell(one, outcome)
                left -= outcome.verdict in MEANT

    @property
    def table(self) -> str:
        """The counts of each crate."""
        heads = ["crate", *VERDICTS, "by rows"]
        rows = [[crate, *(str(counts[head]) for head in heads[1:])] for crate, counts in sorted(self.counts.items())]
        return "\n".join("".join(cell.ljust(22 if at == 0 else 12) for at, cell in enumerate(row)).rstrip() for row in [heads, *rows])

    @property
    def told(self) -> str:
        """The counts of all verdicts, and the time of a change."""
        counts: Counter[str] = sum(self.counts.values(), Counter())
        meant = sum(counts[verdict] for verdict in MEANT)
        told = ", ".join(f"{counts[verdict]} {verdict}" for verdict in VERDICTS)
        mean = sum(self.seconds) / len(self.seconds) if self.seconds else 0
        return f"{meant} changes: {told}; {counts['by rows']} by rows; {mean:.1f} s each, {max(self.seconds, default=0):.0f} s at most"

    @property
    def has_survivors(self) -> bool:
        return any(counts["survived"] for counts in self.counts.values())


def print_unpinned(read: dict[str, Module], pins: list[Pin], crates: list[str]) -> None:
    """The definitions of the list that no row rests on, with the laws that do."""
    rows = set().union(*(pin.rests_on for pin in pins if pin.is_rows))
    laws = set().union(*(pin.rests_on for pin in pins if not pin.is_rows))
    none = Change("", 0, (), ())
    of = [Drawn(file, name, none) for file, _, _, name in believed(read) if not crates or file.split("/")[0] in crates]
    without = [one for one in of if one.definition not in rows]
    for one in without:
        print(f"{'laws ' if one.definition in laws else 'code '}{one.file} {one.name}")
    told = sum(one.definition in laws for one in without)
    print(f"{len(of)} definitions, {len(without)} without a row: {told} with laws, {len(without) - told} with the contracts of code alone")


def print_computed(changes: list[Drawn]) -> None:
    """What the computed rows alone say of changes."""
    computed = Computed()
    for one in changes:
        print(f"{computed.outcome(one).told}: {one.told}", flush=True)


def drawings(given: argparse.Namespace, read: dict[str, Module]) -> list[Iterator[Drawn]]:
    """What is tried: the changes from each seed, or those of an earlier run."""
    if given.again:
        return [iter(again(read, given.again.read_text(encoding="utf-8")))]
    of = changes(read, given.crate, (given.definition[0], given.definition[1]) if given.definition else None)
    return [drawn(of, seed) for seed in given.seed or [1]]


def main() -> int:
    given = words()
    read = read_all()
    draws = drawings(given, read)
    if given.list:
        print(*(one.told for draw in draws for one in islice(draw, given.count)), sep="\n")
        return 0
    if given.computed:
        print_computed([one for draw in draws for one in islice(draw, given.count)])
        return 0
    pins = all_pins(read)
    if given.unpinned:
        print_unpinned(read, pins, given.crate)
        return 0
    with TemporaryDirectory() as folder:
        run = Run(pins, Sources(Path(folder), pins), given.above)
        for draw in draws:
            run.try_until(draw, given.count)
    print(run.table, run.told, sep="\n")
    return 1 if run.has_survivors else 0
