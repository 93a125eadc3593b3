"""Prints what one has to believe of a contract: the definitions of the folders `specs` that it rests on.

usage: tools/belief [FILE NAME | --page [--write]]

FILE is one as review_runner/specs/Program.antt, and NAME a definition of it. Below each file stand the definitions
of it that NAME rests on, itself among them, each with its line and how many lines it has; a star marks one without a
sentence above it. The last line is the total. Without words it prints a total for each contract of docs/READING.md. With
--page it compares the sizes in that page with these, and prints the lines of the page that differ; with --write it
writes the page with the right ones.

Names are followed as they stand and nothing is parsed, so it is near and not exact. What the toolchain declares, and
the types that the code has, are not counted.
"""

import re
import sys
from typing import Any

from ..definitions import modules as read_modules
from ..home import ROOT
from ..pages.sizes import with_lines, with_totals

PAGE = ROOT / "docs" / "READING.md"
CONTRACTS = [
    ("review_runner/specs/Program.antt", "ProgramResult"),
    ("gatekeeper_runner/specs/Program.antt", "GatekeeperResult"),
    ("admission/specs/Deciding.antt", "Reviews"),
    ("admission/specs/Standing.antt", "RunAgrees"),
    ("policy_glue/specs/Compiled.antt", "IsCompiled"),
    ("cel_macros/specs/Meaning.antt", "meaning"),
    ("debugger/specs/Transcript.antt", "IsSession"),
    ("assembler/specs/Answers.antt", "AssembleReturns"),
    ("assembler/specs/Source.antt", "Source"),
    ("disassembler/specs/Answers.antt", "GivesListing"),
]
WIDEST = 140
WORD = re.compile(r"[A-Za-z_][\w\-']*(?:\.[A-Za-z_][\w\-']*)*")


def rests_on(modules: dict[str, Any], file: str, name: str) -> set[Any]:
    """The definitions that one rests on, by their module and their name."""
    found, waiting = set(), [("Rattle." + file.removesuffix(".antt").replace("/", "."), name)]
    while waiting:
        at, name = waiting.pop()
        if at not in modules or (at, name) in found:
            continue
        if name in modules[at].definitions:
            found.add((at, name))
            text = "\n".join(modules[at].definitions[name].lines)
            words = WORD.findall(text) + text.split()
        else:
            words = [name]
        waiting += filter(None, map(modules[at].named, words))
    return found


def print_list(modules: dict[str, Any], found: set[Any]) -> None:
    for at in sorted({at for at, _ in found}):
        of = {name: it for name, it in modules[at].definitions.items() if (at, name) in found}
        print(f"{modules[at].file}: {len(of)} definitions, {sum(len(it.lines) for it in of.values())} lines")
        for name, it in of.items():
            print(f"{it.place:5} {len(it.lines):3} {' ' if it.has_sentence else '*'} {name}")


def sizes(modules: dict[str, Any], found: set[Any]) -> tuple[Any, ...]:
    """How many definitions, lines and files."""
    return len(found), sum(len(modules[at].definitions[name].lines) for at, name in found), len({at for at, _ in found})


def total(modules: dict[str, Any], found: set[Any]) -> str:
    of = [modules[at].definitions[name] for at, name in found]
    definitions, lines, files = sizes(modules, found)
    return (
        f"{definitions} definitions, {lines} lines, {files} files; "
        f"{sum(it.has_sentence for it in of)} with a sentence, "
        f"{sum(len(line) > WIDEST for it in of for line in it.lines)} lines above {WIDEST} columns"
    )


def right_page(modules: dict[str, Any], text: str) -> tuple[Any, ...]:
    """The page with the sizes of the contracts, and what its walk lacks: files that count, or lines of those it has.

    The walk counts for the program, and its last step for the gatekeeper.
    """
    found = {name: rests_on(modules, file, name) for file, name in CONTRACTS}
    counts = {}

    def lines_of(head: str, crate: str, file: str) -> int:
        at = f"Rattle.{crate}.specs.{file.replace('/', '.')}"
        of = found["GatekeeperResult" if "gatekeeper" in head else "ProgramResult"]
        counts[at] = sum(len(modules[at].definitions[name].lines) for module, name in of if module == at)
        return counts[at]

    totals = with_totals(text, {name: sizes(modules, of) for name, of in found.items()})
    right = with_lines(totals, lines_of)
    counted = {at for name in ("ProgramResult", "GatekeeperResult") for at, _ in found[name]}
    lacks = [f"the walk lacks {at}" for at in sorted(counted - set(counts))]
    return right, lacks + [f"the walk has {at}, of which nothing counts" for at in counts if not counts[at]]


def compare_page(modules: dict[str, Any], is_written: bool) -> int:
    text = PAGE.read_text()
    right, lacks = right_page(modules, text)
    differing = [pair for pair in zip(text.splitlines(), right.splitlines()) if pair[0] != pair[1]]
    if is_written:
        PAGE.write_text(right)
    else:
        lacks += [f"page:    {old}\nsources: {new}" for old, new in differing]
    if lacks:
        print(*lacks, sep="\n")
        print("docs/READING.md differs from the definitions; tools/belief --page --write writes the numbers")
        return 1
    print("docs/READING.md has the sizes of the definitions and each file")
    return 0


def main() -> int:
    words = sys.argv[1:]
    modules = {module.name: module for module in read_modules()}
    if words[:1] == ["--page"] and words[1:] in ([], ["--write"]):
        return compare_page(modules, bool(words[1:]))
    if words and (len(words) != 2 or not rests_on(modules, *words)):
        sys.exit(__doc__.split("\n\n")[1] if len(words) != 2 else f"belief: no definition {words[1]} in {words[0]}")
    for file, name in [(words[0], words[1])] if words else CONTRACTS:
        found = rests_on(modules, file, name)
        if words:
            print_list(modules, found)
        print(f"{name} of {file.split('/')[0]}: {total(modules, found)}")
    return 0
