"""`vapctl lint`: all refusals of policies."""

import argparse
import json
import sys
import tempfile
from collections.abc import Iterator
from typing import Any, Callable, Optional, TextIO

from ...asking.gatekeeper import Gatekeeper
from ...asking.program import Program, located
from ...asking.translating import gatekeeper_of
from ...entry import Stop
from ..cluster import BINDING, POLICY, is_of, misspelt
from ..inputs import Inputs, Thing, Trouble
from ..linting import Fault, faults, place_of
from ..one_decision import add_programs
from ..positions import Marks
from ..reports.github import command
from ..reports.texts import on_line
from ..reports.words import FormWord, refuse_twice
from ..results import plural
from ..rule_linting import kind_fault, rule_faults
from ..statuses import GOOD, REFUSED
from ..wide_linting import wide_faults

MORE = """Policies are judged as `vapctl` and `gatekeeper` read them (docs/LANGUAGE.md), with --profile as `celbpf` does
(docs/CEL.md). Each refusal has the line and the column in the file, the part of the policy, what is meant, and its code,
and mostly what to write instead. A refusal of the whole document, such as K2, is shown alone."""
FORMS = ("table", "json", "github")


def words(parser: argparse.ArgumentParser) -> None:
    """The options of the command."""
    parser.add_argument("policies", nargs="+", metavar="P", help="files and folders of policies; - is standard input")
    FormWord(FORMS).add_to(parser, "table")
    add_programs(parser)


def asked(given: argparse.Namespace, folder: str) -> Callable[[Thing, Any], Iterator[Fault]]:
    """What shows the refusals of a policy, by the program of the language that is asked for."""
    if given.profile:
        program = Program(located(given.program), folder)
        return lambda policy, marks: faults(program, policy, marks)
    gatekeeper = Gatekeeper(gatekeeper_of(given.gatekeeper, given.program), folder)
    return lambda policy, marks: wide_faults(gatekeeper, policy, marks)


def run(given: argparse.Namespace) -> int:
    """Writes the refusals of each policy."""
    refuse_twice(given.output)
    inputs = Inputs(keeps_texts=True)
    things = inputs.things(given.policies)
    policies = [thing for thing in things if POLICY in (thing.kind, misspelt(thing))]
    bindings = [thing for thing in things if is_of(thing, BINDING) or misspelt(thing) == BINDING]
    marks = {name: Marks(text) for name, text in inputs.texts.items()}
    found: list[Fault] = []
    with tempfile.TemporaryDirectory() as folder:
        shown = asked(given, folder) if policies else None
        for thing in (*policies, *bindings):
            found += sorted(faults_of(thing, marks.get(thing.place.file), shown), key=place_of)
    if not policies and not found and not inputs.troubles:
        raise Stop(f"no {POLICY} is among the inputs", REFUSED)
    refused = {id(fault.policy) for fault in found}
    of_policies, of_bindings = (sum(id(thing) in refused for thing in part) for part in (policies, bindings))
    summed = summary(len(policies), of_policies, of_bindings, len(inputs.troubles))
    for name, file in given.output or [("table", "")]:
        if not file:
            SHOWN[name](found, inputs.troubles, summed, sys.stdout)
            continue
        with open(file, "w", encoding="utf-8") as out:
            SHOWN[name](found, inputs.troubles, summed, out)
    return REFUSED if found or inputs.troubles else GOOD


def faults_of(thing: Thing, marks: Any, shown: Optional[Callable[[Thing, Any], Iterator[Fault]]]) -> Iterator[Fault]:
    """The refusals of a policy or a binding."""
    if meant := misspelt(thing):
        yield kind_fault(thing, meant, marks)
        return
    keys = set[str]()
    for fault in shown(thing, marks) if shown and thing.kind == POLICY else ():
        keys.add(fault.refused.key)
        yield fault
    # what K3 refuses is told once
    yield from (fault for fault in rule_faults(thing, marks) if fault.refused.key not in keys)


def summary(policies: int, refused: int, bindings: int, unread: int) -> str:
    """The numbers on one line; of bindings only those that are refused are counted."""
    told = [f"{policies - refused} accepted"] + [f"{refused} refused"] * bool(refused)
    told += [f"{plural(bindings, 'binding')} refused"] * bool(bindings)
    told += [f"{plural(unread, 'input')} not read"] * bool(unread)
    return f"{policies} {'policy' if policies == 1 else 'policies'}: {', '.join(told)}"


def table(found: list[Fault], troubles: list[Trouble], summed: str, out: TextIO) -> None:
    """A line for each refusal, and its text with carets."""
    for fault in found:
        print(*fault.lines(), sep="\n", file=out)
    for trouble in troubles:
        print(on_line(f"{trouble.place}: not read: {trouble.why}"), file=out)
    print(summed, file=out)


def github(found: list[Fault], troubles: list[Trouble], summed: str, out: TextIO) -> None:
    """An annotation for each refusal."""
    for fault in found:
        message = fault.message + f"; write {fault.hint}" * bool(fault.hint)
        print(command("error", fault.policy.place.file, fault.position.line, fault.policy.name, message), file=out)
    for trouble in troubles:
        print(command("error", trouble.place.file, trouble.place.line, "not read", trouble.why), file=out)
    print(summed, file=out)


def entry(fault: Fault) -> dict[str, Any]:
    """A refusal in JSON."""
    part = fault.refused.part
    piece = {"part": fault.part, "text": part.text[fault.refused.begin : fault.refused.end]} if part else {"part": fault.part}
    where = {"file": fault.policy.place.file, "line": fault.position.line, "column": fault.position.column}
    said = {"policy": fault.policy.name, "code": fault.code, "refusal": fault.refusal, "message": fault.message}
    return {**where, **said, **piece, **({"write": fault.hint} if fault.hint else {})}


def as_json(found: list[Fault], troubles: list[Trouble], _summed: str, out: TextIO) -> None:
    """All refusals, in ASCII."""
    unread = [{"file": one.place.file, "line": one.place.line, "message": one.why} for one in troubles]
    print(json.dumps({"refusals": list(map(entry, found)), "notRead": unread}, indent=2), file=out)


SHOWN = {"table": table, "json": as_json, "github": github}
