"""`vapctl compile`: the image of a policy's program."""

import argparse
import json
import shutil
import sys
import tempfile
from collections.abc import Iterator
from typing import NoReturn

from ...asking.index_tables import NEEDED
from ...asking.program import NotAnswered
from ...asking.translating import Translating, program_of
from ...entry import Stop
from ..checking import stop_at, tell
from ..cluster import POLICY
from ..inputs import STDIN, Inputs, Thing
from ..linting import Fault, faults, place_of
from ..one_decision import add_programs, named, policy_text
from ..positions import Marks
from ..refusals import words_of_refusal
from ..results import plural
from ..statuses import GOOD, REFUSED, WORDS
from ..wide_linting import wide_faults

MORE = """The image is the one that `celbpf compile` writes of the policy's translation, which `vapctl translate` prints; with
--profile, of the policy itself. `celbpf list` and `celbpf debug` read it. If it reads params with a table of indices, a line
on standard error says so. If the policy is refused, all refusals are shown as `vapctl lint` shows them, and no image is
written."""


def words(parser: argparse.ArgumentParser) -> None:
    """The options of the command."""
    parser.add_argument("policy", metavar="POLICY", help="a file, YAML or JSON, with the policy; - is standard input")
    parser.add_argument("-o", "--output", required=True, metavar="IMAGE", help="the file of the image; - is standard output")
    parser.add_argument("--name", metavar="NAME", help="the policy of this name, if POLICY has several")
    add_programs(parser)


def run(given: argparse.Namespace) -> int:
    """Writes the image, or shows the refusals."""
    if not given.output:
        raise Stop("the image of -o has no name", WORDS)
    inputs = Inputs(keeps_texts=True)
    policy = one_policy(inputs, given)
    with tempfile.TemporaryDirectory() as folder:
        program = program_of(given, folder)
        document = json.loads(policy_text(policy))
        if program.refusal(document):
            marks = Marks(inputs.texts[policy.place.file])
            if isinstance(program, Translating):
                refuse(wide_faults(program.gatekeeper, policy, marks))
            refuse(faults(program, policy, marks))
        try:
            image = program.compiled(document)
        except NotAnswered as why:
            raise Stop(words_of_refusal(why.line), REFUSED) from why
        write(image, given.output)
        if isinstance(program, Translating) and image in program.wrapped:
            tell(f"the program reads {NEEDED}")
    return GOOD


def one_policy(inputs: Inputs, given: argparse.Namespace) -> Thing:
    """The policy of an input, which has to be read whole."""
    things = inputs.things([given.policy])
    stop_at(inputs.troubles)
    return named([thing for thing in things if thing.kind == POLICY], given.name, POLICY, "--name", given.policy)


def refuse(shown: Iterator[Fault]) -> NoReturn:
    """Shows refusals on standard error in the order of the file, as `lint` does, and ends."""
    found = sorted(shown, key=place_of)
    for fault in found:
        print(*fault.lines(), sep="\n", file=sys.stderr)
    raise Stop(f"{plural(len(found), 'refusal')}, and nothing is written", REFUSED)


def write(image: str, to: str) -> None:
    """Copies an image to a file, or to standard output."""
    if to != STDIN:
        shutil.copyfile(image, to)
        return
    with open(image, "rb") as file:
        shutil.copyfileobj(file, sys.stdout.buffer)
