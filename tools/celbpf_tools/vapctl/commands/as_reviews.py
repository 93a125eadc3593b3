"""`vapctl as-reviews`: an admission review of each object, a line each."""

import argparse
import io
import sys

from ..checking import ALL_LEFT_OUT, Sources, add_request_words, prepared, refuse_user, resources_of, stop_at, take_manifests, tell
from ..inputs import Inputs
from ..requests import OPERATIONS
from ..statuses import GOOD, REFUSED

MORE = """The reviews are those that `vapctl check` asks about: each creates an object, as an API server sends it, or changes it if
--old has it. `gatekeeper` answers them, a line each. Their uids are 1, 2 and so on. Without --user they have no
`userInfo`, and an expression that reads it is an error. An object of which no review is made, since its kind is not
known for example, is told on standard error, and the status is then 3."""


def words(parser: argparse.ArgumentParser) -> None:
    """The options of the command."""
    parser.add_argument("manifests", nargs="+", metavar="MANIFESTS", help="files and folders of YAML or JSON; - is standard input")
    parser.add_argument("--cluster", action="append", default=[], metavar="STATE",
                        help="a saved state of a cluster, of which the CustomResourceDefinitions are taken; may be given several times")
    parser.add_argument("--old", action="append", default=[], metavar="F", help="the objects before: a request changes them")
    group = add_request_words(parser)
    group.add_argument("--operation", choices=OPERATIONS,
                       help="of all requests (default: UPDATE of an object that --old has, else CREATE)")
    parser.add_argument("--skip-unknown", action="store_true", help="leave out objects whose kind is not known")
    parser.add_argument("--allow-empty", action="store_true", help="end with 0 if there is no object; without it with 3")


def read(given: argparse.Namespace) -> Sources:
    """Reads all inputs. What cannot be read of a state, or of the objects before, ends the command."""
    inputs = Inputs()
    found = Sources(inputs.things(given.cluster), old=inputs.things(given.old))
    stop_at(inputs.troubles)
    take_manifests(given, found, inputs)
    return found


def run(given: argparse.Namespace) -> int:
    """Prints the reviews, and tells of which objects there is none."""
    refuse_user(given)
    found = read(given)
    made = prepared(given, found, resources_of([*found.cluster, *found.old, *found.new]))
    if isinstance(sys.stdout, io.TextIOWrapper):
        # a review is UTF-8, whatever a terminal has
        sys.stdout.reconfigure(encoding="utf-8")
    for line in made.lines:
        print(line)
    for trouble in found.troubles:
        tell(str(trouble))
    undecided = [one for one in made.results if one.findings]
    for one in undecided:
        tell(f"{one.place}: {one.title}: {one.findings[0].message}")
    if not made.results and not found.troubles and not given.allow_empty:
        tell(f"{ALL_LEFT_OUT if made.left_out else 'there is no object'}; with --allow-empty the status is 0")
        return REFUSED
    return REFUSED if undecided or found.troubles else GOOD
