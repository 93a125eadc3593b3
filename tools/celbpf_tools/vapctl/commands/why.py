"""`vapctl why`: why a policy, or a whole cluster, decides as it does."""

import argparse
import tempfile
from pathlib import Path

from ...asking.program import NotAnswered, located
from ...entry import Stop
from .. import telling
from ..checking import Sources, add_old, gate_of, read, resources_of, state_of, stop, stop_at
from ..cluster import NoState
from ..cluster_why import ClusterWhy
from ..deciding import Deciding
from ..inputs import Inputs, Thing, Trouble
from ..no_manifests import REVIEW
from ..one_decision import Decision, add_words, named
from ..refusals import words_of_refusal
from ..reports.texts import on_line
from ..requests import Asked, NoReview, Reviews, line_of
from ..results import ALLOWED, DENIED
from ..statuses import BAD, GOOD, REFUSED, WORDS

MORE = """Of one policy it prints each part with its value, the parts of what is false with theirs, and what to change. The policy is
asked whether or not its matchConstraints match. Expressions are shown as their author wrote them; --translated also shows
each as it is compiled. With --case the only argument is a test file, or a folder of them, and the case has its policy and
review. With --cluster or --policy the only argument is the review: it prints what each policy does under each of its
bindings, and for those that do not match which rule or selector keeps the request out."""
STATUSES = {ALLOWED: GOOD, DENIED: BAD}


def words(parser: argparse.ArgumentParser) -> None:
    """The options of the command."""
    add_words(parser)
    parser.add_argument("--case", metavar="NAME", help="the case of this name of the test file POLICY, or of one in the folder POLICY")
    parser.add_argument("--html", metavar="F", help="also write a page for a browser, which shows the run step by step")
    parser.add_argument("--translated", action="store_true", help="also show each expression as it is compiled")
    group = parser.add_argument_group("a decision of all policies", "The only argument is then REVIEW.")
    group.add_argument("--cluster", action="append", default=[], metavar="STATE",
                       help="the policies of a saved state of a cluster; may be given several times")
    group.add_argument("--policy", action="append", default=[], dest="policies", metavar="P",
                       help="these policies, bound as by `vapctl check --policy`; may be given several times")


def refuse_words(given: argparse.Namespace) -> None:
    """Refuses options that do not go together."""
    is_whole = bool(given.cluster or given.policies)
    if is_whole and (given.review is not None or given.case is not None):
        raise Stop("with --cluster or --policy a review is the only argument", WORDS)
    if given.cluster and (given.policies or given.params):
        raise Stop("--cluster goes with neither --policy nor --params", WORDS)
    if is_whole and (given.html or given.namespace_object or given.translated or given.profile):
        raise Stop("--html, --namespace-object, --translated and --profile are for one policy", WORDS)
    if given.case is not None and has_own(given):
        raise Stop("a case has its own policy, request, params and namespace", WORDS)
    if given.html and given.profile:
        raise Stop("--html shows a policy as clusters store it, without --profile", WORDS)
    if given.translated and given.profile:
        raise Stop("with --profile nothing is translated", WORDS)
    if not is_whole and (given.case is None) == (given.review is None):
        raise Stop("a policy and a review are needed, or --case and a test file or a folder, or --cluster and a review", WORDS)


def has_own(given: argparse.Namespace) -> bool:
    """Whether words name what a case of a test file has."""
    documents = (given.name, given.object, given.params, given.namespace_object, given.old, given.operation, given.user)
    return any(one is not None for one in documents) or bool(given.definitions or given.groups)


def run(given: argparse.Namespace) -> int:
    """Prints the reason; the status is that of the decision."""
    refuse_words(given)
    with tempfile.TemporaryDirectory() as folder:
        try:
            if given.cluster or given.policies:
                return of_all(given, Path(folder))
            return of_one(given, Path(folder))
        except NotAnswered as refused:
            raise Stop(words_of_refusal(refused.line), REFUSED) from refused


def of_one(given: argparse.Namespace, folder: Path) -> int:
    """The reason of a decision of one policy."""
    return BAD if telling.told(asked(given, folder)) else GOOD


def asked(given: argparse.Namespace, folder: Path) -> argparse.Namespace:
    """The words of the script `why`, with the files of the decision."""
    same = {key: getattr(given, key) for key in ("case", "html", "program", "gatekeeper", "profile", "translated")}
    if given.case is not None:
        return argparse.Namespace(policy=given.policy, review=None, namespace=None, params=None, **same)
    decision = Decision(given, folder)
    return argparse.Namespace(**decision.files, **same, shown=decision.shown, written=decision.written)


def of_all(given: argparse.Namespace, folder: Path) -> int:
    """The reason of a decision of all policies."""
    listed = {key: [value] if value else [] for key, value in (("params", given.params), ("old", given.old))}
    given = argparse.Namespace(**{**vars(given), **listed, "manifests": [given.policy], "jobs": 1})
    found = read(given)
    stop_at(found.troubles)
    review = named(found.new, given.object, "object", "--object")
    line = review_line(given, found, review)
    if review.kind == REVIEW:
        request = review.value.get("request")
        given.namespace = str(isinstance(request, dict) and request.get("namespace") or given.namespace)
    resources = resources_of([*found.cluster, *found.policies, *found.params, *found.new])
    try:
        state = state_of(given, found, resources)
        deciding = Deciding(gate_of(given, lambda: None), state, folder)
    except NoState as fault:
        stop(fault.lines)
    if given.name is not None:
        named(deciding.state.policies, given.name, "ValidatingAdmissionPolicy", "--name")
    shown = ClusterWhy(deciding, line, located(given.program), given.name, resources)
    for one in shown.lines():
        print(on_line(one))
    return STATUSES.get(shown.outcome, REFUSED)


def review_line(given: argparse.Namespace, found: Sources, review: Thing) -> str:
    """The review that is given, or the one of an object."""
    if review.kind == REVIEW:
        return given_line(review)
    defined = [thing for file in given.definitions for thing in read_definitions(file)]
    things = [*found.cluster, *found.policies, *found.params, *found.new, *defined]
    reviews = Reviews(resources_of(things), Asked(given.namespace, given.operation or "", given.user, given.groups))
    add_old(reviews, found.old)
    try:
        return reviews.text(review, "1")[1]
    except NoReview as fault:
        stop_at([Trouble(review.place, f"{review.title}: {fault}")])
        raise


def given_line(review: Thing) -> str:
    """A review that is given, on a line."""
    if not isinstance(review.value.get("request"), dict):
        stop_at([Trouble(review.place, "the review has no request")])
    try:
        return line_of(review.value)
    except (NoReview, ValueError) as fault:
        stop_at([Trouble(review.place, f"the review is not JSON: {fault}")])
        raise


def read_definitions(file: str) -> list[Thing]:
    """The objects of a file, which has to be read whole."""
    inputs = Inputs()
    found = inputs.things([file])
    stop_at(inputs.troubles)
    return found
