"""`vapctl reviews`: what a policy decides of many reviews."""

import argparse
import json
import tempfile
from collections import Counter
from collections.abc import Iterator
from pathlib import Path
from typing import Any

from ...asking.gatekeeper import Gatekeeper
from ...asking.program import NotAnswered
from ...asking.translating import gatekeeper_of
from ...entry import Stop
from ...manifests.sending import object_sent
from ..checking import stop_at
from ..cluster import POLICY, is_of
from ..gate import answer_of
from ..inputs import Inputs, Thing, Trouble
from ..no_manifests import REVIEW
from ..one_decision import add_programs, named, policy_text
from ..refusals import words_of_refusal
from ..reports.texts import on_line
from ..requests import NoReview, line_of, why_no_ints
from ..results import ALLOWED, DENIED, plural
from ..statuses import BAD, GOOD, REFUSED

MORE = """The policy is asked about each AdmissionReview, whether or not its matchConstraints match, as by `vapctl why` and `vapctl
test`. A line has the file and the line of the review, `allowed`, `denied` or `not decided`, and the message or what is
refused; the last line counts them. In a folder documents that are no reviews are passed over."""
NOT_DECIDED = "not decided"


def words(parser: argparse.ArgumentParser) -> None:
    """The options of the command."""
    parser.add_argument("policy", metavar="POLICY", help="a file, YAML or JSON, with the policy; - is standard input")
    parser.add_argument("reviews", nargs="+", metavar="REVIEWS",
                        help="files and folders of AdmissionReviews, YAML or JSON; - is standard input")
    parser.add_argument("--name", metavar="NAME", help="the policy of this name, if POLICY has several")
    parser.add_argument("--params", metavar="F", help="the params of the policy")
    parser.add_argument("--namespace-object", metavar="F", help="the Namespace that expressions see as namespaceObject")
    add_programs(parser)


class Asked:
    """What the words name: the files of a policy, of params and of a namespace in a folder, and the reviews."""

    def __init__(self, given: argparse.Namespace, folder: Path):
        self.folder, self.inputs = folder, Inputs()
        policies = [one for one in self.read(given.policy) if is_of(one, POLICY)]
        self.words = ["--policy", self.written("policy", policy_text(named(policies, given.name, POLICY, "--name", given.policy)))]
        for key, file in (("namespace", given.namespace_object), ("params", given.params)):
            if file:
                text = json.dumps(object_sent(named(self.read(file), None, key, "", file).value))
                self.words += [f"--{key}", self.written(key, text)]
        self.words += ["--profile"] * given.profile
        self.inputs.is_taken = is_review
        self.reviews = self.inputs.things(given.reviews)

    def read(self, word: str) -> list[Thing]:
        """The objects of an input, which has to be read whole."""
        found = self.inputs.things([word])
        stop_at(self.inputs.troubles)
        return found

    def written(self, name: str, text: str) -> str:
        path = self.folder / f"{name}.json"
        path.write_text(text, encoding="utf-8", errors="surrogatepass")
        return str(path)


def is_review(value: Any) -> bool:
    """Whether a document of a folder is a review; a response is none."""
    return isinstance(value, dict) and value.get("kind") == REVIEW and "request" in value


def line_of_review(review: Thing) -> str:
    """A review on a line."""
    if review.kind != REVIEW:
        raise NoReview("it is no AdmissionReview; `vapctl check` checks manifests")
    request = review.value.get("request")
    if not isinstance(request, dict):
        raise NoReview("the review has no request")
    try:
        return line_of(review.value)
    except ValueError as why:
        raise NoReview(why_no_ints(request) or f"the review is not JSON: {why}") from why


def decided(gatekeeper: Gatekeeper, asked: Asked) -> Iterator[tuple[Thing, str, str]]:
    """Each review with its outcome, and the message or why it is not decided."""
    found: list[tuple[Thing, str]] = []
    lines: list[str] = []
    for review in asked.reviews:
        try:
            lines.append(line_of_review(review))
            found.append((review, ""))
        except NoReview as why:
            found.append((review, str(why)))
    answers = map(answer_of, gatekeeper.answered(*asked.words, line="".join(f"{line}\n" for line in lines)).splitlines())
    for review, fault in found:
        if fault:
            yield review, NOT_DECIDED, fault
            continue
        answer = next(answers)
        if answer.refused:
            numbers = why_no_ints(review.value["request"]) if answer.refused == "N2" else ""
            yield review, NOT_DECIDED, numbers or answer.why_refused
        else:
            yield review, ALLOWED if answer.allowed else DENIED, answer.message


def run(given: argparse.Namespace) -> int:
    """Prints a line for each review, and how many there are of each outcome."""
    with tempfile.TemporaryDirectory() as folder:
        asked = Asked(given, Path(folder))
        if not asked.reviews and not asked.inputs.troubles:
            raise Stop(f"no {REVIEW} is among the inputs", REFUSED)
        gatekeeper = Gatekeeper(gatekeeper_of(given.gatekeeper, given.program), folder)
        try:
            found = list(decided(gatekeeper, asked))
        except NotAnswered as why:
            raise Stop(words_of_refusal(why.line), REFUSED) from why
    for review, outcome, message in found:
        print(on_line(f"{review.place}: {outcome}{': ' if message else ''}{message}"))
    return summed([outcome for _, outcome, _ in found], asked.inputs.troubles)


def summed(outcomes: list[str], troubles: list[Trouble]) -> int:
    """Prints what was not read, and the numbers; the status."""
    for trouble in troubles:
        print(on_line(f"{trouble.place}: not read: {trouble.why}"))
    counts = Counter(outcomes)
    told = [f"{counts[outcome]} {outcome}" for outcome in (ALLOWED, DENIED, NOT_DECIDED)]
    told += [f"{plural(len(troubles), 'input')} not read"] * bool(troubles)
    print(f"{plural(len(outcomes), 'review')}: {', '.join(told)}")
    if counts[NOT_DECIDED] or troubles:
        return REFUSED
    return BAD if counts[DENIED] else GOOD
