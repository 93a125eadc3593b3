"""What `check` and `audit` share: objects against the policies of a cluster, or given ones."""

import argparse
import sys
import tempfile
from dataclasses import dataclass, field
from pathlib import Path
from typing import Any, Callable, NoReturn

from ..asking.program import located_gatekeeper
from ..entry import Stop
from ..manifests.kinds import Resources
from ..manifests.spelling import near
from . import unlabelled
from .cluster import NoState, State, is_namespace, namespace_named, of_policies, policy_of, saved, spec_of
from .deciding import Deciding
from .gate import Gate
from .inputs import Inputs, Place, Thing, Trouble
from .no_manifests import passed_over
from .reports.texts import on_line
from .reports.words import refuse_twice
from .requests import Asked, NoReview, Reviews, UnknownKind
from .results import ERROR, UNDECIDED, Finding, Report, Result, listed, plural
from .rules import refuse_rules
from .statuses import REFUSED, WORDS

MADE_HERE = Place("(made here)")
ALL_LEFT_OUT = "the kind of no object is known, so each is left out"
# how a line on a policy ends that is not refused, but whose params have an unknown kind
NO_PARAMS = "(C8)"
# how the message of an expression with an error ends, and that of a match condition with one
ERROR_WORDS = (" resulted in error", "match conditions not decided")


@dataclass
class Sources:
    """The objects that the words of a command name."""

    cluster: list[Thing] = field(default_factory=list)
    policies: list[Thing] = field(default_factory=list)
    params: list[Thing] = field(default_factory=list)
    old: list[Thing] = field(default_factory=list)
    new: list[Thing] = field(default_factory=list)
    troubles: list[Trouble] = field(default_factory=list)


def tell(line: str) -> None:
    """A line on standard error, without what a terminal would obey."""
    print(f"vapctl: {on_line(line)}", file=sys.stderr)


def stop(lines: list[str]) -> NoReturn:
    """Ends the command with these lines on standard error."""
    for line in lines[:-1]:
        tell(line)
    raise Stop(on_line(lines[-1]), REFUSED)


def stop_at(troubles: list[Trouble]) -> None:
    """Ends the command if there are troubles, with a line for each."""
    if troubles:
        stop(list(map(str, troubles)))


def read(given: argparse.Namespace) -> Sources:
    """Reads all inputs. What cannot be read of a state, of policies or of params ends the command."""
    inputs = Inputs()
    found, seen = Sources(inputs.things(given.cluster)), set[str]()
    # a file that is among both has params
    found.params = inputs.things(given.params, seen)
    found.policies = inputs.things(given.policies, seen)
    stop_at(inputs.troubles)
    found.old = inputs.things(given.old)
    stop_at(inputs.troubles)
    take_manifests(given, found, inputs)
    return found


def take_manifests(given: argparse.Namespace, found: Sources, inputs: Inputs) -> None:
    """Reads the manifests, and tells which files of their folders are passed over."""
    inputs.passed.clear()
    found.new, found.troubles = inputs.things(given.manifests), inputs.troubles
    if inputs.passed:
        tell(passed_over(inputs.passed))


def resources_of(things: list[Thing]) -> Resources:
    """The kinds that are built in, and those that are defined among objects."""
    found = Resources()
    found.define([thing.value for thing in things])
    return found


def state_of(given: argparse.Namespace, found: Sources, resources: Resources) -> State:
    """The state of the cluster, or one in which the given policies are bound."""
    refuse_rules([*found.cluster, *found.policies, *found.params])
    if given.cluster:
        state = saved(found.cluster)
        if not state.policies and not state.bindings:
            raise NoState([f"{', '.join(given.cluster)}: no ValidatingAdmissionPolicy and no binding: it is no state of a cluster"])
    else:
        params = [in_namespace(thing, resources, given.namespace) for thing in found.params]
        state = of_policies([in_namespace(thing, resources, given.namespace) for thing in found.policies], params)
        if not state.policies:
            raise NoState(["no ValidatingAdmissionPolicy is among the policies"])
    # what a manifest creates is there when the objects in it are created
    state.add(thing for thing in found.new if is_namespace(thing) and thing.metadata.get("name"))
    if not given.cluster:
        state.add(namespace_named(name, MADE_HERE) for name in sorted(namespaces_of(given, found) - state.namespaces()))
    return state


def in_namespace(thing: Thing, resources: Resources, namespace: str) -> Thing:
    """An object of a kind with namespaces in one, by default this."""
    resource = resources.of(thing.value)
    if resource is None or not resource.namespaced or thing.namespace:
        return thing
    return Thing({**thing.value, "metadata": {**thing.metadata, "namespace": namespace}}, thing.place)


def namespaces_of(given: argparse.Namespace, found: Sources) -> set[str]:
    """The namespaces that requests may have."""
    return {given.namespace, *(thing.namespace for thing in (*found.new, *found.old) if thing.namespace)}


@dataclass
class Prepared:
    """The objects of which there are reviews, with these, the results of the others, and how many are left out."""

    lines: list[str] = field(default_factory=list)
    asked: list[Result] = field(default_factory=list)
    results: list[Result] = field(default_factory=list)
    left_out: int = 0


def add_old(reviews: Reviews, old: list[Thing], skips_unknown: bool = False) -> None:
    """Takes the objects of --old. One that is none ends the command; one whose kind is not known may be left out."""
    for thing in old:
        try:
            reviews.add_old(thing)
        except NoReview as why:
            if not skips_unknown or not isinstance(why, UnknownKind):
                stop_at([Trouble(thing.place, f"{thing.title} of --old: {why}")])


def prepared(given: argparse.Namespace, found: Sources, resources: Resources) -> Prepared:
    """The review of each object. One that has none is not decided, or left out if its kind is not known."""
    reviews = Reviews(resources, Asked(given.namespace, given.operation or "", given.user, given.groups))
    add_old(reviews, found.old, given.skip_unknown)
    made = Prepared()
    for thing in found.new:
        try:
            value, line = reviews.text(thing, str(len(made.results) + 1))
        except UnknownKind as why:
            made.left_out += given.skip_unknown
            if not given.skip_unknown:
                hint = "its CustomResourceDefinition is not among the inputs; --skip-unknown leaves it out"
                made.results.append(undecided(thing, thing.namespace, f"{why}: {hint}"))
            continue
        except NoReview as why:
            made.results.append(undecided(thing, in_namespace(thing, resources, given.namespace).namespace, str(why)))
            continue
        namespace = str(value["metadata"].get("namespace") or "")
        made.results.append(Result(thing, namespace, ""))
        made.asked.append(made.results[-1])
        made.lines.append(line)
    return made


def undecided(thing: Thing, namespace: str, why: str) -> Result:
    """The result of an object of which no review is made."""
    return Result(thing, namespace, UNDECIDED, "", [Finding("", "", ERROR, why)])


def gate_of(given: argparse.Namespace, progress: Callable[[], None]) -> Gate:
    """The gatekeeper that is asked."""
    program = located_gatekeeper(given.gatekeeper, None)
    if program is None:
        raise Stop("there is no program gatekeeper beside the one that CELBPF_PROGRAM names; --gatekeeper names it", REFUSED)
    return Gate(program, given.jobs, progress)


def report_of(given: argparse.Namespace, progress: Callable[[], None] = lambda: None) -> Report:
    """Checks all objects."""
    found = read(given)
    if not found.new and not found.troubles and not given.allow_empty:
        raise Stop("there is no object to check; with --allow-empty the status is 0", REFUSED)
    resources = resources_of([*found.cluster, *found.policies, *found.params, *found.new])
    made = prepared(given, found, resources)
    if made.left_out and not made.results and not found.troubles and not given.allow_empty:
        raise Stop(f"{ALL_LEFT_OUT}; with --allow-empty the status is 0", REFUSED)
    gate = gate_of(given, progress)
    with tempfile.TemporaryDirectory() as folder:
        try:
            deciding = Deciding(gate, state_of(given, found, resources), Path(folder))
        except NoState as why:
            stop(why.lines)
        warn(given, deciding)
        tell_missing(deciding.state, made.asked)
        tell_unlabelled(deciding.state, resources, made.asked)
        for result, answer in zip(made.asked, deciding.decide(made.lines, alone(made.asked, resources))):
            result.outcome, result.message, result.findings = answer
    refused = list(deciding.blocked) if given.policies else []
    report = Report(made.results, found.troubles, deciding.policies, given.fail_on_warn, made.left_out, refused)
    tell_errors(report)
    return report


def alone(asked: list[Result], resources: Resources) -> list[bool]:
    """Of each result whether its resource is one that no API server converts."""
    found = [resources.of(one.thing.value) for one in asked]
    known = {one: one is not None and resources.is_alone(one.group, one.plural) for one in set(found)}
    return [known[one] for one in found]


def tell_errors(report: Report) -> None:
    """Tells what an expression with an error may have read."""
    count = sum(one.message.endswith(ERROR_WORDS) for result in report.results for one in result.findings)
    if count:
        tell(f"{plural(count, 'finding')} of expressions with an error: `vapctl why` shows what they read; an API server adds "
             "defaults first, and this command does not")


def warn(given: argparse.Namespace, deciding: Deciding) -> None:
    """Tells of bindings without a policy, of policies that are refused, and of those that read the user if there is none."""
    if not deciding.policies:
        tell("no policy is bound, so each object is allowed")
    known = {policy.name for policy in deciding.state.policies}
    for binding in deciding.state.bindings:
        if policy_of(binding) not in known:
            meant = near(policy_of(binding), known)
            tell(f"binding {binding.name} has no effect: there is no policy {policy_of(binding)}" + f"; there is {meant}" * bool(meant))
    for name, why in deciding.blocked.items():
        tell(f"policy {name} is not decided: {why}")
    if not all(why.endswith(NO_PARAMS) for why in deciding.blocked.values()):
        tell("`vapctl lint` shows where a policy is refused, and what to write instead")
    for policy in deciding.state.policies if given.user is None else ():
        if policy.name in deciding.policies and "userInfo" in str(spec_of(policy)):
            tell(f"policy {policy.name} reads request.userInfo, which no request has without --user")


def tell_missing(state: State, asked: list[Result]) -> None:
    """Tells which namespaces of objects a saved state does not have."""
    found = sorted({one.namespace for one in asked} - {"", *state.namespaces()})
    if found:
        word = "namespace" if len(found) == 1 else "namespaces"
        tell(f"the state has no {word} {listed(found)}: what a policy matches there is denied, as in a cluster")


def tell_unlabelled(state: State, resources: Resources, asked: list[Result]) -> None:
    """Tells which policies and bindings select namespaces by labels that those that are made here do not have."""
    made = {one.name for one in state.things if is_namespace(one) and one.place == MADE_HERE}
    found = {(resources.of(one.thing.value), one.namespace) for one in asked if one.namespace in made}
    for line in unlabelled.told(state, {(resource, namespace) for resource, namespace in found if resource is not None}):
        tell(line)


def add_request_words(parser: argparse.ArgumentParser) -> Any:
    """The options of requests."""
    group = parser.add_argument_group("requests")
    group.add_argument("-n", "--namespace", default="default", metavar="NAME",
                       help="the namespace of objects that have none (default: default)")
    group.add_argument("--user", metavar="NAME", help="who makes the requests, as `kubectl --as`")
    group.add_argument("--group", action="append", default=[], dest="groups", metavar="NAME",
                       help="a group of the user, as `kubectl --as-group`; may be given several times")
    return group


def add_words(parser: argparse.ArgumentParser, jobs: int = 1) -> None:
    """The options that both commands have; `jobs` is the default number of gatekeepers."""
    which = parser.add_argument_group("policies")
    which.add_argument("--cluster", action="append", default=[], metavar="STATE",
                       help="a saved state of a cluster, as `vapctl state` writes it; may be given several times")
    which.add_argument("--policy", action="append", default=[], dest="policies", metavar="P",
                       help="a policy, or a folder of policies, with their bindings if there are any: a policy without a "
                            "binding denies; may be given several times")
    which.add_argument("--params", action="append", default=[], metavar="F", help="params of the policies of --policy")
    add_request_words(parser)
    other = parser.add_argument_group("other")
    other.add_argument("--skip-unknown", action="store_true", help="leave out objects whose kind is not known")
    other.add_argument("--fail-on-warn", action="store_true", help="end with 1 if there is a warning, as if it were a denial")
    other.add_argument("--allow-empty", action="store_true", help="end with 0 if there is no object; without it with 3")
    other.add_argument("-j", "--jobs", type=count, default=jobs, metavar="N",
                       help=f"the number of gatekeepers (default: {'1' if jobs == 1 else 'that of processors'})")
    other.add_argument("--gatekeeper", metavar="PROGRAM", help="the gatekeeper to ask, if not the one that is installed")


def count(text: str) -> int:
    """A number of processes, at least 1."""
    if not text.isdecimal() or not 1 <= int(text) <= 256:
        raise argparse.ArgumentTypeError(f"{text!r} is no number from 1 to 256")
    return int(text)


def refuse_user(given: argparse.Namespace) -> None:
    """Refuses groups without a user, and names that are empty, as of a variable of the shell that is not set."""
    if given.groups and given.user is None:
        raise Stop("--group needs a --user", WORDS)
    if given.user == "" or "" in given.groups:
        raise Stop("a user or a group has no name", WORDS)
    if not given.namespace:
        raise Stop("the namespace of -n has no name", WORDS)


def refuse_words(given: argparse.Namespace) -> None:
    """Refuses options that do not go together."""
    if given.cluster and given.policies:
        raise Stop("--cluster and --policy do not go together", WORDS)
    if not given.cluster and not given.policies:
        raise Stop("--cluster or --policy is needed, which names the policies", WORDS)
    if given.params and given.cluster:
        raise Stop("--params goes with --policy: the state of --cluster has its params", WORDS)
    refuse_twice(given.output)
    refuse_user(given)
