"""How many objects of a report are denied and so on, by policy, namespace and kind."""

from collections import Counter
from collections.abc import Callable, Iterator

from .results import ALLOWED, AUDIT, DENY, ERROR, WARN, Finding, Report, Result

# how a policy that does not decide is counted, and an object that is not decided before any is asked
ACTIONS = {DENY: "denied", WARN: "warned", AUDIT: "audited", ERROR: "undecided"}
COLUMNS = ("objects", ALLOWED, *ACTIONS.values())


def actions_of(finding: Finding) -> list[str]:
    """What a finding is counted as."""
    return [finding.action, AUDIT] if finding.is_audited else [finding.action]


def by_policy(report: Report) -> dict[str, Counter[str]]:
    """By policy the number of objects with a finding of each action, also of policies that find nothing."""
    found: dict[str, Counter[str]] = {name: Counter() for name in report.policies}
    for result in report.results:
        for policy, action in dict.fromkeys((one.policy, action) for one in result.findings for action in actions_of(one)):
            if policy:
                found.setdefault(policy, Counter())[ACTIONS[action]] += 1
    return dict(sorted(found.items()))


def states(result: Result) -> Iterator[str]:
    """What an object is counted as: with an outcome, and with warnings and findings for the audit log if it has some."""
    yield "objects"
    yield result.outcome
    actions = {action for one in result.findings for action in actions_of(one)}
    yield from (ACTIONS[action] for action in (WARN, AUDIT) if action in actions)


def grouped(report: Report, key: Callable[[Result], str]) -> dict[str, Counter[str]]:
    """By a key the numbers of objects."""
    found: dict[str, Counter[str]] = {}
    for result in report.results:
        found.setdefault(key(result), Counter()).update(states(result))
    return dict(sorted(found.items()))


def by_namespace(report: Report) -> dict[str, Counter[str]]:
    """By namespace the numbers of objects; those without one are under an empty name."""
    return grouped(report, lambda result: result.namespace)


def by_kind(report: Report) -> dict[str, Counter[str]]:
    """By kind, with its group, the numbers of objects."""
    return grouped(report, lambda result: f"{result.thing.kind}{'.' + result.thing.group if result.thing.group else ''}")
