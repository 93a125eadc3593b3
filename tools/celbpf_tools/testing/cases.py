"""Test files, and the cases that they list."""

from dataclasses import dataclass, field
from pathlib import Path
from typing import Any, Iterator, Optional

from ..documents import Unreadable, one_in

NAMES = ("tests.yaml", "tests.yml", "tests.json")
POLICIES = ("policy.json", "policy.yaml", "policy.yml")
# documents that a case has, or its file for all its cases
BESIDE = ("policy", "namespace", "params", "cluster", "steps")
# what a cluster's state has
OF_STATE = ("policy", "namespace", "params")
REVIEW = ("object", "oldObject", "operation", "request")
WANTED = ("expect", "message", "contains", "refusal")
OUTCOMES = ("allowed", "denied")
OPERATIONS = ("CREATE", "UPDATE", "DELETE", "CONNECT")


class Broken(Exception):
    """A test file that says what no test file may."""


@dataclass
class Case:
    """A case: what is asked, and what is wanted.

    `review` is a file or an inline document; `beside` has the documents (a path or a value) and the steps.
    """

    name: str
    file: Path
    review: Any
    beside: dict[str, Any]
    expect: Optional[str] = None
    message: Optional[str] = None
    contains: Optional[str] = None
    refusal: Optional[str] = None


@dataclass
class TestFile:
    """A test file with its cases."""

    path: Path
    cases: list[Any] = field(default_factory=list)


def files_of(places: list[Any]) -> Iterator[Path]:
    """The test files: those that are named, and those in and below the folders that are."""
    for place in map(Path, places):
        if not place.is_dir():
            yield place
            continue
        found = sorted(path for name in NAMES for path in place.rglob(name))
        if not found:
            raise Unreadable(f"{place}: no file {' or '.join(NAMES)} in it or below")
        yield from found


def read(path: Path) -> TestFile:
    """A test file."""
    document = one_in(path)
    if not isinstance(document, dict):
        raise Broken("it is not an object with a list `cases`")
    unknown = [key for key in document if key not in ("cases", *BESIDE)]
    if unknown:
        raise Broken(f"unknown key {unknown[0]}; there are cases, {', '.join(BESIDE)}")
    cases = document.get("cases")
    if not isinstance(cases, list) or not cases:
        raise Broken("`cases` is not a list with a case in it")
    shared = {key: document[key] for key in BESIDE if document.get(key) is not None}
    return TestFile(path, [case_of(path, place, one, shared) for place, one in enumerate(cases)])


def case_of(path: Path, place: int, given: Any, shared: dict[str, Any]) -> Case:
    """The case at this place in the list."""
    where = f"case {place}"
    if not isinstance(given, dict):
        raise Broken(f"{where} is not an object")
    where = f"{where} {given['name']!r}" if isinstance(given.get("name"), str) else where
    allowed = ("name", "review", *REVIEW, *BESIDE, *WANTED)
    for key in given:
        if key not in allowed:
            raise Broken(f"{where}: unknown key {key}; there are {', '.join(allowed)}")
    for key in ("name", "operation", *WANTED):
        if key in given and not isinstance(given[key], str):
            raise Broken(f"{where}: {key} is not a text")
    if given.get("operation", "CREATE") not in OPERATIONS:
        raise Broken(f"{where}: operation is {given['operation']!r}, and not {', '.join(OPERATIONS)}")
    beside = {**shared, **{key: given[key] for key in BESIDE if given.get(key) is not None}}
    if others := [key for key in OF_STATE if key in beside] if "cluster" in beside else []:
        raise Broken(f"{where}: cluster and {others[0]}: a cluster's state has its own")
    if "policy" not in beside and "cluster" not in beside:
        beside["policy"] = policy_beside(path)
    made = Case(given.get("name", f"case {place}"), path, review_of(where, given), beside)
    wanted_of(where, given, made)
    return made


def policy_beside(path: Path) -> str:
    """The name of the policy in the folder of a test file."""
    found = [name for name in POLICIES if (path.parent / name).exists()]
    if not found:
        raise Broken(f"no `policy`, and none of {', '.join(POLICIES)} beside it")
    return found[0]


def review_of(where: str, given: dict[str, Any]) -> Any:
    """The file of a case's review, or its parts."""
    parts = {key: given[key] for key in REVIEW if key in given}
    if "review" in given:
        if parts:
            raise Broken(f"{where}: a review and {next(iter(parts))}: one of the two is enough")
        if not isinstance(given["review"], (str, dict)):
            raise Broken(f"{where}: review is not the name of a file or an object")
        return given["review"]
    if not parts:
        raise Broken(f"{where}: no review, and no object")
    return parts


def wanted_of(where: str, given: dict[str, Any], case: Case) -> None:
    """Puts what is wanted into a case."""
    for key in WANTED:
        setattr(case, key, given.get(key))
    if (case.expect is None) == (case.refusal is None):
        raise Broken(f"{where}: wants one of expect and refusal")
    if case.expect is not None and case.expect not in OUTCOMES:
        raise Broken(f"{where}: expect is {case.expect!r}, and not {' or '.join(OUTCOMES)}")
    if case.expect != "denied" and (case.message is not None or case.contains is not None):
        raise Broken(f"{where}: a message is wanted only where the request is denied")
