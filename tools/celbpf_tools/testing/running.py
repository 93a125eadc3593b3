"""Runs tests of policies: which requests they allow, which they deny, and by which message."""

import argparse
import functools
import tempfile
from pathlib import Path
from typing import Any, Iterator, Optional

from ..asking.program import Program, located_gatekeeper
from ..asking.translating import program_of
from ..documents import Unreadable, one_in
from .answers import Asked, Programs, failures
from .cases import Broken, Case, files_of, read
from .coverage import Coverage
from .output import Result


def results_of(places: list[Any], programs: Programs) -> tuple[Any, ...]:
    """The results of all test files, and the files that were read."""
    results, files = [], []
    for place in places:
        try:
            for path in files_of([place]):
                found, file = results_of_file(path, programs)
                results += found
                files += file
        except Unreadable as why:
            results.append(Result(str(place), "", [str(why)], True))
    return results, files


def results_of_file(path: Path, programs: Programs) -> tuple[Any, ...]:
    """The results of a test file's cases, and the file in a list if it was read."""
    try:
        file = read(path)
    except (Unreadable, Broken) as why:
        told = str(why) if isinstance(why, Unreadable) else f"{path}: {why}"
        return [Result(str(path), "", [told], True)], []
    found = []
    for case, answer in zip(file.cases, programs.answers(file.cases)):
        if isinstance(answer, Unreadable):
            found.append(Result(str(path), case.name, [str(answer)], True))
        else:
            found.append(Result(str(path), case.name, failures(case, answer)))
    return found, [file]


def covered(files: list[Any], program: Program, asked: Asked) -> Iterator[str]:
    """The lines of the coverage of each policy by the cases of all files."""
    policies: dict[str, Any] = {}
    for case in (case for file in files for case in file.cases):
        try:
            words = asked.words(case)
            review = asked.write("covered.json", asked.review(case))
        except Unreadable:
            continue
        named = dict(zip(words[::2], words[1::2]))
        path = named.get("--policy")
        if path and path not in policies:
            policies[path] = coverage_of(case, path, program)
        if path and policies[path]:
            beside = [word for key in ("--namespace", "--params") if key in named for word in (key, named[key])]
            policies[path].add(["--review", review, *beside])
    for coverage in policies.values():
        yield from coverage.lines() if coverage else ()


def policy_in(path: str) -> Optional[dict[str, Any]]:
    """What a policy's document says, or `None` if it is not read."""
    try:
        return one_in(Path(path))
    except Unreadable:
        return None


def coverage_of(case: Case, path: str, program: Program) -> Optional[Coverage]:
    """The coverage of a case's policy, with nothing reached; `None` if the policy is refused."""
    policy = policy_in(path)
    if policy is None or program.refusal(path):
        return None
    shown = case.beside["policy"]
    return Coverage(str(case.file.parent / shown if isinstance(shown, str) else case.file), policy, program)


def status_of(results: list[Any]) -> int:
    if any(result.is_unread for result in results):
        return 3
    return 1 if any(result.failures for result in results) else 0


def outcome(given: argparse.Namespace) -> tuple[Any, ...]:
    """The results of all tests, and the lines about them: the coverage, and how many passed."""
    find = functools.partial(located_gatekeeper, given.gatekeeper, given.program)
    with tempfile.TemporaryDirectory() as folder:
        asked, program = Asked(Path(folder)), program_of(given, folder)
        results, files = results_of(given.places, Programs(program, find, asked))
        notes = list(covered(files, program, asked)) if given.coverage else []
    failed = sum(bool(result.failures) for result in results)
    notes.append(f"{len(results) - failed} of {len(results)} passed")
    return results, notes
