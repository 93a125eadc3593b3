"""A state with reviews, what is due, and what a program answers."""

import re
import subprocess
import tempfile
from dataclasses import dataclass
from dataclasses import field as member
from dataclasses import replace
from pathlib import Path
from typing import Any, Callable, Iterator, Optional

from ..evaluator.cluster import response, starting, state
from ..evaluator.refused import Refused
from ..seeded.numbers import Numbers
from .requests import Requests
from .states import States

SECONDS = 60
REFUSED_START = 3
NOT_A_LIST = re.compile(r"C1 (\d+)")


def file_of(place: Any) -> str:
    """The name of the file of a list."""
    return f"state-{place}.json"


@dataclass
class Case:
    """The lists of a state, whether `--partial` is given, and the reviews."""

    lists: list[Any]
    partial: bool
    reviews: list[Any]

    def words(self, folder: Path) -> list[Any]:
        """Writes the lists into a folder; the arguments that name them there."""
        made: list[Any] = []
        for place, text in enumerate(self.lists):
            (folder / file_of(place)).write_bytes(text)
            made += ["--cluster", file_of(place)]
        return [*made, "--partial"] if self.partial else made


@dataclass
class Answers:
    """The lines that answer the reviews, and those of standard error; or why the state is refused."""

    lines: list[Any]
    refusal: str = ""
    errors: list[Any] = member(default_factory=list)


def cases(numbers: Numbers, reviews: int) -> Iterator[Case]:
    """Cases from a seed; three of four start with `--partial`, since most of these states need it."""
    while True:
        lists, requests = States(numbers).lists(), Requests(numbers)
        yield Case(lists, not numbers.one_in(4), [requests.review() for _ in range(reviews)])


def due(case: Case) -> Answers:
    """What the definition says."""
    try:
        opened = state.opened(case.lists, case.partial)
    except Refused as why:
        line = NOT_A_LIST.sub(lambda found: f"C1 {file_of(found[1])}", why.text)
        return Answers([], why.text, [f"celbpf: {line}"])
    return Answers([response.answer(opened, review) for review in case.reviews], errors=starting.policy_lines(opened))


def found(program: Any, case: Case) -> subprocess.CompletedProcess[bytes]:
    """How a gatekeeper ends that reads the profile, as the evaluator does."""
    with tempfile.TemporaryDirectory() as folder:
        words = [Path(program).resolve(), "--profile", *case.words(Path(folder))]
        lines = b"".join(review + b"\n" for review in case.reviews)
        return subprocess.run(words, input=lines, cwd=folder, capture_output=True, timeout=SECONDS, check=False)


def difference(case: Case, wanted: Answers, ended: subprocess.CompletedProcess[bytes]) -> Optional[str]:
    """The first difference between what is due and how a gatekeeper ended, or None."""
    errors, due_errors = ended.stderr.decode(errors="replace"), "".join(f"{line}\n" for line in wanted.errors)
    if errors != due_errors:
        return f"standard error is {errors!r}\ndue {due_errors!r}"
    if wanted.refusal:
        fits = ended.returncode == REFUSED_START and not ended.stdout
        return None if fits else f"due is a start that is refused\n{shown(ended)}"
    lines = ended.stdout.decode(errors="replace").split("\n")
    for review, line, answer in zip(case.reviews, wanted.lines, lines):
        if line != answer:
            return f"review {review.decode(errors='replace')}\nis  {answer}\ndue {line}"
    if ended.returncode or lines[len(wanted.lines) :] != [""]:
        return f"due are {len(wanted.lines)} lines and status 0\n{shown(ended)}"
    return None


def shown(ended: subprocess.CompletedProcess[bytes]) -> str:
    return f"is {len(ended.stdout)} bytes of output, and status {ended.returncode}"


def smallest(case: Case, differs: Callable[[Case], bool]) -> Case:
    """A part of a case that still differs: with one review if that is enough, and with no list that is not needed."""
    alone = (replace(case, reviews=[review]) for review in case.reviews)
    case = next(filter(differs, alone), case)
    for place in reversed(range(len(case.lists))):
        fewer = replace(case, lists=case.lists[:place] + case.lists[place + 1 :])
        if fewer.lists and differs(fewer):
            case = fewer
    return case
