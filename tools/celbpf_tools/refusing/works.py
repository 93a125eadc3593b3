"""What is run, and which answers are right if memory runs out."""

from collections.abc import Sequence
from dataclasses import dataclass, field
from enum import Enum
from pathlib import Path
from typing import Protocol

from ..home import DATA, EXAMPLES, ROOT
from .runs import Ran, Runs

HERE = DATA / "refused-allocations"
POLICY, REVIEW = EXAMPLES / "replicas" / "policy.json", EXAMPLES / "replicas" / "five.review.json"
GATEKEEPER, CLUSTER = ROOT / "examples" / "gatekeeper", ROOT / "examples" / "cluster"

NO_MEMORY = Ran(3, b"", b"celbpf: memory\n")
LINE = b'{"refused":"memory"}'


class Answer(Enum):
    """What a run answered."""

    AMPLE = "as with ample memory"
    MEMORY = "that memory ran out"
    WRONG = "otherwise"


class Work(Protocol):
    """A work, which is run as often as it makes allocations."""

    def begin(self, runs: Runs) -> None:
        """Runs it with ample memory, so that the last run counts its allocations."""

    def answer(self, runs: Runs, refused: int) -> Answer:
        """What it answers if this allocation is refused."""


@dataclass
class Command:
    """A command of `celbpf`, which answers or writes one line. A file that it writes is there only if it answers."""

    words: Sequence[str | Path]
    written: str = ""
    ample: tuple[Ran, bytes] = field(init=False)

    def ran(self, runs: Runs, refused: int) -> tuple[Ran, bytes]:
        file = runs.folder / (self.written or "none")
        file.unlink(missing_ok=True)
        ran = runs.run(self.words, refused=refused)
        return ran, file.read_bytes() if file.exists() else b""

    def begin(self, runs: Runs) -> None:
        self.ample = self.ran(runs, 0)

    def answer(self, runs: Runs, refused: int) -> Answer:
        found = self.ran(runs, refused)
        if found == self.ample:
            return Answer.AMPLE
        return Answer.MEMORY if found == (NO_MEMORY, b"") else Answer.WRONG


@dataclass
class Session:
    """A session of `celbpf debug`: the line at which memory runs out answers `? memory`, and does nothing."""

    words: Sequence[str | Path]
    lines: list[bytes]
    ample: Ran = field(init=False)
    # what it writes if memory runs out at a line
    cut: set[bytes] = field(init=False)

    def text(self, lines: list[bytes]) -> bytes:
        return b"".join(line + b"\n" for line in lines)

    def cut_at(self, runs: Runs, place: int) -> bytes:
        before, after = self.lines[:place], self.lines[place + 1 :]
        begin = runs.run(self.words, self.text(before)).out
        others = runs.run(self.words, self.text(before + after)).out
        return begin + b"? memory\n" + others[len(begin) :]

    def begin(self, runs: Runs) -> None:
        self.cut = {self.cut_at(runs, place) for place in range(len(self.lines))}
        self.ample = runs.run(self.words, self.text(self.lines))

    def answer(self, runs: Runs, refused: int) -> Answer:
        found = runs.run(self.words, self.text(self.lines), refused)
        if found == self.ample:
            return Answer.AMPLE
        is_cut = found.out in self.cut and (found.status, found.err) == (self.ample.status, self.ample.err)
        return Answer.MEMORY if is_cut or found == NO_MEMORY else Answer.WRONG


@dataclass
class Lines:
    """A gatekeeper: it does not start, or the one line at which memory runs out is refused."""

    words: Sequence[str | Path]
    given: bytes
    ample: Ran = field(init=False)

    def begin(self, runs: Runs) -> None:
        self.ample = runs.run(self.words, self.given)

    def answer(self, runs: Runs, refused: int) -> Answer:
        found = runs.run(self.words, self.given, refused)
        if found == self.ample:
            return Answer.AMPLE
        if found == NO_MEMORY:
            return Answer.MEMORY
        lines, ample = found.out.splitlines(), self.ample.out.splitlines()
        others = [line for line, other in zip(lines, ample) if line != other]
        is_alike = (found.status, found.err, len(lines)) == (self.ample.status, self.ample.err, len(ample))
        return Answer.MEMORY if is_alike and others == [LINE] else Answer.WRONG


@dataclass
class Calls:
    """Calls of the libraries, by a program whose status is 0, or 3 if memory ran out."""

    words: Sequence[str | Path]
    given: bytes

    def begin(self, runs: Runs) -> None:
        if runs.run(self.words, self.given) != Ran(0, b"", b""):
            raise AssertionError("the work fails with ample memory")

    def answer(self, runs: Runs, refused: int) -> Answer:
        found = runs.run(self.words, self.given, refused)
        answers = {Ran(0, b"", b""): Answer.AMPLE, Ran(3, b"", b""): Answer.MEMORY}
        return answers.get(found, Answer.WRONG)


def of_programs(runs: Runs, celbpf: Path, gatekeeper: Path) -> dict[str, Work]:
    """The works of the programs. The images that some begin with are made."""
    image, turns = runs.folder / "policy.img", runs.folder / "turns.img"
    runs.run([celbpf, "compile", POLICY, image])
    runs.run([celbpf, "asm", HERE / "turns.txt", turns])
    few, even = (GATEKEEPER / "policies" / f"{name}.json" for name in ("few", "even"))
    reviews, in_cluster = ((folder / "reviews.jsonl").read_bytes() for folder in (GATEKEEPER, CLUSTER))
    state = CLUSTER / "state.json"
    return {
        "asm": Command([celbpf, "asm", HERE / "turns.txt", "written"], "written"),
        "list": Command([celbpf, "list", image]),
        "run-image": Command([celbpf, "run-image", image]),
        "compile": Command([celbpf, "compile", POLICY, "written"], "written"),
        "review": Command([celbpf, "review", "--policy", POLICY, "--review", REVIEW]),
        "turns": Session([celbpf, "debug", turns], (HERE / "turns").read_bytes().splitlines()),
        "session": Session([celbpf, "debug", image, "--review", REVIEW], (HERE / "policy").read_bytes().splitlines()),
        "gatekeeper": Lines([gatekeeper, "--policy", few, "--policy", even], reviews),
        "wide": Lines([gatekeeper, "--policy", HERE / "wide.json"], reviews),
        "cluster": Lines([gatekeeper, "--cluster", state, "--partial"], in_cluster),
    }
