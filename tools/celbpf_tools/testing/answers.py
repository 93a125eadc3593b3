"""What the programs answer to cases: many by one gatekeeper, and by `celbpf review` what a line cannot say."""

import functools
import json
import subprocess
from dataclasses import dataclass
from pathlib import Path
from typing import Any, Callable, Optional

from ..asking.files import Files
from ..asking.gatekeeper import without_file
from ..asking.program import NotAnswered, Program
from ..asking.translating import Translating
from ..documents import Unreadable, json_fault, one_in, policy_in
from ..manifests.sending import object_sent, with_name_label
from ..vapctl.refusals import meaning_of
from .cases import Case
from .reviews import compact, text_of_review

# the most bytes of a line that a gatekeeper reads
MOST_LINE = 16_777_216
WORDS = {"policy": "--policy", "namespace": "--namespace", "params": "--params", "cluster": "--cluster", "steps": "--steps"}


@dataclass
class Answer:
    """A response's `allowed` and message, or a refusal."""

    allowed: Optional[bool] = None
    message: str = ""
    refusal: str = ""

    @property
    def outcome(self) -> str:
        if self.refusal:
            return f"refused with {self.refusal}"
        return "allowed" if self.allowed else "denied"


def answer_of(text: str) -> Answer:
    """What a line of a gatekeeper, or the output of `celbpf review`, says."""
    said = json.loads(text)
    if "refused" in said:
        return Answer(refusal=said["refused"])
    response = said["response"]
    return Answer(response["allowed"], response.get("status", {}).get("message", ""))


def failures(case: Case, answer: Answer) -> list[Any]:
    """Why an answer is not the wanted one, a line each."""
    if case.refusal is not None:
        wanted = f"refused with {case.refusal}"
        return [] if answer.refusal == case.refusal else [f"wanted {wanted}, got {told(answer)}"]
    if answer.outcome != case.expect:
        return [f"wanted {case.expect}, got {told(answer)}"]
    if case.message is not None and answer.message != case.message:
        return [f"wanted the message {case.message!r}, got {answer.message!r}"]
    if case.contains is not None and case.contains not in answer.message:
        return [f"wanted {case.contains!r} in the message, got {answer.message!r}"]
    return []


def told(answer: Answer) -> str:
    """An answer in words, with its message, or with what a refusal means."""
    if meaning := meaning_of(answer.refusal) if answer.refusal else "":
        return f"{answer.outcome}: {meaning}"
    return f"{answer.outcome}: {answer.message!r}" if answer.message else answer.outcome


def labelled(value: Any) -> Any:
    """A document in which each Namespace, it itself or an item of it as a list, has the label of its name."""
    items = value.get("items") if isinstance(value, dict) else None
    return {**value, "items": list(map(with_name_label, items))} if isinstance(items, list) else with_name_label(value)


class Asked:
    """The files that cases name, as the programs read them: YAML and inline documents become files of JSON."""

    def __init__(self, folder: Path):
        self.folder = folder
        self.files = Files(folder)
        self.made: dict[str, Any] = {}

    def review(self, case: Case) -> str:
        """The text of a case's review."""
        review, at = case.review, case.file.parent
        if isinstance(review, str):
            review, at = self.files.named(at / review), Path()
        return text_of_review(review, case.name, at)

    def file(self, value: Any, at: Path, read: Callable[[Path], Any] = one_in) -> str:
        """The file of a document: a name beside the test file, of which `read` takes one, or an inline document."""
        if isinstance(value, str):
            path = Path(self.files.named(at / value))
            if path.suffix not in (".yaml", ".yml"):
                return self.labelled(str(path))
            value = read(path)
        return self.of_text(compact(labelled(object_sent(value))))

    def beside(self, case: Case, key: str) -> str:
        """The file of a document that a case names. A policy may have its bindings beside it."""
        return self.file(case.beside[key], case.file.parent, policy_in if key == "policy" else one_in)

    def labelled(self, name: str) -> str:
        """A file of JSON, or a copy in which each Namespace has the label of its name."""
        text = Path(name).read_bytes()
        try:
            value = json.loads(text) if b"Namespace" in text else None
        except (ValueError, RecursionError):
            # the program tells what is wrong with it
            return name
        sent = labelled(value)
        return name if sent == value else self.of_text(compact(sent))

    def of_text(self, text: str) -> str:
        """The file of this text."""
        if text not in self.made:
            self.made[text] = self.write(f"document{len(self.made)}.json", text)
        return self.made[text]

    def write(self, name: str, text: str) -> str:
        path = self.folder / name
        path.write_text(text, encoding="utf-8")
        return str(path)

    def words(self, case: Case) -> tuple[Any, ...]:
        """The words that name the documents of a case, but for its review."""
        found = []
        for key, word in WORDS.items():
            value = case.beside.get(key)
            if value is not None:
                found += [word, str(value) if key == "steps" else self.beside(case, key)]
        return tuple(found)


class Programs:
    """The programs; `find` gives the gatekeeper, which with the profile a case with a cluster needs and others use if
    it is there.
    """

    def __init__(self, program: Program, find: Callable[[bool], Optional[Path]], asked: Asked):
        self.program = program
        self.gatekeeper = functools.cache(find)
        self.asked = asked
        self.reading = () if isinstance(program, Translating) else ("--profile",)

    def answers(self, cases: list[Any]) -> list[Any]:
        """The answer to each case, or the `Unreadable` that keeps it from one."""
        found: list[Any] = [None] * len(cases)
        groups: dict[tuple[str, ...], list[tuple[int, str]]] = {}
        for place, case in enumerate(cases):
            try:
                text = self.asked.review(case)
                words = self.asked.words(case)
            except Unreadable as why:
                found[place] = why
                continue
            if self.is_line(text) or "--cluster" in words:
                groups.setdefault(words, []).append((place, text))
            else:
                found[place] = self.review(words, text)
        for asked, lines in groups.items():
            for (place, _), answer in zip(lines, self.stream(asked, [text for _, text in lines])):
                found[place] = answer
        return found

    def is_line(self, text: str) -> bool:
        """Whether a gatekeeper can be asked: a line feed inside a text literal is no JSON, and a blank would be."""
        is_short = len(text.encode("utf-8", "surrogatepass")) < MOST_LINE
        return is_short and bool(text.strip()) and json_fault(text) is None and self.gatekeeper(False) is not None

    def review(self, words: tuple[Any, ...], text: str) -> Answer:
        """What `celbpf review` answers, under the translation of the policy if it is translated."""
        named = {**dict(zip(words[::2], words[1::2])), "--review": self.asked.write("review.json", text)}
        policy = named.pop("--policy")
        try:
            asked = self.program.asked_by(policy, [word for pair in named.items() for word in pair])
        except NotAnswered as why:
            return Answer(refusal=why.line)
        ran = run([self.program.path, "review", *asked])
        if ran.returncode in (0, 1):
            return answer_of(ran.stdout)
        return Answer(refusal=refusal_of(ran))

    def stream(self, words: tuple[Any, ...], texts: list[Any]) -> list[Any]:
        """What one gatekeeper answers to reviews in a row."""
        gatekeeper = self.gatekeeper("--cluster" in words)
        if gatekeeper is None:
            return [Unreadable("a case with a cluster needs the program gatekeeper")] * len(texts)
        lines = "".join(text.replace("\r", " ").replace("\n", " ") + "\n" for text in texts)
        ran = run([gatekeeper, *words, *self.reading], lines)
        answers = ran.stdout.splitlines()
        if ran.returncode == 0 and len(answers) == len(texts):
            return [answer_of(line) for line in answers]
        if ran.returncode == 2 and "--cluster" in words:
            return [Unreadable(f"the gatekeeper does not take its words: {ran.stderr.strip()}")] * len(texts)
        return [Answer(refusal=refusal_of(ran, words))] * len(texts)


def run(words: list[Any], asked: str = "") -> subprocess.CompletedProcess[str]:
    """A run of a program."""
    return subprocess.run([str(word) for word in words], input=asked, capture_output=True, encoding="utf-8", check=False)


def refusal_of(ran: subprocess.CompletedProcess[str], words: tuple[Any, ...] = ()) -> str:
    """The refusal on standard error; a policy's is told without the N1 of `review`, and without the gatekeeper's file."""
    said = without_file(ran.stderr.strip(), words).removeprefix("celbpf: ")
    return said.removeprefix("N1 ") or f"status {ran.returncode} and no word"
