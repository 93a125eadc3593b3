"""The gatekeeper, asked for many reviews at once."""

import json
import subprocess
import threading
from dataclasses import dataclass, field
from pathlib import Path
from typing import Any, Callable, Optional

MEANINGS = {
    "N2": "the review is not read: it lacks kind, resource or operation, is nested too deep or too large, or was converted for a webhook",
    "N3": "a number in the params or the namespace is no 64-bit int",
    "N4": "its program takes more steps than are allowed",
    "N5": "its program takes more memory than is allowed",
    "N6": "its rules name another version or group of the resource, to which a server may convert the request",
    "N7": "its program reads more than is allowed",
    "C7": "the policy is refused: `vapctl lint` shows where",
    "C8": "the kind of its params is not in the state",
    "memory": "memory ran out",
}


@dataclass
class Answer:
    """A line of the gatekeeper: a response, or the code of a refusal with the policy that does not decide."""

    allowed: Optional[bool] = None
    message: str = ""
    warnings: list[str] = field(default_factory=list)
    has_audit: bool = False
    refused: str = ""
    policy: str = ""

    @property
    def is_plain(self) -> bool:
        """Whether it is allowed, and nothing is found."""
        return bool(self.allowed) and not self.warnings and not self.has_audit

    @property
    def why_refused(self) -> str:
        """What a refusal means, with its code."""
        return f"{MEANINGS[self.refused]} ({self.refused})" if self.refused in MEANINGS else self.refused


def answer_of(line: str) -> Answer:
    """What a line says."""
    said = json.loads(line)
    if "refused" in said:
        return Answer(refused=said["refused"], policy=said.get("policy", ""))
    response = said["response"]
    return Answer(
        allowed=response["allowed"], message=response.get("status", {}).get("message", ""),
        warnings=response.get("warnings", []), has_audit="auditAnnotations" in response,
    )


class Asking:
    """A gatekeeper that is asked, and what it has answered so far."""

    def __init__(self, words: list[str], lines: list[str], progress: Callable[[], None]):
        self.words, self.lines, self.progress = words, lines, progress
        self.answers: list[Answer] = []
        self.status = 0

    def run(self) -> None:
        """Sends the lines, and reads the answers."""
        pipe = subprocess.PIPE
        with subprocess.Popen(self.words, encoding="utf-8", stdin=pipe, stdout=pipe, stderr=subprocess.DEVNULL) as process:
            sender = threading.Thread(target=self.send, args=(process.stdin,))
            sender.start()
            for line in process.stdout or ():
                self.answers.append(answer_of(line))
                self.progress()
            sender.join()
        self.status = process.returncode

    def send(self, stdin: Any) -> None:
        """Writes the lines. If the gatekeeper has ended, its missing answers are reported as such."""
        try:
            with stdin:
                for line in self.lines:
                    stdin.write(line + "\n")
        except BrokenPipeError:
            pass

    def result(self) -> list[Answer]:
        """An answer to each line."""
        missing = Answer(refused=f"the gatekeeper ended with status {self.status}")
        return self.answers + [missing] * (len(self.lines) - len(self.answers))


@dataclass
class Gate:
    """The program, and the number of processes among which reviews are divided."""

    program: Path
    jobs: int = 1
    progress: Callable[[], None] = lambda: None

    def started(self, state: Path) -> subprocess.CompletedProcess[str]:
        """A run without a review: standard error has a line for each policy, or why the state is refused."""
        words = [str(self.program), "--cluster", str(state), "--partial"]
        return subprocess.run(words, stdin=subprocess.DEVNULL, capture_output=True, encoding="utf-8", errors="replace", check=False)

    def answers(self, state: Path, lines: list[str]) -> list[Answer]:
        """The answer to each review, under a state."""
        words = [str(self.program), "--cluster", str(state), "--partial"]
        size = max(1, -(-len(lines) // self.jobs))
        parts = [Asking(words, lines[at : at + size], self.progress) for at in range(0, len(lines), size)]
        threads = [threading.Thread(target=part.run) for part in parts]
        for thread in threads:
            thread.start()
        for thread in threads:
            thread.join()
        return [answer for part in parts for answer in part.result()]
