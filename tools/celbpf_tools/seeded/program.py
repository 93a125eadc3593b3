"""Runs of the built program on documents in a folder."""

import subprocess
from typing import Any

SECONDS = 60
MOST_STEPS_A_LINE = 1_000_000


class Program:
    """The built program at a path, with a folder for its files."""

    def __init__(self, path: Any, folder: str):
        self.path = path
        self.folder = folder

    def run(self, *words: str, lines: str = '') -> tuple[Any, ...]:
        """The status and both outputs of one run."""
        ended = subprocess.run(
            [self.path, *words], input=lines.encode(), capture_output=True, cwd=self.folder, timeout=SECONDS
        )
        return ended.returncode, ended.stdout.decode(), ended.stderr.decode()

    def hold(self, case: Any) -> list[Any]:
        """Writes the documents of a case, and answers the words that name those of the review."""
        words = []
        for name in ("review", "namespace", "params"):
            document = getattr(case, name)
            if document is not None:
                words += [f"--{name}", f"{name}.json"]
                self.write(f"{name}.json", document)
        self.write("policy.json", case.policy)
        return words

    def write(self, name: str, document: bytes) -> None:
        with open(f"{self.folder}/{name}", "wb") as file:
            file.write(document)

    def review(self, words: list[Any], steps: int) -> tuple[Any, ...]:
        """What reviewing the documents that are held ends with, within so many steps."""
        return self.run("review", "--policy", "policy.json", *words, "--steps", str(steps))

    def session(self, words: list[Any], steps: int) -> tuple[Any, ...]:
        """In a session on the held policy's program, the last move's line, and those of `w` behind it."""
        self.run("compile", "policy.json", "policy.img")
        moves = -(-steps // MOST_STEPS_A_LINE)
        status, out, err = self.run(
            "debug", "policy.img", *words, lines=f"c {MOST_STEPS_A_LINE}\n" * moves + "w\n"
        )
        if status or err:
            return f"status {status}", []
        answers = out.splitlines()
        return answers[moves - 1], answers[moves:]
