"""A gatekeeper that is given many lines, with what each takes."""

import subprocess
from dataclasses import dataclass
from pathlib import Path
from typing import Any

# what a line of at most three mebibytes may take; the second if its program takes all ten million steps
SECONDS, SECONDS_OF_STEPS, MEGABYTES = 0.5, 0.8, 150.0
OUT_OF_STEPS, OUT_OF_READS = '{"refused":"N4"', '{"refused":"N7"'
# a line that takes longer is given up, with the gatekeeper
MOST_SECONDS = 60


@dataclass
class Cost:
    """What a line took, and what was answered; nothing if the gatekeeper ended."""

    seconds: float
    megabytes: float
    answer: str

    @property
    def is_within(self) -> bool:
        """Whether it was answered within the bounds."""
        most = SECONDS_OF_STEPS if self.answer.startswith(OUT_OF_STEPS) else SECONDS
        return self.answer.startswith("{") and self.seconds <= most and self.megabytes <= MEGABYTES

    @property
    def ending(self) -> str:
        """The refusal's code, or how it was decided."""
        if self.answer.startswith('{"refused":"'):
            return self.answer.split('"')[3]
        return "allowed" if '"allowed":true' in self.answer else "denied" if self.answer else "ended"


class Watched:
    """A gatekeeper, whose processor time and greatest memory are read after each line (Linux)."""

    def __init__(self, program: Any, words: list[Any]):
        self.words = [program, *words]
        self.start()

    def start(self) -> None:
        words, pipe = ["prlimit", f"--cpu={MOST_SECONDS * 20}", *self.words], subprocess.PIPE
        self.running: Any = subprocess.Popen(words, stdin=pipe, stdout=pipe, stderr=subprocess.DEVNULL)
        self.folder = Path(f"/proc/{self.running.pid}")

    def seconds(self) -> float:
        """The processor time so far."""
        return int((self.folder / "schedstat").read_text().split()[0]) / 1e9

    def megabytes(self) -> float:
        """The greatest memory since it was asked last."""
        status = (self.folder / "status").read_text()
        (self.folder / "clear_refs").write_text("5")
        return int(status.split("VmHWM:")[1].split()[0]) / 1024

    def give(self, line: bytes) -> Cost:
        """What a line takes, and its answer; without one the gatekeeper has ended, and is started anew."""
        self.megabytes()
        began = self.seconds()
        self.running.stdin.write(line)
        self.running.stdin.flush()
        answer = self.running.stdout.readline()
        if not answer:
            self.end()
            self.start()
            return Cost(float(MOST_SECONDS), 0.0, "")
        return Cost(self.seconds() - began, self.megabytes(), answer.decode())

    def end(self) -> None:
        self.running.stdin.close()
        self.running.stdout.close()
        self.running.kill()
        self.running.wait()

    def __enter__(self) -> "Watched":
        return self

    def __exit__(self, *_: Any) -> None:
        self.end()
