"""Runs of the built gatekeeper on one policy."""

import json
import subprocess
from collections.abc import Iterable
from typing import Any, Optional

from ..documents import json_fault
from ..entry import Stop
from .program import NotAnswered, Program

REFUSED = 3
# how the line of a refusal begins; a gatekeeper's goes on with the name of the file, if the refusal is of one
REFUSAL = "celbpf: "
# the refusals of a run that was not finished, and their status
NOT_FINISHED, UNFINISHED = ("N4", "N5", "N7"), 4
# the most bytes of a line that a gatekeeper reads
MOST_LINE = 16_777_216


class Gatekeeper(Program):
    """The gatekeeper, and a folder for the files that it is run on."""

    def answered(self, *words: str, line: str = "") -> str:
        """What it prints on a line, or without one."""
        ran = subprocess.run([self.path, *words], input=line, capture_output=True, encoding="utf-8")
        if ran.returncode not in (0, REFUSED):
            raise Stop(f"the gatekeeper ended with status {ran.returncode}: {ran.stderr.strip()}")
        if ran.returncode:
            raise NotAnswered(subprocess.CompletedProcess(ran.args, ran.returncode, ran.stdout, without_file(ran.stderr, words)))
        return ran.stdout

    def refusal(self, policy: Any) -> str:
        """What it says at its start, as `K6 validation 0 W5 url`; empty if it starts."""
        try:
            self.answered("--policy", self.file(policy))
        except NotAnswered as why:
            return why.line
        return ""

    def translation(self, policy: Any) -> str:
        """The translation of a policy that it accepts, as it prints it."""
        return self.answered("--translate", self.file(policy))

    def decision(self, policy: Any, line: str, beside: list[Any]) -> dict[str, Any]:
        """Its response to a review on a line; `beside` names the other documents."""
        said = json.loads(self.answered("--policy", self.file(policy), *beside, line=line))
        if "refused" in said:
            status = UNFINISHED if said["refused"] in NOT_FINISHED else REFUSED
            raise NotAnswered(subprocess.CompletedProcess([], status, "", f"celbpf: {said['refused']}"))
        return said["response"]


def without_file(line: str, words: Iterable[Any]) -> str:
    """A line of standard error without the file that it names, if that is one of these words."""
    for word in words:
        front = f"{REFUSAL}{word}: "
        if line.startswith(front):
            return REFUSAL + line.removeprefix(front)
    return line


def line_of(text: bytes) -> Optional[str]:
    """A review on one line; `None` if a gatekeeper does not read it as one."""
    if len(text) >= MOST_LINE or not text.strip():
        return None
    try:
        line = text.decode()
    except UnicodeDecodeError:
        return None
    return None if json_fault(line) else line.replace("\r", " ").replace("\n", " ") + "\n"
