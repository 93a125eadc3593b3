"""The process of `celbpf debug`, asked line by line."""

import re
import subprocess
from dataclasses import dataclass
from typing import Any, Optional

# a line without a form: its answer marks the end of the answer before it
MARK = b"."
MARKED = b"? what\n"
# the most bytes of an answer's line that are kept
LONGEST = 1_000_000
# the seconds that the process gets to end by itself
PATIENCE = 1.0
MOVE = re.compile(r"step (\d+) pc (-?\d+) (running|exited 0x[0-9a-f]{16}|fault F\d)$")
REFUSALS = {"? range": "the number is out of range", "? memory": "out of memory", "? what": "not a line of the debugger"}


class Ended(Exception):
    """The process has ended; the text is what it said last on standard error."""


class Refused(Exception):
    """The session refused a line; the text says why."""


@dataclass(frozen=True)
class Place:
    """A step of the run: its number, `pc` in slots, and the status as the session writes it."""

    step: int
    pc: int
    status: str

    @property
    def is_running(self) -> bool:
        """Whether the machine can make another step."""
        return self.status == "running"

    @property
    def fault(self) -> Optional[str]:
        """The fault that stopped the machine, as `F3`, or `None`."""
        return self.status.removeprefix("fault ") if self.status.startswith("fault ") else None


def place_in(line: str) -> Place:
    """The place that a line of a move shows."""
    found = MOVE.match(line)
    if not found:
        raise Refused(REFUSALS.get(line, f"an answer of another form: {line[:100]}"))
    return Place(int(found[1]), int(found[2]), found[3])


class Child:
    """A session; after `ended` it answers nothing."""

    def __init__(self, words: list[Any]):
        pipe = subprocess.PIPE
        # a new process group: an interrupt of the terminal is for the adapter, which ends the process itself
        self.process = subprocess.Popen(words, stdin=pipe, stdout=pipe, stderr=pipe, start_new_session=True)
        self.input: Any = self.process.stdin
        self.output: Any = self.process.stdout

    def ask(self, line: str) -> list[str]:
        """The lines of the answer."""
        try:
            self.input.write(line.encode() + b"\n" + MARK + b"\n")
            self.input.flush()
        except (OSError, ValueError) as why:
            raise Ended(self.last_words()) from why
        found = []
        while (said := self.line()) != MARKED:
            found.append(said.rstrip(b"\n").decode("utf-8", "replace"))
        return found

    def line(self) -> bytes:
        """The next line, of a long one its beginning and `..`; what it leaves out is read too."""
        said = self.output.readline(LONGEST)
        if not said:
            raise Ended(self.last_words())
        more = said
        while not more.endswith(b"\n"):
            more = self.output.readline(LONGEST)
            if not more:
                raise Ended(self.last_words())
        return said if said.endswith(b"\n") else said + b"..\n"

    def one(self, line: str) -> str:
        """The answer of one line to a line that is not refused."""
        found = self.ask(line)
        if found and found[0] in REFUSALS:
            raise Refused(REFUSALS[found[0]])
        if len(found) != 1:
            raise Refused(f"an answer of {len(found)} lines to {line}")
        return found[0]

    def many(self, line: str) -> list[str]:
        """The lines of the answer to a line that is not refused."""
        found = self.ask(line)
        if found and found[0] in REFUSALS:
            raise Refused(REFUSALS[found[0]])
        return found

    def move(self, line: str) -> Place:
        """The place after a move."""
        return place_in(self.one(line))

    def last_words(self) -> str:
        """What the process said on standard error, without the program's name; it is waited for."""
        self.close()
        said: Any = self.process.stderr.read() if self.process.stderr and not self.process.stderr.closed else b""
        text = said.decode("utf-8", "replace").strip()
        status = self.process.returncode
        return text or f"celbpf: the session ended with status {status}"

    def close(self) -> None:
        """Ends the process, by the end of its input or else by a signal, and waits for it."""
        for stream in (self.input, self.output):
            try:
                stream.close()
            except OSError:
                pass
        try:
            self.process.wait(PATIENCE)
        except subprocess.TimeoutExpired:
            self.process.kill()
            self.process.wait()

    def end(self) -> None:
        """Ends the process and drops what it said."""
        self.close()
        if self.process.stderr:
            self.process.stderr.close()
