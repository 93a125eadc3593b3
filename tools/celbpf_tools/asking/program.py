"""Runs of the built program."""

import copy
import json
import os
import subprocess
import sys
from pathlib import Path
from typing import Any, Optional

from ..entry import FILE, Stop
from ..home import ROOT, TOOLS, built, installed, is_checkout, unproved

# the statuses of refusals
REFUSALS = range(2, 5)
# names the program to use, where no word does
GIVEN = "CELBPF_PROGRAM"
# what the launcher's line of --version has for a program whose proofs were not checked
NOT_PROVED = ", not proved: "
# the most steps of one line of a session, and how many such lines are as many as a review may take
LINE_STEPS = 1_000_000
LINES = 10
TO_THE_END = f"c {LINE_STEPS}\n" * LINES + "w\nq\n"
# where a compiled policy puts what its validation 0 came to
RESULT = "stdw [r1+8], 2"
# how many slots behind the expression it stands
BEHIND = 4
# the most characters of a value that are read
MOST_SHOWN = 100_000


class NotAnswered(Exception):
    """The program refused what it was asked; `line` is what it said, without `celbpf: `."""

    def __init__(self, ran: subprocess.CompletedProcess[str]):
        self.line = ran.stderr.removeprefix("celbpf: ").rstrip("\n") or f"status {ran.returncode} and no word"
        # 0 and 1 are decisions
        self.status = ran.returncode if ran.returncode in REFUSALS else FILE
        super().__init__(self.line)


def located(given: Optional[str]) -> Path:
    """The program that was given, or the repository's as its launcher runs it."""
    given = given or os.environ.get(GIVEN)
    if given:
        return usable(given)
    if not is_checkout():
        return installed_one("celbpf")
    return current("celbpf")


def located_gatekeeper(given: Optional[str], celbpf: Optional[str], builds: bool = True) -> Optional[Path]:
    """The gatekeeper that was given, or the one beside the given program if there is one, or the repository's.

    If there is none in the repository, it is built or, without `builds`, `None`.
    """
    if given:
        return usable(given)
    celbpf = celbpf or os.environ.get(GIVEN)
    if celbpf:
        program = Path(celbpf).resolve()
        own = {place("celbpf").resolve(): place("gatekeeper") for place in (built, unproved)}
        beside = own.get(program, program.parent / "gatekeeper")
        return beside if os.access(beside, os.X_OK) else None
    if not is_checkout():
        return installed_one("gatekeeper")
    is_there = any(place("gatekeeper").is_file() for place in (built, unproved))
    return current("gatekeeper") if builds or is_there else None


def usable(given: str) -> Path:
    """A program that can be run."""
    program = Path(given).resolve()
    if not (program.is_file() and os.access(program, os.X_OK)):
        raise Stop(f"{given}: not a program that can be run", 2)
    return program


def installed_one(name: str) -> Path:
    """The installed program of this name."""
    found = installed(name)
    if not found:
        raise Stop(f"there is no program {name} in the path", 10)
    return Path(found)


def told_by(words: list[Any]) -> str:
    """What a command of the repository prints; it ends the script if it fails."""
    ended = subprocess.run(words, stdin=subprocess.DEVNULL, stdout=subprocess.PIPE, text=True)
    if ended.returncode:
        sys.exit(ended.returncode)
    return ended.stdout.strip()


def current(name: str) -> Path:
    """The program that the launcher runs: the proved one if it is up to date, or else one that it builds if need be."""
    return unproved(name) if NOT_PROVED in told_by([ROOT / name, "--version"]) else built(name)


def proved(name: str) -> Path:
    """The proved program, which is proved and built first if it is not up to date."""
    told_by([TOOLS / "build"])
    return built(name)


def tested(given: Optional[str], name: str = "celbpf") -> Path:
    """The program that a test is given: by its path, by `--quick` the one without a proof, or else the proved one."""
    if given == "--quick":
        return Path(told_by([TOOLS / "quick", name]))
    given = given or os.environ.get(GIVEN)
    return usable(given) if given else proved(name)


class Program:
    """The program, and a folder for the files that it is run on; `documents` are words such as `--review F`."""

    def __init__(self, path: Path, folder: str, documents: Any = ()):
        self.path = path
        self.folder = folder
        self.documents = [str(word) for word in documents]
        self.kept = 0

    def run(self, *words: str) -> subprocess.CompletedProcess[str]:
        """A run whose status was one that the program has."""
        ran = subprocess.run([self.path, *words], capture_output=True, text=True)
        if ran.returncode not in range(5):
            raise Stop(f"the program ended with status {ran.returncode} on {' '.join(map(str, words))}")
        return ran

    def file(self, policy: Any) -> str:
        """The file of a policy, which is a path or what the document says."""
        if not isinstance(policy, dict):
            return policy
        path = os.path.join(self.folder, "policy.json")
        with open(path, "w") as file:
            json.dump(policy, file)
        return path

    def seen(self, kind: str, documents: Any) -> Any:
        """Those of these documents that parts of a kind see."""
        return documents

    def of(self, kind: str) -> "Program":
        """The program over the documents that parts of a kind see."""
        made = copy.copy(self)
        made.documents = self.seen(kind, self.documents)
        return made

    def document(self, policy: Any) -> dict[str, Any]:
        """What the policy's document says that is compiled."""
        return policy if isinstance(policy, dict) else json.loads(Path(policy).read_text(encoding="utf-8"))

    def refusal(self, policy: Any) -> str:
        """What `compile` says to a policy, as `K6 validation 0 Y2`; empty where it is accepted."""
        ran = self.run("compile", self.file(policy), self.image())
        return NotAnswered(ran).line if ran.returncode else ""

    def image(self) -> str:
        return os.path.join(self.folder, "policy.img")

    def compiled(self, policy: Any) -> str:
        """The image of a policy that is accepted."""
        ran = self.run("compile", self.file(policy), self.image())
        if ran.returncode:
            raise NotAnswered(ran)
        return self.image()

    def given_to(self, image: str) -> list[str]:
        """The words of the documents on which an image's program runs."""
        return self.documents

    def asked_by(self, policy: Any, documents: Any) -> list[str]:
        """The words by which `celbpf review` is asked for a policy's response: what is compiled, and what that runs on."""
        return ["--policy", self.file(policy), *documents]

    def response(self, policy: Any) -> dict[str, Any]:
        """The response to the review under a policy."""
        ran = self.run("review", *self.asked_by(policy, self.documents))
        if ran.returncode > 1:
            raise NotAnswered(ran)
        return json.loads(ran.stdout)["response"]

    def kept_image(self, policy: Any) -> Any:
        """The image of a policy that is accepted, in a file of its own."""
        self.kept += 1
        kept = os.path.join(self.folder, f"kept{self.kept}.img")
        os.replace(self.compiled(policy), kept)
        return kept

    def session(self, image: str) -> "Session":
        return Session([self.path, "debug", image, *self.given_to(image)])

    def shown_verdict(self, image: Any, documents: Any) -> Any:
        """The lines of `w` at the end of an image's program, over these documents."""
        self.documents = [str(word) for word in documents]
        ran = subprocess.run(
            [self.path, "debug", image, *self.given_to(image)], input=TO_THE_END, capture_output=True, text=True
        )
        if ran.returncode:
            raise NotAnswered(ran)
        return [line for line in ran.stdout.splitlines() if not line.startswith("step ")]

    def verdict(self, policy: str) -> list[Any]:
        """The lines of `w` at the end of a policy's program."""
        with self.session(self.compiled(policy)) as session:
            session.go()
            return session.ask("w", until="q").splitlines()

    def value(self, policy: dict[str, Any]) -> str:
        """What the first validation of a policy with one validation and no message came to, as `v` shows it."""
        return self.shown(*self.asked(policy))

    def asked(self, policy: dict[str, Any]) -> tuple[Any, ...]:
        """The image of a policy with one validation and no message, and the slot behind its expression."""
        image = self.compiled(policy)
        return image, behind_expression(self.run("list", image).stdout)

    def shown(self, image: str, slot: int) -> str:
        """What the expression before a slot came to, over the documents."""
        with self.session(image) as session:
            session.ask(f"b {slot}")
            move = session.go()
            if f" pc {slot} running" not in move:
                raise NotAnswered(subprocess.CompletedProcess([], 4, "", f"the session answered {move}"))
            named = int(session.ask("r").split()[1], 16)
            for _ in range(10):
                session.line()
            shown = session.ask(f"v {named}")
            return shown.split(" ", 2)[2] if shown.startswith("value ") else "error"


def behind_expression(listing: str) -> int:
    """The slot behind the expression of the one validation."""
    slot, found = 0, 0
    for line in listing.splitlines():
        if line == RESULT:
            found = slot - BEHIND
        slot += 2 if line.startswith("lddw") else 1
    return found


class Session:
    """A session of the debugger, asked line by line."""

    def __init__(self, words: list[Any]):
        pipe = subprocess.PIPE
        self.process: Any = subprocess.Popen(words, stdin=pipe, stdout=pipe, stderr=pipe, text=True, bufsize=1)

    def __enter__(self) -> "Session":
        return self

    def __exit__(self, *_: object) -> None:
        self.process.kill()
        self.process.communicate()

    def line(self) -> str:
        """The next line, or as much of it as is read."""
        said = self.process.stdout.readline(MOST_SHOWN)
        if not said:
            _, err = self.process.communicate()
            raise NotAnswered(subprocess.CompletedProcess([], self.process.returncode, "", err))
        return said.rstrip("\n")

    def ask(self, asked: str, until: str = '') -> str:
        """The first line of the answer, or the whole of it where `until` ends the session."""
        try:
            self.process.stdin.write(f"{asked}\n{until}\n" if until else f"{asked}\n")
            self.process.stdin.flush()
        except BrokenPipeError:
            pass
        return self.process.stdout.read() if until else self.line()

    def go(self) -> str:
        """Goes on to a breakpoint or to the end; the line of the move."""
        for _ in range(LINES):
            before = self.ask(f"c {LINE_STEPS}")
            if not before.endswith(" running") or int(before.split()[1]) % LINE_STEPS:
                break
        return before
