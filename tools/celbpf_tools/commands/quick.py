"""Compiles a program from its sources without a proof, if it is not up to date, and runs it.

usage: tools/quick celbpf|gatekeeper [-- WORDS..]

`./celbpf` and `./gatekeeper` call it if there is no proved program of the sources as they are. The program is kept as
crates/NAME/out/quick/NAME; without `--` its path is printed. A second call waits for the first. If the toolchain is one
that gives no such program, `rt try` runs the sources with these words, each time anew. Statuses if there is no program
to run: 10 no command rt, 11 the checkout cannot be written, 12 it was stopped, 13 the sources do not compile.
"""

import fcntl
import os
import re
import shutil
import signal
import subprocess
import sys
import tempfile
import time
from contextlib import suppress
from pathlib import Path
from typing import Any, NoReturn, Optional

from ..entry import Stop, usage_of
from ..home import DATA, ROOT, TOOLS, unproved
from ..quick.halves import Differs
from ..quick.native import compiled, kit_of
from ..quick.trying import tried

NO_RT, NOT_WRITTEN, STOPPED, NOT_COMPILED = 10, 11, 12, 13
NAMES = ("celbpf", "gatekeeper")
# what the toolchain's line has if it is the one that the proofs were written for
LOGIC = (DATA / "toolchain").read_text().strip()
# seconds between two lines that say that it goes on
PATIENCE = 30
# a line of an error in a source
OF_SOURCE = re.compile(r"^\S*\bsrc/\S+\.rt:\d+\S* error", re.MULTILINE)
WHAT = "built from these sources without checking their proofs"
HOW = "`tools/build` checks them and builds, about 45 minutes on four processors"


class Builder:
    """Builds the program of a name, and says on standard error how far it is."""

    def __init__(self, name: str):
        self.name = name
        self.crate = ROOT / "crates" / name
        self.program = unproved(name)
        self.record = self.program.parent / "built"
        self.running: tuple[Any, ...] = ()
        self.began = time.monotonic()

    def say(self, line: str) -> None:
        print(f"building {self.name}: {line}", file=sys.stderr, flush=True)

    def taken(self) -> str:
        return f"{time.monotonic() - self.began:.0f} seconds"

    def waited(self, *running: subprocess.Popen[bytes]) -> int:
        """Waits for processes, which can be stopped meanwhile, and says now and then that it goes on; the status of the
        first that failed, or 0."""
        self.running = running
        statuses = [self.status_of(one) for one in running]
        self.running = ()
        return next(filter(None, statuses), 0)

    def status_of(self, running: subprocess.Popen[bytes]) -> int:
        while True:
            try:
                return running.wait(PATIENCE)
            except subprocess.TimeoutExpired:
                self.say(f"still at it after {self.taken()}")

    def ran(self, commands: list[Any], folder: Path, more: dict[str, Any]) -> tuple[Any, ...]:
        """The status of commands that run at once, and what they said."""
        with tempfile.TemporaryFile() as said:
            how: dict[str, Any] = {"stdin": subprocess.DEVNULL, "stdout": said, "stderr": said, "start_new_session": True}
            where: dict[str, Any] = {"cwd": folder, "env": {**os.environ, **more}}
            started = [subprocess.Popen([str(word) for word in words], **where, **how) for words in commands]
            status = self.waited(*started)
            said.seek(0)
            return status, said.read().decode(errors="replace")

    def stop(self, *_: object) -> NoReturn:
        """Ends what runs, when this is told to stop."""
        for one in self.running:
            with suppress(ProcessLookupError):
                os.killpg(one.pid, signal.SIGTERM)
        raise Stop("stopped; the next run builds it", STOPPED)

    def made_from(self) -> tuple[Any, ...]:
        """The digest of what is compiled, and the toolchain."""
        asked = subprocess.run([TOOLS / "sources", self.name], capture_output=True, text=True)
        _, digest, toolchain = asked.stdout.strip().split(" ", 2)
        return digest, toolchain

    def is_made(self, digest: str, toolchain: str) -> bool:
        if not (self.record.is_file() and os.access(self.program, os.X_OK)):
            return False
        made, _, by = self.record.read_text().strip().partition(" ")
        return made == digest and toolchain in ("-", by)

    def build(self) -> None:
        """Builds the program of the sources as they are when this begins, if it is not there."""
        digest, toolchain = self.made_from()
        if self.is_made(digest, toolchain):
            return
        if not shutil.which("rt"):
            raise Stop("there is no command rt in the path; it comes with the toolchain", NO_RT)
        if LOGIC not in toolchain:
            self.say(f"the toolchain is {toolchain}, and the sources were written for one with {LOGIC}")
        self.say(f"it is {WHAT}, in some two minutes; {HOW}")
        # what is stopped may still write there
        with tempfile.TemporaryDirectory(ignore_cleanup_errors=True) as folder:
            made = compiled(self.crate, kit_of("rt"), Path(folder).resolve(), self.ran)
            beside = self.program.with_suffix(".new")
            self.record.unlink(missing_ok=True)
            shutil.copy(made, beside)
            os.replace(beside, self.program)
        self.record.write_text(f"{digest} {toolchain}\n")
        self.say(f"built in {self.taken()}, as {self.program.relative_to(ROOT)}")

    def build_alone(self) -> None:
        """Builds it while no other run does."""
        folder = self.program.parent
        try:
            folder.mkdir(parents=True, exist_ok=True)
            lock = open(folder / "lock", "w")
        except OSError:
            raise Stop(f"the folder {ROOT} cannot be written", NOT_WRITTEN)
        with lock:
            try:
                fcntl.flock(lock, fcntl.LOCK_EX | fcntl.LOCK_NB)
            except BlockingIOError:
                self.say("another run is building it; this one waits")
                fcntl.flock(lock, fcntl.LOCK_EX)
            self.build()

    def run_anew(self, words: list[Any], why: str) -> int:
        """Runs the sources by `rt try`, since the toolchain gives no program; the status."""
        if OF_SOURCE.search(why):
            print(why, end="", file=sys.stderr)
            raise Stop("the sources do not compile; the lines above say why", NOT_COMPILED)
        self.say("this toolchain gives no program to keep; `rt try` runs the sources, in two to three minutes each time")
        status, said = tried(self.crate, words, self.say, self.waited)
        if status is None:
            print(said, end="", file=sys.stderr)
            raise Stop("the sources do not run; the lines above say why", NOT_COMPILED)
        return status


def answered(builder: Builder, words: Optional[list[Any]]) -> Optional[int]:
    """Builds the program, and runs it on the words if there are any."""
    try:
        builder.build_alone()
    except Differs as why:
        return builder.run_anew(words or [], str(why))
    if words is None:
        print(builder.program)
        return 0
    os.environ["CELBPF_BUILT"] = builder.name
    os.execv(ROOT / builder.name, [ROOT / builder.name, *words])


def main() -> Optional[int]:
    given = sys.argv[1:]
    if not given or given[0] not in NAMES or given[1:2] not in ([], ["--"]):
        raise Stop(f"usage: {usage_of(__doc__)}", 2)
    builder = Builder(given[0])
    for signal_of in (signal.SIGINT, signal.SIGTERM, signal.SIGHUP):
        signal.signal(signal_of, builder.stop)
    try:
        return answered(builder, given[2:] if given[1:] else None)
    except Stop as why:
        builder.say(why.line)
        return why.status
