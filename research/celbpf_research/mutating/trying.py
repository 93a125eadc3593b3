"""Has the prover check the rows and laws that rest on a changed definition.

Those of its own crate are proved in a copy of the crate and of those below it, over what was proved of them. Where no
row of these fails, so are the rows of crates above, which take the crates below them as sources.
"""

import contextlib
import re
import shutil
import subprocess
import tempfile
import time
from pathlib import Path
from typing import Iterator

from celbpf_tools.entry import Stop
from celbpf_tools.home import ROOT

from . import above
from .drawing import Drawn
from .pins import Pin
from .verdicts import Outcome, judged, refused_files

SECONDS = 600
# what a changed line may name that its file did not, and the module that has it
PRELUDE = "nat_lt nat_le int_lt int_le take drop min max true false bit_and bit_or".split()
NEEDED = {word: f"Prelude.{{{word}}}" for word in PRELUDE} | {word: f"List.{{{word}}}" for word in ("list_any", "list_all")}
NEEDED |= {sign: f"Prelude.{{◌{sign}◌}}" for sign in ("<", "≤", "&&", "||", "×", "⊎", "+", "-", "*", "/", "%", "+ℤ", "-ℤ")}
# has modules of definitions read, whether or not a row or a law rests on them
READER = "//! Reads modules of definitions.\n{uses}\n\n/// Nothing.\npub fn read() {{}}\n"
# a module of definitions that names those below it
NODE = re.compile(r"^(?:pub )?mod \w+$", re.M)
NICE = ["nice", "-n", "10"]


def with_imports(text: str, change: tuple[str, ...]) -> str:
    """The text with imports of the words that changed lines need and it lacks."""
    words = {word for line in change for word in line.split(" = ", 1)[-1].replace("(", " ").replace(")", " ").split()}
    used = "".join(line for line in text.splitlines() if line.startswith("use "))
    for word, module in NEEDED.items():
        name = module.split("{")[1].rstrip("}")
        if word in words and not re.search(rf"(?<![\w◌]){re.escape(name)}(?![\w◌])", used):
            text = re.sub(r"^use ", f"use Rattle.std.specs.{module}\nuse ", text, count=1, flags=re.M)
    return text


def lines_of(root: Path, names: list[str]) -> list[str]:
    """The lines of `crates.txt` of these crates, as rt wants a folder for each line."""
    return [line for line in (root / "crates.txt").read_text().splitlines(True) if line.partition(":")[0].strip() in names]


def output(command: list[str], folder: Path) -> str:
    """What a check in a folder says."""
    it = subprocess.run([*NICE, *command], cwd=folder, capture_output=True, text=True, errors="replace")
    return it.stdout + it.stderr


def ran(command: list[str], folder: Path, seconds: int = SECONDS) -> Outcome:
    """What a check in a folder comes to."""
    began = time.monotonic()
    try:
        it = subprocess.run([*NICE, *command], cwd=folder, capture_output=True, text=True, errors="replace", timeout=seconds)
        outcome = judged(it.stdout + it.stderr, it.returncode)
    except subprocess.TimeoutExpired:
        outcome = Outcome("no answer")
    outcome.seconds = time.monotonic() - began
    return outcome


@contextlib.contextmanager
def changed(path: Path, drawn: Drawn) -> Iterator[None]:
    """The file with the change; afterwards it is as before."""
    whole = path.read_text(encoding="utf-8")
    try:
        path.write_text(with_imports(drawn.change.applied(whole), drawn.change.new), encoding="utf-8")
        yield
    finally:
        path.write_text(whole, encoding="utf-8")


class Sources:
    """A copy of the sources of all crates, in which the rows of crates above are tried."""

    def __init__(self, folder: Path, pins: list[Pin]):
        self.folder, self.of, self.pins = folder, above.dependencies(ROOT), [pin for pin in pins if pin.is_rows]
        for name in self.of:
            for part in ("src", "specs", "proofs"):
                if (ROOT / "crates" / name / part).exists():
                    shutil.copytree(ROOT / "crates" / name / part, folder / "crates" / name / part)

    def check(self, crate: str, kept: Path, paths: list[str]) -> Outcome:
        return ran(above.check(self.of, crate, self.folder / "crates", kept, paths), self.folder / "crates" / crate)

    def begun(self, crate: str) -> Path:
        """What is kept of all rows of a crate as it stands, which a try begins with."""
        kept = self.folder / "kept" / crate
        if not kept.exists():
            kept.parent.mkdir(exist_ok=True)
            if self.check(crate, kept, [pin.path for pin in self.pins if pin.crate == crate]).verdict != "survived":
                raise Stop(f"{crate}: its rows are not proved as they stand", 1)
        return kept

    def nearest(self, drawn: Drawn) -> list[str]:
        """The crates above with rows that rest on the definition, those with the fewest crates below them first."""
        names = {pin.crate for pin in self.pins if drawn.definition in pin.rests_on} - {drawn.crate}
        return sorted(names, key=lambda name: (len(above.below(self.of, name)), name))

    def tried(self, drawn: Drawn, crate: str) -> Outcome:
        """What comes of a change by the rows of a crate above."""
        kept, begun = self.folder / "kept of the try", self.begun(crate)
        subprocess.run(["cp", "-al", str(begun), str(kept)], check=True)
        try:
            with changed(self.folder / "crates" / drawn.file, drawn):
                paths = [pin.path for pin in self.pins if pin.crate == crate and drawn.definition in pin.rests_on]
                return self.check(crate, kept, paths)
        finally:
            shutil.rmtree(kept, ignore_errors=True)


class Workshop:
    """A copy in which changes of one crate are tried, by its own rows and laws and then by rows of so many crates above."""

    def __init__(self, folder: Path, crate: str, pins: list[Pin], sources: Sources, most_above: int):
        self.folder, self.crate, self.sources, self.most_above = folder, crate, sources, most_above
        self.pins = [pin for pin in pins if pin.crate == crate]
        lib = folder / "crates" / crate / "src" / "lib.rt"
        lib.write_text(lib.read_text(encoding="utf-8") + "mod reader_of_definitions;\n", encoding="utf-8")
        self.reader = lib.with_name("reader_of_definitions.rt")

    def read(self, modules: list[str]) -> None:
        """Has these modules read by the next check."""
        uses = "\n".join(f"ghost use {module} as read_{place};" for place, module in enumerate(modules))
        self.reader.write_text(READER.format(uses=uses), encoding="utf-8")

    def ill_typed(self, changes: list[Drawn]) -> set[Drawn]:
        """The changes without a meaning: all are read in one check, each in a copy of its file."""
        folder = self.folder / "crates" / self.crate / "specs"
        names, library = {}, (folder / "Lib.antt").read_text(encoding="utf-8")
        for place, one in enumerate(changes):
            whole = (self.folder / "crates" / one.file).read_text(encoding="utf-8")
            names[f"changed_{place}"] = one
            copy = NODE.sub("", with_imports(one.change.applied(whole), one.change.new))
            (folder / f"changed_{place}.antt").write_text(copy, encoding="utf-8")
        (folder / "Lib.antt").write_text(library + "".join(f"pub mod {name}\n" for name in names), encoding="utf-8")
        self.read([f"Rattle.{self.crate}.specs.{name}" for name in names])
        try:
            words = ["rt", "check", "--jobs", "1", "--only", "reader_of_definitions::read"]
            said = output(words, self.folder / "crates" / self.crate)
        finally:
            (folder / "Lib.antt").write_text(library, encoding="utf-8")
            for name in names:
                (folder / f"{name}.antt").unlink()
        return {names[name] for name in refused_files(said) if name in names}

    def check(self, pins: list[Pin], module: str) -> Outcome:
        """Checks these rows and laws of the crate, and that a module of it has a meaning."""
        self.read([module])
        paths = ["reader_of_definitions::read", *(pin.path for pin in pins)]
        only = [word for path in paths for word in ("--only", path)]
        return ran(["rt", "check", "--jobs", "1", *only], self.folder / "crates" / self.crate)

    def stands(self, module: str) -> bool:
        """Whether all rows and laws of the crate are proved as it stands."""
        return self.check(self.pins, module).verdict == "survived"

    def by_own(self, drawn: Drawn) -> Outcome:
        """What comes of a change by the rows of its crate, and where none fails by its laws, which take longer."""
        resting = [pin for pin in self.pins if drawn.definition in pin.rests_on]
        laws = [pin for pin in resting if not pin.is_rows]
        outcome = self.check([pin for pin in resting if pin.is_rows], drawn.definition[0])
        if outcome.verdict == "survived" and laws:
            seconds = outcome.seconds
            outcome = self.check(laws, drawn.definition[0])
            outcome.seconds += seconds
        return outcome

    def tried(self, drawn: Drawn) -> Outcome:
        """What comes of a change; the copies are then as before."""
        with changed(self.folder / "crates" / drawn.file, drawn):
            outcome = self.by_own(drawn)
        for crate in self.sources.nearest(drawn)[: self.most_above] if outcome.verdict in ("survived", "undecided") else ():
            other = self.sources.tried(drawn, crate)
            outcome.seconds += other.seconds
            if other.rows:
                return Outcome("killed", other.rows, outcome.laws, outcome.seconds)
        return outcome


@contextlib.contextmanager
def workshop(crate: str, pins: list[Pin], sources: Sources, most_above: int) -> Iterator[Workshop]:
    """A copy of a crate and those below it; it is there as long as it is used."""
    with tempfile.TemporaryDirectory() as folder:
        names = [*above.below(above.dependencies(ROOT), crate), crate]
        for name in names:
            subprocess.run(["cp", "-a", "--parents", f"crates/{name}", folder], cwd=ROOT, check=True)
        shutil.copy(ROOT / "HANDLES", folder)
        Path(folder, "crates.txt").write_text("".join(lines_of(ROOT, names)))
        yield Workshop(Path(folder), crate, pins, sources, most_above)
