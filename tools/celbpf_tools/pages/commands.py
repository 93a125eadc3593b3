"""The commands and sessions of the pages, with what the pages say that they print."""

import os
import re
import shutil
import subprocess
from pathlib import Path
from typing import Any

from ..home import ROOT
from ..playground import module
from .texts import block, read, spans, tables

OF_VAPCTL = "check|audit|state|test|reviews|why|lint|compile|translate|as-reviews|asm"
COMMAND = re.compile(rf"\./(?:celbpf (?:compile|review|run-image|asm|list)|vapctl (?:{OF_VAPCTL})) [^`\n]+")
SESSION = re.compile(r"\./celbpf debug [^`\n]+")
# where pages are
FOLDERS = ("", "docs/", "examples/policies/", "examples/wide/", "crates/*/")
MORE = {"seven lines more": 7, "ten lines more": 10}


class Commands:
    """A folder in which the commands of a page are run as at the top of the repository."""

    def __init__(self, program: Any, gatekeeper: Any, folder: Any):
        self.folder = Path(folder)
        self.program = program
        self.runs = self.differing = 0
        for name, path in ("celbpf", program), ("gatekeeper", gatekeeper):
            os.symlink(path, self.folder / name)
        for name in "examples", "tools", "vapctl":
            os.symlink(ROOT / name, self.folder / name)

    def shell(self, text: str, asked: Any = '') -> Any:
        """The status and both outputs of a text that a shell runs."""
        path = {**os.environ, "PATH": f"{self.folder}:{os.environ['PATH']}", "CELBPF_PROGRAM": str(self.program)}
        # the page of a decision is written here, and not opened: any file does for its module
        path.setdefault(module.GIVEN, str(ROOT / "LICENSE"))
        ended = subprocess.run(text, shell=True, cwd=self.folder, env=path, text=True, input=asked, stdout=subprocess.PIPE,
                               stderr=subprocess.STDOUT, check=False)
        return ended.returncode, ended.stdout

    def tell(self, page: Any, what: Any, is_right: Any, found: Any) -> None:
        self.runs += 1
        if not is_right:
            self.differing += 1
            print(f"{page}: {what}\nfound: {found}", flush=True)

    def sessions(self, page: Any, text: str, setting: Any) -> None:
        """Each table of a session, by the last command above it that begins one."""
        for at, head, rows in tables(text):
            if head[:2] != ["You type", "It answers"]:
                continue
            command, asked, before = setting + SESSION.findall(text[:at])[-1], "", ""
            for line, answer in ((spans(row[0])[0], row[1]) for row in rows):
                asked += f"{line}\n"
                _, said = self.shell(command, asked)
                self.tell(page, f"{command}: {line}", answers(answer, said.removeprefix(before)), said)
                before = said


class Page:
    """A page, the commands in it that were not run yet, and the command of the table that is read."""

    def __init__(self, commands: Any, name: str):
        self.commands = commands
        self.name = name
        self.text = read(name)
        self.one_line = re.sub(r"\s+", " ", self.text)
        self.left = COMMAND.findall(self.text)
        self.setting = ""
        self.command, self.is_shown = "", False
        self.wanted: list[str] = []

    def read_line(self, word: Any, rest: Any, line: Any) -> None:
        """Obeys a line of the table."""
        if word == "with":
            self.setting = f"{rest}; "
        elif word == "file":
            name, first = rest.split(" ", 1)
            (self.commands.folder / name).write_text(block(self.text, first))
        elif word in ("$", "!"):
            self.command, self.is_shown, self.wanted = rest, word == "$", []
        elif word == "block":
            self.wanted.append(block(self.text, rest))
        elif status := re.fullmatch(r"\[([0-9]+)\]", line):
            self.run(int(status.group(1)))
        elif word == "end":
            self.commands.sessions(self.name, self.text, self.setting)
            self.commands.tell(self.name, "commands that are not run", not self.left, self.left)
        else:
            self.wanted.append(line)

    def run(self, status: Any) -> None:
        """Runs the command, or the block that it begins."""
        done = block(self.text, self.command) if self.is_shown else ""
        done = done or self.command
        self.left = [one for one in self.left if one not in done]
        if "jq" in done and not shutil.which("jq"):
            return
        ended, said = self.commands.shell(self.setting + done)
        shown = [self.command, *self.wanted] if self.is_shown else self.wanted
        fits = all(re.sub(r"\s+", " ", one).strip() in self.one_line for one in shown)
        fits = fits and all(one and one in said for one in self.wanted)
        self.commands.tell(self.name, self.command, fits and ended == status, f"{said}[{ended}]")


def run_table(commands: Any, lines: Any) -> None:
    """Runs a table of commands, and sees that each command of its pages is in it."""
    page: Any = None
    named = set()
    for line in lines:
        word, _, rest = line.partition(" ")
        if word == "page":
            page = Page(commands, rest)
            named.add(ROOT / rest)
        else:
            page.read_line(word, rest, line)
    paths = (path for folder in FOLDERS for path in ROOT.glob(f"{folder}*.md"))
    others = [path for path in paths if path not in named and COMMAND.search(path.read_text())]
    commands.tell("pages", "pages with commands that are not in the table", not others, others)


def answers(cell: Any, said: Any) -> Any:
    """Whether a session answered as a cell says: its lines, the last of which may go on, and perhaps more."""
    lines, wanted = said.splitlines(), spans(cell.split(":")[0])
    more = next((many for words, many in MORE.items() if words in cell), 0)
    fits = [line.startswith(one) if " and the " in cell else line == one for line, one in zip(lines, wanted)]
    return all(fits) and len(lines) == len(wanted) + more
