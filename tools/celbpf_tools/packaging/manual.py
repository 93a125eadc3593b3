"""Man pages, of the repository's pages.

A page of the repository is read as far as these pages go: headings, paragraphs, lists, indented and fenced blocks, and
tables, whose rows become items that begin with their first cell.
"""

import re
from typing import Any, Iterator

LINK = re.compile(r"\[([^\]]*)\]\(([^)]*)\)")
CODE = re.compile(r"`` (.+?) ``|`([^`]+)`")
CELL = re.compile(r"(?<!\\)\|")


def escaped(text: str) -> str:
    """A text without what roff would obey."""
    text = text.replace("\\", "\\e").replace("-", "\\-").replace("'", "\\(aq").replace("`", "\\(ga")
    return f"\\&{text}" if text.startswith(".") else text


def inline(text: str) -> str:
    """A text with its code in bold, and links as their words."""
    text = LINK.sub(r"\1", text).replace("\\|", "|").replace("**", "").replace("*", "")
    found, at = [], 0
    for code in CODE.finditer(text):
        found += [escaped(text[at : code.start()]), f"\\fB{escaped(code[1] or code[2])}\\fR"]
        at = code.end()
    made = "".join([*found, escaped(text[at:])])
    return made


def head(name: str, what: str, version: str) -> list[Any]:
    """The head of a page, up to its name."""
    return [f'.TH {name.upper()} 1 "" "celbpf {version}" "celbpf"', ".ad l", ".SH NAME", f"{escaped(name)} \\- {escaped(what)}"]


def rows_of(lines: list[Any]) -> Iterator[str]:
    """The rows of a table as items."""
    for line in lines[2:]:
        first, *others = [cell.strip() for cell in CELL.split(line)[1:-1]]
        yield from (".TP", inline(first) or "\\&", inline("; ".join(filter(None, others))))


class Page:
    """The lines of a page that are not read yet, and a paragraph that has begun."""

    def __init__(self, text: str):
        self.lines = text.split("\n")
        self.paragraph: list[Any] = []

    def ended(self) -> Iterator[str]:
        """The paragraph that has begun, which ends here."""
        if self.paragraph:
            yield ".PP"
            yield inline(" ".join(self.paragraph))
            self.paragraph = []

    def while_next(self, first: str, *starts: str) -> list[Any]:
        """A line and those after it that begin so."""
        found = [first]
        while self.lines and self.lines[0].startswith(starts):
            found.append(self.lines.pop(0))
        return found

    def block(self, line: str) -> Iterator[str]:
        """An indented or a fenced block."""
        found = []
        if line.startswith("```"):
            while self.lines and not self.lines[0].startswith("```"):
                found.append(self.lines.pop(0))
            self.lines = self.lines[1:]
        else:
            found = [line[4:]]
            while self.lines and (self.lines[0].startswith("    ") or not self.lines[0]):
                found.append(self.lines.pop(0)[4:])
        shown = "\n".join(found).strip("\n").split("\n")
        yield from (".PP", ".RS 4", ".nf", *map(escaped, shown), ".fi", ".RE")

    def line(self, line: str) -> Iterator[str]:
        """What a line, and those that belong to it, become."""
        if line.startswith(("    ", "```")) and not self.paragraph:
            yield from self.block(line)
        elif line.startswith(("#", "|", "- ")):
            yield from self.ended()
            yield from self.form(line)
        elif line.strip():
            self.paragraph.append(line.strip())
        else:
            yield from self.ended()

    def form(self, line: str) -> Iterator[str]:
        """A heading, a table or an item of a list."""
        if line.startswith("## "):
            yield f".SH {escaped(line.strip('# ').upper())}"
        elif line.startswith("|"):
            yield from rows_of(self.while_next(line, "|"))
            yield ".PP"
        elif line.startswith("- "):
            item = self.while_next(line[2:], "  ")
            yield from (".IP \\(bu 2", inline(" ".join(part.strip() for part in item)))


def body(text: str) -> Iterator[str]:
    """The text of a page without its first heading."""
    page = Page(text)
    while page.lines:
        yield from page.line(page.lines.pop(0))
    yield from page.ended()


def of_page(name: str, what: str, text: str, version: str) -> str:
    """The man page of a program, of a page of the repository."""
    made = [*head(name, what, version), ".SH DESCRIPTION", *body(text)]
    return "\n".join(line for line in made if line) + "\n"


def section(text: str, title: str) -> str:
    """The section of a page that has this title, with it."""
    found = re.search(rf"^## {re.escape(title)}\n.*?(?=^## |\Z)", text, re.MULTILINE | re.DOTALL)
    return found.group() if found else ""
