"""The files of definitions, cut into definitions with their clauses; what follows a head is read later."""

import re
from dataclasses import dataclass, field
from pathlib import Path
from typing import Any, Callable, Iterator, Optional

from .syntax import STRENGTHS
from .tokens import NotRead, Token, tokens, without_comment

USE = re.compile(r"(?:(?:abbrev|unfoldable|opaque|pub) )*use ([A-Za-z][\w.+\-]*?)(?:\.\{(.*)\})?(?: as (\S+))?$")
MARKS = ("pub", "abbrev", "unfoldable", "opaque")
SIDES = {"infix": "none", "infixl": "left", "infixr": "right"}
PASSED = ("unfolding", "open", "ruleset", "deriving", "mod")
COLON = Token("name", ":")


@dataclass
class Clause:
    """The lines of a clause with its tokens."""

    lines: list[str]
    tokens: list[Token]


@dataclass
class Definition:
    """A function with its clauses, or a type with its parameters and fields.

    `shared` are the parameters around it, and `place` is how many definitions the file has before it.
    """

    kind: str
    name: str
    shared: list[str]
    place: int
    clauses: list[Clause] = field(default_factory=list)
    parameters: list[str] = field(default_factory=list)
    fields: list[tuple[str, list[Token]]] = field(default_factory=list)


def indent(line: str) -> int:
    return len(line) - len(line.lstrip())


def items(lines: list[str], margin: int) -> Iterator[list[str]]:
    """The items of a block: the first line of each stands at the margin, and the others further in."""
    current: list[str] = []
    for line in lines:
        if not line.strip():
            continue
        if current and indent(line) <= margin and not line.lstrip().startswith(("}", ")")):
            yield current
            current = []
        current.append(line)
    if current:
        yield current


def parameters(found: list[Token]) -> list[str]:
    """The names that the round brackets of a head bind, up to its colon or its `where`."""
    names, depth, binds = [], 0, False
    for token in found:
        if token.kind == "mark" and token.value in "({":
            depth += 1
            binds = depth == 1 and token.value == "("
        elif token.kind == "mark" and token.value in ")}":
            depth -= 1
        elif token == COLON:
            if depth == 0:
                break
            binds = False
        elif binds and token.kind == "name":
            names.append(token.value)
    return names


def imported(names: str) -> Iterator[tuple[str, str]]:
    """What a `use` brings: the path below its module and the word for it."""
    for part in names.split(", "):
        path, _, word = part.strip().partition(" as ")
        yield path, word or path.split(".")[-1]


class Source:
    """A file: its definitions, the constructors of its types with the places of these, what its words are imported from, and its operators.

    `strength_of` gives the strength of an operator of another module, or nothing.
    """

    def __init__(self, name: str, path: Optional[Path], text: str, strength_of: Callable[..., Any]):
        self.name, self.path, self.strength_of = name, path, strength_of
        self.definitions: dict[str, Definition] = {}
        self.constructors: dict[str, int] = {}
        self.words: dict[str, tuple[str, Optional[str]]] = {}
        self.strengths = dict(STRENGTHS)
        self.current: Optional[Definition] = None
        self.read([without_comment(line) for line in text.split("\n")], 0, [])

    def read(self, lines: list[str], margin: int, shared: list[str]) -> None:
        for item in items(lines, margin):
            self.item(item, shared)

    def item(self, item: list[str], shared: list[str]) -> None:
        words = item[0].split()
        if use := USE.match(item[0].strip()):
            self.take(*use.groups())
        elif words[0] in SIDES:
            self.strengths |= {sign.strip("◌"): (float(words[1]), SIDES[words[0]]) for sign in words[2:]}
        else:
            while words and words[0] in MARKS:
                words = words[1:]
            self.declaration(item, words, shared)

    def declaration(self, item: list[str], words: list[str], shared: list[str]) -> None:
        if words[:1] == ["mutual"] and len(item) > 1:
            self.read(item[1:], indent(item[1]), shared)
        elif words[:1] == ["module"] and len(item) > 1:
            self.read(item[1:], indent(item[1]), shared + parameters(tokens(" ".join(words[2:]))))
        elif words[:1] in (["data"], ["record"]):
            self.type(item, words, shared)
        elif words and words[0] not in PASSED:
            self.function(item, words, shared)

    def function(self, item: list[str], words: list[str], shared: list[str]) -> None:
        """A signature, or a clause of the function whose signature came last."""
        try:
            found = tokens("\n".join([" ".join(words), *item[1:]]))
        except NotRead:
            return
        at = 1
        if found[1:2] == [Token("mark", "{")]:
            at = found.index(Token("mark", "}")) + 1
        if found[at : at + 1] == [COLON] and found[0].kind == "name":
            name = found[0].value
            self.current = self.definitions.setdefault(name, Definition("function", name, shared, len(self.definitions)))
        elif self.current:
            self.current.clauses.append(Clause(item, found))

    def type(self, item: list[str], words: list[str], shared: list[str]) -> None:
        kind, name, at = words[0], words[1], 0
        while at < len(item) - 1 and not item[at].endswith("where"):
            at += 1
        names = shared + parameters(tokens(" ".join(words[2:])))
        found = Definition(kind, name, shared, len(self.definitions), parameters=names)
        self.definitions[name], self.current = found, None
        rest = item[at + 1 :]
        for member in items(rest, indent(rest[0])) if rest else ():
            text = " ".join(line.strip() for line in member).removeprefix("pub ")
            if kind == "data":
                self.constructors[text.split()[0]] = found.place
            else:
                found.fields.append((text.split()[0], tokens(text)[2:]))

    def take(self, module: str, names: Optional[str], alias: Optional[str]) -> None:
        """What a line `use` imports: a word stands for a name of a module, or for a module."""
        if names is None:
            self.words[alias or module.split(".")[-1]] = (module, None)
        for path, word in imported(names) if names else ():
            *below, name = path.split(".") if "◌" not in path else [path]
            at = ".".join([module, *below])
            self.words[word] = (at, name)
            sign = word.strip("◌")
            if sign != word and "◌" not in sign:
                self.words[sign] = (at, name)
                self.strengths.setdefault(sign, self.strength_of(at, name.strip("◌")) or (60, "left"))
