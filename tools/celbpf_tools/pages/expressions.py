"""The expressions of docs/CEL.md, with what the page says that they come to."""

import re
from typing import Any

from ..asking import policies
from .texts import read, spans, tables

EXAMPLE = re.compile(r"`([^`]+)`(?: is `([^`]+)`|(?: is)? (the error|true|false|refused|[A-Z]\w+|-?[0-9]+))?")
PROBES = {"Bool": "true", "Int": "1", "String": "'a'", "Null": "null", "List": "[]", "Map": "{}"}
MOST_NODES, MOST_NEED = 512, 60


class Expressions:
    """The program, and how many examples were compared."""

    def __init__(self, program: Any):
        self.program = program
        self.compared = 0
        self.differing = 0

    def same(self, page: Any, text: str, wanted: Any, found: Any) -> None:
        self.compared += 1
        if wanted != found:
            self.differing += 1
            print(f"{page}: {text}\nwanted: {wanted}\nfound: {found}", flush=True)

    def cause(self, text: str) -> Any:
        """Why a variable of this expression is refused; empty where it is not."""
        return self.program.refusal(policies.as_variable([], text)).removeprefix("K6 variable 0 ")

    def of_type(self, text: str) -> Any:
        if refusal := self.cause(text):
            return "refused" if refusal == "Y2" else refusal
        fitting = [name for name, probe in PROBES.items() if not self.cause(f"({text}) == {probe}")]
        return fitting[0] if len(fitting) == 1 else "Dyn"

    def value(self, text: str) -> Any:
        return self.program.value(policies.asking([], text))

    def examples(self, page: Any, cell: Any) -> None:
        """An example cell: values, types and refused expressions."""
        word = ""
        for text, code, said in EXAMPLE.findall(cell):
            word = said or word
            if code:
                self.same(page, text, self.value(code), self.value(text))
            elif word == "refused" or word in PROBES or word == "Dyn":
                self.same(page, text, word, self.of_type(text))
            else:
                self.same(page, text, word.removeprefix("the "), self.value(text))

    def measures(self, page: Any, text: str) -> None:
        """`E` needs N and `E` has N: the greatest policies with E are accepted, and those one larger are not."""
        for inner, kind, number in re.findall(r"`([^`]+)` (needs|has) ([0-9]+)", text):
            made = nested if kind == "needs" else filled
            refusals = [self.program.refusal(made(inner, int(number), more)) for more in (0, 1)]
            wanted = ["", "K6 validation 0 G1" if kind == "needs" else "G3"]
            self.same(page, inner, wanted, refusals)

    def cel(self) -> None:
        page = "docs/CEL.md"
        text = read(page)
        for _, head, rows in tables(text):
            for row in rows if head[-1] == "Example" else []:
                if head[0] == "Refusal":
                    for one in spans(row[-1]):
                        self.same(page, one, row[0], self.cause(one).split(" ")[0])
                elif "needs" not in row[-1]:
                    self.examples(page, row[-1])
        for one, number in re.findall(r"`([^`]+)` is ([PMY][0-9])", text):
            self.same(page, one, number, self.cause(one))
        self.measures(page, text)


def nested(text: str, need: Any, more: Any) -> Any:
    """A policy that needs as many words as it may, or more of them, if the text needs so many."""
    many = MOST_NEED - need + more
    return policies.whole({"validations": [{"expression": "[" * many + f"dyn({text})" + "]" * many + " == []"}]})


def chain(nodes: Any) -> Any:
    """A bool of so many nodes."""
    return " && ".join(["true"] * ((nodes + 1) // 2)) if nodes % 2 else f"!({chain(nodes - 1)})"


def filled(text: str, nodes: Any, more: Any) -> Any:
    """A policy of as many nodes as it may have, or more of them, if the text has so many."""
    rest = chain(MOST_NODES - 3 - nodes + more)
    return policies.whole({"validations": [{"expression": text}, {"expression": rest}]})
