"""The expressions of docs/LANGUAGE.md and docs/CLUSTERS.md, with what the pages say that they come to, asked of a gatekeeper."""

import json
import re
import subprocess
from pathlib import Path

from ..asking import policies
from ..asking.gatekeeper import Gatekeeper
from ..asking.wide_places import bound_to_optional
from .expressions import Expressions
from .texts import block, read, spans, tables

PAGE, CLUSTERS = "docs/LANGUAGE.md", "docs/CLUSTERS.md"
# an expression in back quotes, and what it is: a value, the error, or refused with a code
EXAMPLE = re.compile(r"(`+) ?(.+?) ?\1(?!`) is (?:`([^`]+)`|(the error|true|false|null|-?[0-9]+)|refused \(([PMYWKG][0-9])\))")
UID = "u1"
# names that stand for values in the forms of the page
FREE = ("m", "l", "a", "b", "e", "d", "k", "p", "o", "x")
FORM = re.compile(r"[^`]*[\[({][^`]*")


class Language(Expressions):
    """The gatekeeper, with a review of the page's object, and how many examples were compared."""

    def __init__(self, gatekeeper: Path, folder: str):
        super().__init__(Gatekeeper(gatekeeper, folder))
        self.text = read(PAGE)
        request = {"uid": UID, "operation": "CREATE", "object": json.loads(block(self.text, "{"))}
        self.line = json.dumps({"apiVersion": "admission.k8s.io/v1", "kind": "AdmissionReview", "request": request})

    def is_allowed(self, text: str, failure: str) -> bool:
        """Whether the review is allowed by a policy of this validation."""
        policy = policies.whole({"failurePolicy": failure, "validations": [{"expression": text}]})
        words = [str(self.program.path), "--policy", self.program.file(policy)]
        ran = subprocess.run(words, input=self.line + "\n", capture_output=True, text=True, check=False)
        return '"allowed":true' in ran.stdout

    def found(self, text: str, wanted: str) -> str:
        """The value that is wanted if it is the one, the error, or that there is another value."""
        if self.is_allowed(f"dyn({text}) == dyn({wanted})", "Fail"):
            return wanted
        same = f"dyn({text}) == dyn({text})"
        is_error = self.is_allowed(same, "Ignore") and not self.is_allowed(same, "Fail")
        return "the error" if is_error else "another value"

    def compare(self, text: str) -> None:
        """All examples of a cell."""
        for _, expression, code, word, refusal in EXAMPLE.findall(text):
            if refusal:
                self.same(PAGE, expression, refusal, self.code(expression))
            elif word == "the error":
                self.same(PAGE, expression, word, self.found(expression, "null"))
            else:
                self.same(PAGE, expression, code or word, self.found(expression, code or word))

    def code(self, text: str) -> str:
        """The code with which a validation is refused."""
        words = self.program.refusal(policies.whole({"validations": [{"expression": text}]})).split()
        return words[3] if words[:1] == ["K6"] else " ".join(words[:1])

    def is_taken(self, form: str) -> bool:
        """Whether a form is taken, in which short names stand for values, and `l` is a variable that is a list."""
        text = whole(form, "object") if form.isidentifier() else form.replace("..", "0")
        # each frame takes room of the compiler's (G1), so the names of the form alone have one
        frames = [("", name, None) for name in FREE if name in re.findall(r"\w+", text)]
        variables = [{"name": "l", "expression": "[object]"}, {"name": "m", "expression": "{'a': object}"}]
        made = (policies.as_variable(variables, way(text, frames)) for way in (policies.bound, bound_to_optional))
        return any(not self.program.refusal(policy) for policy in made)

    def forms(self, refused: str, instead: str) -> None:
        """The forms of a row that are not supported, and those that are to be written."""
        for form in spans(refused):
            self.same(PAGE, form, False, self.is_taken(form))
        for form in filter(FORM.fullmatch, spans(instead)):
            self.same(PAGE, form, True, self.is_taken(form))

    def all(self) -> None:
        """The examples of the tables, and the forms that are not supported."""
        for _, head, rows in tables(self.text):
            for row in rows:
                if "Examples" in head:
                    self.compare(row[head.index("Examples")])
                elif head[0] == "Not supported yet":
                    self.forms(row[0], row[1])

    def clusters(self) -> None:
        """The forms of docs/CLUSTERS.md that are taken here, and refused in a cluster."""
        for _, head, rows in tables(read(CLUSTERS)):
            for row in rows if head[1] == "Here" else ():
                if row[1] == "taken" and row[2].startswith("refused"):
                    for form in (one for one in spans(row[0]) if not one.isidentifier()):
                        self.same(CLUSTERS, form, "", self.cause(form))


def whole(name: str, operand: str) -> str:
    """A call of a function or a method of this name."""
    return f"[{name}({operand}), {operand}.{name}({operand})]"
