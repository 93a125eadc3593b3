"""What came of many cases, in numbers."""

import re
from collections import Counter
from typing import Any, Iterator

from .cases import Answers

# what is looked for in the lines that answer
LINES = {
    "allowed": r'"allowed":true',
    "denied by a validation": r'"allowed":false.*denied request: (?!failed to configure)',
    "denied, code 401": r'"code":401',
    "denied, code 403": r'"code":403',
    "denied, code 413": r'"code":413',
    "denied, code 422": r'"code":422',
    "denied, error": r"resulted in error",
    "denied, conditions": r"match conditions not decided",
    "denied, policy not configured": r"denied request: failed to configure policy: ",
    "denied, binding not configured": r"denied request: failed to configure binding: ",
    "denied, namespace not found": r"failed to configure \w+: namespaces .* not found",
    "denied, collection of namespaces": r"resource name may not be empty",
    "denied, params of a cluster-scoped request": r"cannot use namespaced paramRef",
    "denied, params in no namespace": r"paramRef.namespace must not be provided",
    "denied, no params": r"no params found",
    "name Unknown": r'\\"Unknown\\" is forbidden',
    "name of no metadata": r"Unknown/errorGettingName",
    "not found, code 404": r'"code":404',
    "warnings": r'"warnings":',
    "several warnings": r'"warnings":\["[^\]]*","Validation failed',
    "annotation": r'"auditAnnotations"',
    "annotation of a denial": r'"allowed":false,"auditAnnotations"',
    "refused N2 without a policy": r'^\{"refused":"N2"',
    "refused N2": r'"policy":.*"refused":"N2"',
    "refused N3": r'"refused":"N3"',
    "refused N6": r'"refused":"N6"',
    "refused C7": r'"refused":"C7"',
    "refused C8": r'"refused":"C8"',
}
FOUND = {name: re.compile(pattern) for name, pattern in LINES.items()}
STARTS = [f"C{number}" for number in range(1, 9)]


class Counts:
    """How often each kind of answer and of start is due."""

    def __init__(self) -> None:
        self.lines: Counter[Any] = Counter()
        self.starts: Counter[Any] = Counter()
        self.answers = self.opened = 0

    def add(self, wanted: Answers) -> None:
        if wanted.refusal:
            self.starts[wanted.refusal.split()[0]] += 1
            return
        self.opened += 1
        self.answers += len(wanted.lines)
        for line in wanted.lines:
            self.lines.update(name for name, pattern in FOUND.items() if pattern.search(line))

    def never(self) -> list[Any]:
        """What was due nowhere."""
        return [name for name in LINES if not self.lines[name]] + [name for name in STARTS if not self.starts[name]]

    def shown(self) -> Iterator[str]:
        """The numbers, a line each."""
        yield f"{self.opened} states with {self.answers} reviews"
        for name in LINES:
            yield f"    {name}: {self.lines[name]}"
        listed = ", ".join(f"{name} {self.starts[name]}" for name in STARTS)
        yield f"{self.starts.total()} states refused: {listed}"
