"""The values that the page has of runs, beside those of the evaluator."""

import json
import os
import shutil
import subprocess
from collections.abc import Iterator
from pathlib import Path
from typing import Any

from ..evaluator import grammar, macros, policies, reviews
from ..evaluator.costs import Costs
from ..evaluator.meaning import Meaning
from ..evaluator.values import ERROR, equal, in_byte_order
from ..playground.sources import FOLDER


def read(text: str) -> Any:
    """A value as a session shows it."""
    return ERROR if text == "error" else json.loads(text)


class Evaluator:
    """The evaluator over the translation of a policy and its documents."""

    def __init__(self, policy: str, review: bytes, namespace: Any, params: Any):
        compiled = policies.compile_policy(policies.read(policy.encode()))
        roots = reviews.read(review, namespace, params).roots
        self.meaning = Meaning(roots, {}, Costs())
        for name, tree in compiled.variables.items():
            self.meaning.variables[name] = self.meaning.of(tree)

    def value(self, row: dict[str, Any]) -> Any:
        """The value of a sub-expression, or of an item of it."""
        items = {name: read(text) for name, text in row["items"].items()}
        found = self.meaning.of(macros.expand(grammar.read(row["text"])), items)
        if "place" not in row:
            return found
        return (in_byte_order(found) if isinstance(found, dict) else found)[row["place"]]

    def faults(self, rows: list[Any]) -> Iterator[str]:
        """The rows with other values than the evaluator gives."""
        for row in rows:
            wanted, found = self.value(row), read(row["value"])
            if not equal(wanted, found) and not (wanted is ERROR and found is ERROR):
                yield f"step {row['step']}: {row['text']} is {row['value']}, and by the evaluator {wanted!r}"


def shown(cases: list[Any]) -> Any:
    """What the page has of the runs of these cases; `None` if there is no Node."""
    node = shutil.which("node")
    if not node:
        return None
    ran = subprocess.run([node, FOLDER / "tests" / "evaluations.mjs"], input=json.dumps(cases), capture_output=True,
                         text=True, check=True, env=os.environ)
    return json.loads(ran.stdout)


def text_of(path: Path) -> str:
    return path.read_text(encoding="utf-8")


def values_faults(examples: list[Any]) -> tuple[int, list[str]]:
    """How many values of the runs of examples were compared, and which differ."""
    cases = [{"policy": text_of(one.policy), "review": text_of(one.review), **{kind: text_of(path) for kind, path in one.beside.items()}}
             for one in examples]
    count, faults = 0, []
    for example, found in zip(examples, shown(cases) or []):
        beside = [example.beside[kind].read_bytes() if kind in example.beside else None for kind in ("namespace", "params")]
        evaluator = Evaluator(found["translation"], example.review.read_bytes(), *beside)
        count += len(found["rows"])
        faults += [f"{example.name}: {fault}" for fault in evaluator.faults(found["rows"])]
    return count, faults
