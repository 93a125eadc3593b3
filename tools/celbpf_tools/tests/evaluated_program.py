"""Stands in for the programs that answer for pieces of expressions: each value is that of the evaluator."""

import json
import subprocess
from typing import Any

from ..asking.program import NotAnswered, Program
from ..evaluator.refused import Refused
from ..evaluator.values import ERROR
from ..wide import policies

ROOTS: dict[str, Any] = {"oldObject": None, "params": None, "namespaceObject": None, "request": {}}


class Evaluated(Program):
    """The evaluator over an object."""

    def __init__(self, given: Any):
        self.roots = {**ROOTS, "object": given}

    def value(self, policy: dict[str, Any]) -> str:
        """The value of the one validation, as JSON or `error`."""
        try:
            read = policies.read(policy)
        except Refused as why:
            raise NotAnswered(subprocess.CompletedProcess([], 3, "", why.text)) from why
        found = policies.meaning_over(read, self.roots).of(read.compiled.validations[0])
        return "error" if found is ERROR else json.dumps(found, ensure_ascii=False, sort_keys=True, separators=(",", ":"))
