"""Requests near the borders of what states say."""

import json
from typing import Any, Optional

from ..seeded.numbers import Numbers
from . import making
from .selecting import Selecting
from .words import CORE_NAMESPACE, KINDS, NAMES, NAMESPACES, OPERATIONS, RARE_KINDS, Kind

# what a request may not have
SPOILS: list[Any] = [
    {"kind": None}, {"resource": {"version": "v1"}}, {"operation": "PATCH"}, {"operation": None}, {"name": 1}, {"namespace": []},
    {"object": "a"}, {"oldObject": 1}, {"object": None}, {"uid": 1}, {"subResource": {}},
    {"kind": {"version": "v1", "kind": "Pod", "group": 1}},
]
NO_REVIEWS = [b"{", b"[]", b"{}", b'{"apiVersion":"admission.k8s.io/v1","kind":"AdmissionReview"}', b'"a"', b"\xff"]


class Requests:
    """Makes reviews, one on each line."""

    def __init__(self, numbers: Numbers):
        self.numbers = numbers
        self.selecting = Selecting(numbers, False)
        self.count = 0

    def thing(self, kind: Kind, name: str, space: str) -> dict[str, Any]:
        """An object, with labels, without metadata, or with a name that is yet to be generated."""
        numbers = self.numbers
        metadata: dict[str, Any] = {"name": name} if name else {"generateName": numbers.pick(["web-", "", None])}
        if space and kind.namespaced:
            metadata["namespace"] = space
        if numbers.one_in(2):
            metadata["labels"] = self.selecting.labels() if not numbers.one_in(10) else numbers.pick([{"env": 1, "team": "a"}, None, "env"])
        if numbers.one_in(20 if name else 3):
            metadata = numbers.pick([None, None, {}, "a", {"name": 1, "generateName": "g-"}])
        made: dict[str, Any] = {"apiVersion": f"{kind.group}/{kind.version}".lstrip("/"), "kind": kind.kind, "metadata": metadata}
        if numbers.one_in(2):
            made["spec"] = {"on": numbers.one_in(2)} if not numbers.one_in(12) else {"share": 0.5}
        if metadata is None and numbers.one_in(2):
            del made["metadata"]
        return made

    def space(self, kind: Kind, name: str) -> str:
        """The namespace of a request, which is now and then one that no state has."""
        numbers = self.numbers
        if kind == CORE_NAMESPACE:
            return "" if numbers.one_in(12) else name
        if numbers.one_in(25):
            return numbers.pick(["", "gone"])
        if kind.namespaced:
            return numbers.pick(["gone", "gone", 'a"\\b']) if numbers.one_in(12) else numbers.pick(NAMESPACES)
        return ""

    def name(self, kind: Kind) -> str:
        numbers = self.numbers
        if numbers.one_in(8):
            return numbers.pick(["", "", 'a"\\b', "é"])
        return numbers.pick([*NAMESPACES, "new"] if kind == CORE_NAMESPACE else NAMES)

    def subresource(self, kind: Kind) -> Optional[str]:
        numbers = self.numbers
        if not numbers.one_in(4):
            return "" if numbers.one_in(6) else None
        return numbers.pick(kind.subresources)

    def objects(self, kind: Kind, operation: str, name: str, space: str) -> dict[str, Any]:
        """The objects that an operation has."""
        numbers = self.numbers
        made: dict[str, Any] = {}
        if operation in ("CREATE", "UPDATE"):
            made["object"] = self.thing(kind, name, space)
        elif operation == "CONNECT":
            made["object"] = {"apiVersion": "v1", "kind": "PodExecOptions", "command": ["sh"]}
        else:
            made["object"] = None
        if operation in ("UPDATE", "DELETE") and not numbers.one_in(8):
            made["oldObject"] = self.thing(kind, name, space)
        return made

    def asked_first(self, kind: Kind, sub: Optional[str]) -> dict[str, Any]:
        """What the client asked for, mostly the same."""
        numbers = self.numbers
        version = kind.version if not numbers.one_in(30) else "v9"
        named = {"group": kind.group, "version": version} if kind.group or numbers.one_in(2) else {"version": version}
        made: dict[str, Any] = {"requestKind": {**named, "kind": kind.kind}, "requestResource": {**named, "resource": kind.plural}}
        if sub is not None or numbers.one_in(4):
            made["requestSubResource"] = sub if not numbers.one_in(30) else "other"
        return made

    def request(self) -> dict[str, Any]:
        numbers = self.numbers
        kind = numbers.pick(RARE_KINDS if numbers.one_in(12) else KINDS)
        sub = self.subresource(kind)
        operation = "CONNECT" if sub == "exec" and not numbers.one_in(6) else numbers.pick(OPERATIONS[:3])
        name = "" if sub == "exec" and numbers.one_in(4) else self.name(kind)
        space = self.space(kind, name)
        made = making.request(kind.kind, kind.resource, operation, name=name, namespace=space, uid=f"u{self.count}", object=None)
        made.update(self.objects(kind, operation, name, space))
        if sub is not None:
            made["subResource"] = sub
        if numbers.one_in(2):
            made.update(self.asked_first(kind, sub))
        for key in ("name", "namespace"):
            if not made[key] and numbers.one_in(2):
                del made[key]
        if numbers.one_in(40):
            made.update(numbers.pick(SPOILS))
        return made

    def review(self) -> bytes:
        """The line of the next review."""
        self.count += 1
        if self.numbers.one_in(60):
            return self.numbers.pick(NO_REVIEWS)
        whole: dict[str, Any] = {**making.REVIEW, "request": self.request()}
        return json.dumps(whole, ensure_ascii=self.numbers.one_in(2)).encode()
