"""The review of each object, as an API server would send it."""

import json
from collections.abc import Iterator
from dataclasses import dataclass, field
from typing import Any, Optional

from ..manifests.kinds import Resource, Resources
from ..manifests.reviews import Converted, OldObjects, placed, request_of, review_of
from ..manifests.spelling import advice
from .inputs import Thing
from .numbers import undecided_numbers
from .quantities import write_quantities

OPERATIONS = ("CREATE", "UPDATE", "DELETE")
QUOTED = "; write it in quotes"
# the most numbers of an object that a message names
MOST_NUMBERS = 3


@dataclass
class Asked:
    """Who asks for what: the operation (by default by whether there is an old object), the user, and their groups."""

    namespace: str = "default"
    operation: str = ""
    user: Optional[str] = None
    groups: list[str] = field(default_factory=list)


def texts_of(metadata: dict[str, Any]) -> Iterator[tuple[str, Any]]:
    """What an API server takes of metadata if it is a text alone, each with its path."""
    for key in ("name", "namespace", "generateName"):
        yield key, metadata.get(key)
    for key in ("labels", "annotations"):
        texts = metadata.get(key)
        for name, one in texts.items() if isinstance(texts, dict) else ():
            yield f"{key}[{json.dumps(name)}]", one


class NoReview(Exception):
    """An object of which no review is made, and why."""


class UnknownKind(NoReview):
    """An object of a kind that is neither built in nor defined, in a group that may be defined."""


class Reviews:
    """Makes reviews of objects, as creations, or as changes of what was there before."""

    def __init__(self, resources: Resources, asked: Asked):
        self.resources = resources
        self.asked = asked
        self.old = OldObjects()

    def put(self, thing: Thing) -> tuple[dict[str, Any], Resource]:
        """An object in its namespace with the values that are stored, and its resource."""
        if not isinstance(thing.value.get("metadata"), dict):
            raise NoReview("the object has no metadata")
        resource = self.resources.of(thing.value)
        if resource is None:
            told = f"the kind {thing.api_version} {thing.kind} is not known"
            if meant := advice(thing.api_version, thing.kind):
                raise NoReview(f"{told}: {meant}")
            raise UnknownKind(told)
        for path, one in texts_of(thing.metadata):
            if not isinstance(one, (str, type(None))):
                raise NoReview(f"metadata.{path} is {json.dumps(one)}, which is not a text" + QUOTED * isinstance(one, (bool, int, float)))
        value = placed(thing.value, resource, self.asked.namespace)
        write_quantities(value)
        return value, resource

    def add_old(self, thing: Thing) -> None:
        """Takes an object as one that was there before."""
        self.old.add(*self.put(thing))

    def text(self, thing: Thing, uid: str) -> tuple[dict[str, Any], str]:
        """The object as it is sent, and its review on one line."""
        value, resource = self.put(thing)
        request = self.request(value, resource, uid)
        review = review_of(request, self.asked.user, self.asked.groups)
        try:
            return value, line_of(review)
        except ValueError as why:
            raise NoReview(why_no_ints(review["request"]) or f"the object is not JSON: {why}") from why

    def request(self, value: dict[str, Any], resource: Resource, uid: str) -> dict[str, Any]:
        """The request of an object."""
        operation = self.asked.operation
        try:
            old = self.old.of(value, resource)
        except Converted as why:
            raise NoReview(f"{why}: an API server converts it") from why
        if operation == "CREATE":
            return request_of(value, resource, None, uid)
        made = request_of(value, resource, value if old is None and operation else old, uid)
        if operation == "DELETE":
            options = {**made["options"], "kind": "DeleteOptions"}
            made.update(operation=operation, object=None, oldObject=made["oldObject"], options=options)
        return made


def why_no_ints(request: dict[str, Any]) -> str:
    """The numbers of a request that no policy can read; empty if there are none."""
    found = [("", number) for number in undecided_numbers(request.get("object"))]
    found += [("oldObject.", number) for number in undecided_numbers(request.get("oldObject"))]
    if not found:
        return ""
    told = ", ".join(f"{of}{path} is {shown}" for of, (path, shown) in found[:MOST_NUMBERS])
    more = f" and {len(found) - MOST_NUMBERS} more" if len(found) > MOST_NUMBERS else ""
    return f"{told}{more}: policies read 64-bit ints alone"


def line_of(review: dict[str, Any]) -> str:
    """A review on one line of JSON."""
    try:
        text = json.dumps(review, ensure_ascii=False, separators=(",", ":"), allow_nan=False)
        text.encode()
    except UnicodeEncodeError:
        # a half of a pair of surrogates, which only an escape can spell
        return json.dumps(review, separators=(",", ":"), allow_nan=False)
    except RecursionError as why:
        raise NoReview("the object is nested too deep") from why
    return text
