"""Policies and reviews that are deep, long or costly."""

import json
from dataclasses import dataclass
from typing import Iterator

LOOP = "[1,2,3,4,5,6,7,8,9,10].all(%s, %s)"


@dataclass
class Hostile:
    """A policy and a review. If an engine's stack may be too small for it, the call may fail."""

    name: str
    policy: bytes
    review: bytes
    may_fail: bool = False


def policy_of(expression: str) -> bytes:
    spec = {"validations": [{"expression": expression}]}
    return json.dumps({"apiVersion": "admissionregistration.k8s.io/v1", "kind": "ValidatingAdmissionPolicy", "spec": spec}).encode()


def review_of(thing: str) -> bytes:
    """A review of an object in this text."""
    request = '{"uid":"u","object":%s}' % thing
    return ('{"apiVersion":"admission.k8s.io/v1","kind":"AdmissionReview","request":%s}' % request).encode()


def loops(depth: int) -> str:
    """Loops in loops, in whose innermost all their items are added."""
    names = [f"a{place}" for place in range(depth)]
    found = " + ".join(names) + " > 0"
    for name in reversed(names):
        found = LOOP % (name, found)
    return found


def hostile() -> Iterator[Hostile]:
    plain, small = policy_of("has(object.a)"), review_of('{"a":true}')
    for count in (256, 1000, 2000, 4094):
        yield Hostile(f"{count} times !", policy_of("!" * count + "true"), small, True)
    yield Hostile("4,000 times -", policy_of("-" * 4000 + "1 == 1"), small, True)
    yield Hostile("511 fields", policy_of("object" + ".a" * 511), small, True)
    yield Hostile("2,044 fields", policy_of("object" + ".a" * 2044), small, True)
    yield Hostile("4,000 brackets", policy_of("(" * 4000 + "true" + ")" * 4000), small)
    yield Hostile("an expression of 5,000,000 bytes", policy_of("'" + "x" * 5_000_000 + "' == ''"), small)
    yield Hostile("a policy 100,000 deep", b"[" * 100_000, small)
    yield Hostile("a review 100,000 deep", plain, b"[" * 100_000)
    yield Hostile("an object 100,000 deep", plain, review_of('{"a":' * 100_000 + "1" + "}" * 100_000))
    yield Hostile("an object 120 deep", policy_of("object == object"), review_of('{"a":' * 120 + "1" + "}" * 120))
    yield Hostile("a text of 5,000,000 bytes", policy_of("object.a.size() > 3"), review_of('{"a":"' + "x" * 5_000_000 + '"}'))
    yield Hostile("300,000 items", policy_of("object.a.all(x, x >= 0)"), review_of('{"a":[' + "1," * 299_999 + "1]}"))
    yield Hostile("six loops", policy_of(loops(6)), small)
    yield Hostile("no bytes", b"", b"")
    yield Hostile("5,000,000 bytes that are no text", b"\xff" * 5_000_000, b"\xff" * 5_000_000)
