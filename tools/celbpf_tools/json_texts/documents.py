"""Reviews, namespaces and params, as bytes."""

from typing import Any, Iterator

from .answers import Case
from .pieces import FAULTS
from .values import Values

VERSION = b'"admission.k8s.io/v1"'
VERSIONS = [
    b'"admission.k8s.io\\/v1"', b'"\\u0061dmission.k8s.io/v1"', b'"admission.k8s.io/v1beta1"',
    b'"admission.k8s.io/v"', b'"v1"', b"null", b"1", b"[]", b'{"a":1}', b'""',
]
KIND = b'"AdmissionReview"'
KINDS = [
    b'"\\u0041dmissionReview"', b'"admissionReview"', b'"AdmissionReview "', b'"AdmissionReviewX"', b'"Admission"',
    b"null", b"true", b'["AdmissionReview"]', b"{}", b'""',
]
UIDS = [
    b'"u1"', b'""', b'"\\u0075\\ud83d\\ude00"', b'"\\"\\\\\\n"', b"1", b"null", b"[]", b'{"uid":"u"}', b"true", b"-0",
    b"1e400",
]
SHORT = [
    b"", b" ", b"\n\t", b"null", b" null ", b"{}", b"[]", b"1", b'"a"', b"-0", b"1e400", b"{} {}", b"null,", b"true",
]
BEHIND = [
    b" {}", b",", b"]", b"}", b"\x00", b"null", b"1", b'"', b"\xff", b"\\", b":", b"//", b"\xef\xbb\xbf",
]
BEFORE = [b"\xef\xbb\xbf", b"\xff\xfe", b",", b"[", b"\x00", b"\\", b"\xc2\xa0", b")]}'\n"]
LEVELS = [124, 125, 126, 127, 128, 129]


class Documents(Values):
    """Documents drawn by numbers."""

    def case(self) -> Case:
        namespace, params = (self.other_document() if self.numbers.one_in(3) else None for _ in range(2))
        if namespace is not None and self.numbers.one_in(8):
            params = namespace
        return Case(self.mangled(self.review()), namespace, params)

    def other_document(self) -> bytes:
        """A namespace or params."""
        kind = self.numbers.below(10)
        if kind == 0:
            document = self.tower(self.numbers.pick(LEVELS))
        elif kind == 1:
            document = self.numbers.pick(SHORT)
        elif kind == 2:
            document = self.value(3)
        else:
            document = self.space() + self.members(4) + self.space()
        return self.mangled(document)

    def review(self) -> bytes:
        if self.numbers.one_in(60):
            return self.numbers.pick([*SHORT, self.tower(self.numbers.pick(LEVELS))])
        members = self.field(b'"apiVersion"', VERSION, VERSIONS) + self.field(b'"kind"', KIND, KINDS) + self.requests()
        for _ in range(self.numbers.pick([0, 0, 0, 1, 2])):
            members.append((self.key(), self.part(1)))
        return self.space() + self.map_of(self.shuffled(members)) + self.space()

    def shuffled(self, members: list[Any]) -> list[Any]:
        """The members, half of the time in another order."""
        if self.numbers.one_in(2):
            return members
        left, drawn = list(members), []
        while left:
            drawn.append(left.pop(self.numbers.below(len(left))))
        return drawn

    def field(self, key: bytes, good: bytes, others: list[Any]) -> list[Any]:
        """A member that is to have one value: mostly with it, now and then another, none, or two."""
        kind = self.numbers.below(160)
        if kind == 0:
            return []
        if kind == 1:
            return [(key, self.numbers.pick(others))]
        if kind == 2:
            return [(key, self.numbers.pick(others)), (key, good)]
        if kind == 3:
            return [(key, good), (key, self.numbers.pick(others))]
        if kind == 4:
            return [(key[:1] + b"\\u%04x" % key[1] + key[2:], good)]
        return [(key, good)]

    def requests(self) -> list[Any]:
        kind, key = self.numbers.below(80), b'"request"'
        if kind == 0:
            return []
        if kind == 1:
            return [(key, self.value(2))]
        if kind == 2:
            return [(key, self.value(2)), (key, self.request())]
        if kind == 3:
            return [(key, self.request()), (key, self.value(2))]
        if kind == 4:
            return [(key, self.request()), (b'"reques\\u0074"', self.request())]
        return [(key, self.request())]

    def request(self) -> bytes:
        members = self.field(b'"uid"', self.numbers.pick(UIDS[:4]), UIDS)
        for key in (b'"object"', b'"oldObject"'):
            for _ in range(self.numbers.pick([0, 1, 1, 1, 1, 1, 1, 2])):
                members.append((key, self.root()))
        if len(members) > 1 and self.numbers.one_in(6):
            members.append((b'"oldObject"', members[-1][1]))
        for _ in range(self.numbers.pick([0, 0, 1, 2])):
            members.append((self.key(), self.part(2)))
        return self.space() + self.map_of(self.shuffled(members)) + self.space()

    def root(self) -> bytes:
        """The value of a root, mostly a map or null."""
        kind = self.numbers.below(30)
        if kind == 0:
            return self.value(1)
        if kind < 3:
            return b"null"
        if kind == 3:
            return self.tower(self.numbers.pick(LEVELS) - 2)
        return self.members(4)

    def part(self, above: int) -> bytes:
        """The value of a member that stands so deep."""
        return self.tower(self.numbers.pick(LEVELS) - above) if self.numbers.one_in(8) else self.value(2)

    def mangled(self, document: bytes) -> bytes:
        """A document, now and then with something before or behind it, cut, or with one byte changed."""
        if not self.spoils("bytes"):
            return document
        place = self.numbers.below(len(document) + 1)
        kind = self.numbers.below(7)
        if kind == 0:
            return document + self.numbers.pick(BEHIND)
        if kind == 1:
            return self.numbers.pick(BEFORE) + document
        if kind == 2:
            return document[:place]
        if kind == 3:
            return document[:place] + document[place + 1:]
        if kind == 4:
            return document[:place] + bytes([self.numbers.below(256)]) + document[place + 1:]
        if kind == 5:
            return document[:place] + bytes([self.numbers.pick(list(b'"\\{}[]:,0e.-+ \n'))]) + document[place:]
        if self.numbers.one_in(8):
            return document.decode("utf-8", "replace").encode("utf-16-le")
        return document[:place] + document[place:place + 9] + document[place:]


def cases(numbers: Any) -> Iterator[Any]:
    """Cases without end. Of two one has no fault of its pieces, the other one of each kind in turn."""
    while True:
        for fault in [*FAULTS, "number", "other", "character"]:
            yield Documents(numbers).case()
            yield Documents(numbers, fault, numbers.pick([0, 0, 1, 1, 2, 3, 5, 8, 13])).case()
