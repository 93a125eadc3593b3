"""The roots that wide expressions are evaluated over, from a seed."""

from typing import Any, Callable

from ..evaluator.macros import ROOTS
from ..seeded.reviews import Documents

QUANTITIES = ["250m", "0.5", "1", "1Gi", "1.5Gi", "64Ki", "1e3", "-2", "1000m", "5.", ".5", "0", "7n", "1.0000000001"]
DURATIONS = ["1h", "1.5h", "90m", "-1m30s", "250ms", "0", "3s", "+2us", "1h1h", "24h"]
TIMESTAMPS = [
    "2026-03-01T00:00:00Z", "2026-02-28T00:00:00Z", "2024-02-29T23:59:59.5Z", "1969-12-31T23:00:00-02:30",
    "1970-01-01T00:00:00Z", "2000-01-01T12:34:56.123456789+14:00",
]
SEMVERS = ["1.0.0", "1.0.0-alpha.2", "1.0.0-alpha.10", "1.0.0+b", "v1.2", "0.10.3", "2.0.0-rc", "01.2.3", "10.0.1"]
ADDRESSES = ["10.1.2.3", "127.0.0.1", "::1", "2001:db8::1", "0.0.0.0", "::", "192.168.0.1", "1:0:0:2:0:0:0:3"]
BLOCKS = ["10.0.0.0/8", "10.1.2.3/32", "::/0", "2001:db8::/32", "192.168.0.7/16", "0.0.0.0/0"]
WRITTEN = ["5", "-7", "+12", "true", "False", "t", "0", "007", "9223372036854775807"]
# what is near a form, and of none
NEAR = [
    "", "a", "1.5.2", "1kk", "-", "10.1.2.03", "::ffff:1.2.3.4", "1h30", "10.0.0.0/08", "x-", "2026-02-30T00:00:00Z",
]
WORDS = [
    "reg.io/app:1.2", "-v", "--x=1", "http", " padded ", "TacoCat", "Ö", "abc 123 def 456", "a,b,,c", "hello hello",
]
# making documents takes longer than evaluating over them
MOST_KEPT = 100


class WideDocuments(Documents):
    """Makes documents with more nulls, absent fields and values of other kinds."""

    def text(self) -> str:
        numbers = self.numbers
        return super().text() if numbers.one_in(2) else numbers.pick(WORDS)

    def one_of(self, forms: list[Any]) -> Callable[..., Any]:
        """Makes a text of a form, and now and then one near it."""
        return lambda: self.numbers.pick(NEAR if self.numbers.one_in(8) else forms)

    def object(self, **makers: Callable[..., Any]) -> dict[str, Any]:
        """An object some of whose keys are absent, null or of another kind."""
        made: dict[str, Any] = {}
        for key, make in makers.items():
            chosen = self.numbers.below(40)
            if chosen >= 4:
                made[key] = make() if chosen >= 8 else None if chosen >= 6 else self.anything()
        return made

    def typed(self) -> dict[str, Any]:
        """Texts that functions read."""
        return self.object(
            cpu=self.one_of(QUANTITIES), lasting=self.one_of(DURATIONS), since=self.one_of(TIMESTAMPS),
            version=self.one_of(SEMVERS), address=self.one_of(ADDRESSES), block=self.one_of(BLOCKS),
            written=self.one_of(WRITTEN),
        )

    def spec(self) -> dict[str, Any]:
        made = super().spec()
        if not self.numbers.one_in(20):
            made["typed"] = self.typed()
        return made

    def roots(self) -> dict[str, Any]:
        """The five roots of a request."""
        request = self.request()
        given = [request.pop("object", None), request.pop("oldObject", None)]
        given += [self.nothing_or(self.params), self.nothing_or(lambda: {"metadata": self.metadata()})]
        return dict(zip(ROOTS, [*given, request]))

    def nothing_or(self, make: Callable[..., Any]) -> Any:
        return None if self.numbers.one_in(8) else make()


class Pool:
    """The roots of requests: one of each answer is new, the others are among the last that were."""

    def __init__(self, numbers: Any):
        self.numbers = numbers
        self.documents = WideDocuments(numbers)
        self.kept: list[Any] = []

    def several(self, count: int) -> list[Any]:
        """The roots of this number of requests with one params and namespace; their uids are their places."""
        self.kept = [*self.kept[-MOST_KEPT:], self.documents.roots()]
        given = [self.kept[-1], *(self.numbers.pick(self.kept) for _ in range(count - 1))]
        shared = {name: given[0][name] for name in ("params", "namespaceObject")}
        return [
            {**roots, **shared, "request": {**roots["request"], "uid": f"u{place}"}}
            for place, roots in enumerate(given)
        ]
