"""The documents of reviews: objects, requests, namespaces and params."""

from typing import Any, Callable

from .texts import INTS, TEXTS

LABELS = ["app", "team", "tier", "example.com/owner", "é", "name", ""]


class Documents:
    """Makes documents whose values are mostly of the kinds that expressions look for."""

    def __init__(self, numbers: Any):
        self.numbers = numbers

    def whole(self) -> int:
        return self.numbers.pick(INTS)

    def text(self) -> str:
        return self.numbers.pick(TEXTS)

    def truth(self) -> bool:
        return self.numbers.one_in(2)

    def anything(self) -> Any:
        numbers = self.numbers
        lists, maps = [[], [1, "a", None], [[1], {"a": [2]}]], [{}, {"name": "a"}]
        return numbers.pick([None, True, 3, -1, "a", *lists, *maps])

    def several(self, make: Callable[..., Any], most: int) -> list[Any]:
        """At most so many, and now and then six times as many."""
        most = 6 * most if self.numbers.one_in(20) else most
        return [make() for _ in range(self.numbers.below(most + 1))]

    def object(self, **makers: Callable[..., Any]) -> dict[str, Any]:
        """An object whose keys mostly stand there, with a value of their own kind."""
        made = {}
        for key, make in makers.items():
            chosen = self.numbers.below(40)
            if chosen > 0:
                made[key] = make() if chosen > 1 else self.anything()
        return made

    def labels(self) -> dict[str, Any]:
        return {key: self.text() for key in self.numbers.some(LABELS, 24)}

    def limits(self) -> dict[str, Any]:
        return {key: self.whole() for key in self.numbers.some(["cpu", "memory", "pods"], 12)}

    def container(self) -> dict[str, Any]:
        return self.object(
            name=self.text, image=self.text, port=self.whole, privileged=self.truth,
            args=lambda: self.several(self.text, 3), env=self.labels,
        )

    def metadata(self) -> dict[str, Any]:
        return self.object(name=self.text, labels=self.labels, annotations=self.labels, generation=self.whole)

    def spec(self) -> dict[str, Any]:
        return self.object(
            replicas=self.whole, paused=self.truth, image=self.text, limits=self.limits,
            ports=lambda: self.several(self.whole, 12), args=lambda: self.several(self.text, 8),
            containers=lambda: self.several(self.container, 4),
        )

    def thing(self) -> dict[str, Any]:
        """What stands under `object` or `oldObject`."""
        return self.object(kind=self.text, metadata=self.metadata, spec=self.spec)

    def params(self) -> dict[str, Any]:
        return self.object(
            most=self.whole, prefix=self.text, strict=self.truth, limits=self.limits,
            names=lambda: self.several(self.text, 4),
        )

    def user(self) -> dict[str, Any]:
        return self.object(username=self.text, groups=lambda: self.several(self.text, 3))

    def request(self) -> dict[str, Any]:
        """A request, whose object may be null or absent."""
        numbers = self.numbers
        made = {
            "uid": numbers.pick(["u1", "u-2", 'q"\\', "é\t"]),
            "operation": numbers.pick(["CREATE", "UPDATE", "DELETE"]),
            "dryRun": self.truth(),
        }
        if not numbers.one_in(10):
            made["userInfo"] = self.user()
        if not numbers.one_in(30):
            made["object"] = self.thing() if not numbers.one_in(30) else None
        if not numbers.one_in(6):
            now = made.get("object")
            made["oldObject"] = numbers.pick([now, now, self.thing(), self.thing(), None])
        return made

    def spoiled_root(self) -> Any:
        """What no root may be."""
        numbers = [{"a": 1.5}, {"a": [2**63]}, {"a": {"b": -(2**63) - 1}}, {"a": -0.0}]
        return self.numbers.pick([1, "a", [], True, *numbers])

    def review(self) -> tuple[Any, ...]:
        """A review, its namespace and its params, of which the last two may be None."""
        request = self.request()
        if self.numbers.one_in(60):
            request[self.numbers.pick(["object", "oldObject"])] = self.spoiled_root()
        beside = []
        for make in (lambda: {"metadata": self.metadata()}, self.params):
            beside.append(make() if not self.numbers.one_in(8) else None)
            if self.numbers.one_in(80):
                beside[-1] = self.spoiled_root()
        return request, *beside
