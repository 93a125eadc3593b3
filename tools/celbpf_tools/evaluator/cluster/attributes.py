"""The request as matching sees it."""

from dataclasses import dataclass
from typing import Any, Optional

from .fields import demand, field, text

OPERATIONS = ("CREATE", "UPDATE", "DELETE", "CONNECT")
WRITES = ("CREATE", "UPDATE")
POLICIES = (
    "validatingadmissionpolicies",
    "validatingadmissionpolicybindings",
    "mutatingadmissionpolicies",
    "mutatingadmissionpolicybindings",
)
TOKENS = ("selfsubjectreviews", "tokenreviews")
ACCESSES = ("localsubjectaccessreviews", "selfsubjectaccessreviews", "selfsubjectrulesreviews", "subjectaccessreviews")
EXEMPT = {
    (group, resource)
    for group, resources in (
        ("admissionregistration.k8s.io", POLICIES),
        ("authentication.k8s.io", TOKENS),
        ("authorization.k8s.io", ACCESSES),
    )
    for resource in resources
}


@dataclass
class Attributes:
    """What a request asks for. `kind` and `resource` are group, version and name; absent texts are empty."""

    kind: tuple[Any, ...]
    resource: tuple[Any, ...]
    subresource: str
    name: str
    namespace: str
    operation: str
    new: Optional[dict[str, Any]]
    old: Optional[dict[str, Any]]

    @property
    def is_exempt(self) -> bool:
        """Whether no policy is asked about such a request."""
        return (self.resource[0], self.resource[2]) in EXEMPT


def triple(value: Any, last: str) -> tuple[Any, ...]:
    """A group, version and kind or resource."""
    demand(isinstance(value, dict), "N2")
    return text(value, "group", "N2", ""), text(value, "version", "N2"), text(value, last, "N2")


def thing(request: Any, key: str) -> Optional[dict[str, Any]]:
    """An object or None."""
    found = field(request, key)
    demand(found is None or isinstance(found, dict), "N2")
    return found


def demand_as_sent(request: Any, given: Attributes) -> None:
    """Refuses a request that a webhook got in another version than the client's."""
    for key, last, own in (("requestKind", "kind", given.kind), ("requestResource", "resource", given.resource)):
        if field(request, key) is not None:
            demand(triple(field(request, key), last) == own, "N2")
    if field(request, "requestSubResource") is not None:
        demand(field(request, "requestSubResource") == given.subresource, "N2")


def of(request: Any) -> Attributes:
    """The attributes of a request, or N2."""
    given = Attributes(
        kind=triple(field(request, "kind"), "kind"),
        resource=triple(field(request, "resource"), "resource"),
        subresource=text(request, "subResource", "N2", ""),
        name=text(request, "name", "N2", ""),
        namespace=text(request, "namespace", "N2", ""),
        operation=text(request, "operation", "N2"),
        new=thing(request, "object"),
        old=thing(request, "oldObject"),
    )
    demand(given.operation in OPERATIONS, "N2")
    demand(given.new is not None or given.operation not in WRITES, "N2")
    demand_as_sent(request, given)
    return given
