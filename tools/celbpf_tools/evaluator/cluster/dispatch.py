"""The policies that a request meets, and what each says."""

from typing import Any, Optional, Union

from .. import documents, verdicts
from ..costs import MOST_CHARGE
from ..macros import ROOTS
from ..refused import Refused
from ..reviews import REFUSALS
from ..values import size
from . import labels
from .attributes import Attributes
from .bindings import Binding, ParamRef
from .events import INVALID, Denial, Events, Refusal, findings
from .fields import in_name_order
from .lists import name_of, namespace_of
from .matching import Trouble, not_found
from .rules import NO, UNKNOWN
from .state import CLUSTER, NAMESPACED, Policy, State

IN_CLUSTER_SCOPE = "cannot use namespaced paramRef in policy binding that matches cluster-scoped resources"
WITH_NAMESPACE = "paramRef.namespace must not be provided for a cluster-scoped `paramKind`"
NO_PARAMS = "no params found for policy binding with `Deny` parameterNotFoundAction"
CORE_NAMESPACE = ("", "v1", "Namespace")


class NamespaceNotFound(Exception):
    """The namespace of the request is not in the state: the dispatch ends."""


def chosen(found: list[Any], reference: ParamRef) -> list[Any]:
    """The objects that a reference takes, in the order of their names."""
    if reference.selector is None:
        taken = [thing for thing in found if name_of(thing) == reference.name]
    else:
        taken = [thing for thing in found if reference.selector.selects(labels.labels_of(thing))]
    return sorted(taken, key=lambda thing: in_name_order(name_of(thing)))


class Dispatch:
    """One request against a state."""

    def __init__(self, state: State, attributes: Attributes, request: dict[str, Any]):
        self.state, self.attributes = state, attributes
        self.request = {key: value for key, value in request.items() if key not in ("object", "oldObject")}
        self.events = Events()

    def deny(self, policy: Policy, binding: Optional[Binding], message: str) -> None:
        """A configuration error, which denies under Fail."""
        if not policy.ignores:
            self.events.denials.append(Denial(policy.name, binding.name if binding else None, message, INVALID))

    def params(self, policy: Policy, binding: Binding) -> Union[list[Any], Trouble]:
        """The params of a binding, or a Trouble."""
        reference = binding.params
        if policy.kind is None or reference is None:
            return [None]
        scope = self.state.scope(policy.kind)
        if scope == NAMESPACED and reference.namespace == "" and self.attributes.namespace == "":
            return Trouble(IN_CLUSTER_SCOPE)
        if scope == CLUSTER and reference.namespace != "":
            return Trouble(WITH_NAMESPACE)
        wanted = (reference.namespace or self.attributes.namespace) if scope == NAMESPACED else ""
        found = [thing for thing in self.state.of_kind(policy.kind) if namespace_of(thing) == wanted]
        taken = chosen(found, reference)
        if not taken and reference.denies_absence:
            return Trouble(NO_PARAMS)
        return taken

    def namespace_object(self) -> Optional[dict[str, Any]]:
        """The root `namespaceObject`; a namespace that is not there ends the dispatch."""
        asked = self.attributes
        if asked.kind == CORE_NAMESPACE or asked.namespace == "":
            return None
        if asked.namespace not in self.state.namespaces:
            raise NamespaceNotFound
        return self.state.namespaces[asked.namespace]

    def roots(self, params: Any, namespace: Optional[dict[str, Any]]) -> dict[str, Any]:
        """The five roots, or N2 or N3."""
        given = [self.attributes.new, self.attributes.old, params, namespace, self.request]
        for value, refusal in zip(given, REFUSALS):
            if documents.has_other_number(value):
                raise Refused(refusal)
        if sum(map(size, given)) > MOST_CHARGE:
            raise Refused("N2")
        return dict(zip(ROOTS, given))

    def evaluate(self, policy: Policy, binding: Binding, params: Any, namespace: Optional[dict[str, Any]]) -> None:
        """Adds the findings of one evaluation, by the binding's actions; or N2 or N3."""
        verdict = verdicts.verdict_of(policy.compiled, self.roots(params, namespace))
        for finding in findings(policy.compiled.policy, verdict):
            self.events.add(policy.name, binding, finding)

    def refuse(self, policy: Policy, why: Refused) -> None:
        """The policy does not decide."""
        self.events.refusals.append(Refusal(policy.name, policy.ignores, why.text))

    def bind(self, policy: Policy, binding: Binding) -> None:
        """One binding of a policy whose constraints match; or the refusal that ends the binding."""
        answer = binding.resources.answer(self.attributes, self.state.namespaces)
        if answer == NO:
            return
        if answer == UNKNOWN:
            raise Refused("N6")
        params = answer if isinstance(answer, Trouble) else self.params(policy, binding)
        if isinstance(params, Trouble):
            self.deny(policy, binding, f"failed to configure binding: {params.text}")
            return
        namespace = self.namespace_object()
        for one in params:
            self.evaluate(policy, binding, one, namespace)

    def ask(self, policy: Policy) -> None:
        """One policy under each of its bindings; or the refusal that ends it."""
        answer = policy.constraints.answer(self.attributes, self.state.namespaces)
        if answer == NO:
            return
        if answer == UNKNOWN:
            raise Refused("N6")
        if isinstance(answer, Trouble):
            self.deny(policy, None, f"failed to configure policy: {answer.text}")
            return
        if policy.blocked:
            raise Refused(policy.blocked)
        for binding in policy.bindings:
            try:
                self.bind(policy, binding)
            except Refused as why:
                self.refuse(policy, why)

    def run(self) -> Events:
        """The events of the request: a refusal is noted, and the next binding or policy is asked."""
        try:
            for policy in [] if self.attributes.is_exempt else self.state.policies:
                try:
                    self.ask(policy)
                except Refused as why:
                    self.refuse(policy, why)
        except NamespaceNotFound:
            self.events.not_found = not_found(self.attributes.namespace)
        return self.events
