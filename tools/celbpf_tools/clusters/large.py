"""Large states: one as clusters have it, to measure how fast requests are answered, and hostile ones."""

from typing import Any, Callable, Iterator

from .making import binding, policy, request, rule, thing

POLICIES, NAMESPACES, CONFIG_MAPS = 40, 200, 1_000
# every fifth policy is for the requests of the measure
EVERY = 5
CONFIG_MAP = {"apiVersion": "v1", "kind": "ConfigMap"}
OTHERS = ["pods", "services", "jobs", "roles"]
DEPLOYMENT = ("apps", "v1", "deployments")
# at 127 levels a text is no longer read; this many are inside an object below three more
DEEPEST = 120
MANY, SOME = 100_000, 10_000


def small_policy(place: int) -> dict[str, Any]:
    """One of the policies: of those that match, two take params and two select namespaces."""
    name = f"p{place:02}"
    if place % EVERY:
        return policy(name, rules=[rule([OTHERS[place % EVERY - 1]], [""], ["v1"])])
    rules = [rule(["deployments"], ["apps"], ["v1"], ["CREATE", "UPDATE"])]
    kind = place // EVERY
    if kind in (2, 5):
        valid = [{"expression": "object.spec.replicas <= 100 && params.data.most != ''"}]
        return policy(name, rules=rules, validations=valid, paramKind=CONFIG_MAP)
    selected = {"namespaceSelector": {"matchExpressions": [{"key": "off", "operator": "DoesNotExist"}]}} if kind in (1, 6) else {}
    return policy(name, rules=rules, constraints=selected, validations=[{"expression": f"object.spec.replicas <= {place + 7}"}])


def small_binding(place: int) -> dict[str, Any]:
    """The binding of a policy, with a reference that counts only if it takes params."""
    reference = {"name": "c0", "namespace": "default", "parameterNotFoundAction": "Deny"}
    return binding(f"b{place:02}", f"p{place:02}", paramRef=reference)


def param(name: str, space: str) -> dict[str, Any]:
    return {**thing("ConfigMap", name, namespace=space), "data": {"most": "100"}}


def matching() -> list[Any]:
    """The policies that match the requests of the measure, and the params of two."""
    return [*(small_policy(place) for place in range(0, POLICIES, EVERY)), param("c0", "default")]


def state() -> list[Any]:
    """The items of the state that is measured."""
    spaces = ["default", *(f"n{place:03}" for place in range(1, NAMESPACES))]
    made = [small_policy(place) for place in range(POLICIES)]
    made += [small_binding(place) for place in range(POLICIES)]
    made += [thing("Namespace", name, labels={"kubernetes.io/metadata.name": name}) for name in spaces]
    return made + [param(f"c{place // NAMESPACES}", spaces[place % NAMESPACES]) for place in range(CONFIG_MAPS)]


def elsewhere(count: int) -> list[Any]:
    """A state of so many policies with a binding each, none of which matches the requests of the measure."""
    made = with_space()
    for place in range(count):
        made += [policy(f"p{place:04}", rules=[rule([OTHERS[place % len(OTHERS)]], [""], ["v1"])]), binding(f"b{place:04}", f"p{place:04}")]
    return made


def small_maps(length: int) -> dict[str, Any]:
    """A request whose object is a list of maps of one key, in a text of about this length."""
    object_asked = {"metadata": {"name": "web", "namespace": "default"}, "items": [{"a": 1}] * (length // len('{"a":1},'))}
    return request("Deployment", DEPLOYMENT, namespace="default", object=object_asked)


def nested(depth: int) -> list[Any]:
    """A list in a list, and so on."""
    value: list[Any] = []
    for _ in range(depth):
        value = [value]
    return value


def with_space(*items: dict[str, Any]) -> list[Any]:
    return [thing("Namespace", "default", labels={"env": "prod"}), *items]


def of_params(count: int, **spec: Any) -> list[Any]:
    """A policy that is evaluated for each of many params, and fails for each with a warning of its own."""
    named = [{"expression": "false", "messageExpression": "params.metadata.name"}]
    found = {"selector": {}, "parameterNotFoundAction": "Deny"}
    params = (param(f"c{place}", "default") for place in range(count))
    return with_space(policy(paramKind=CONFIG_MAP, validations=named, **spec), binding(actions=["Warn"], paramRef=found), *params)


def selecting(count: int) -> dict[str, Any]:
    """A selector of many requirements, of which the last does not fit."""
    made = [{"key": f"k{place}", "operator": "NotIn", "values": ["a", "b"]} for place in range(count)]
    return {"matchExpressions": [*made, {"key": "env", "operator": "NotIn", "values": ["prod"]}]}


def many_policies() -> Iterator[dict[str, Any]]:
    for place in range(MANY):
        yield policy(f"p{place}", rules=[rule(["pods"])])
        yield binding(f"b{place}", f"p{place}")


HOSTILE: dict[str, Callable[[], list[Any]]] = {
    "nested": lambda: with_space(policy(), binding(), {**thing("ConfigMap", "c"), "data": nested(DEEPEST)}),
    "policies": lambda: with_space(*many_policies()),
    "bindings": lambda: with_space(policy(), *(binding(f"b{place}") for place in range(MANY))),
    "requirements": lambda: with_space(policy(constraints={"namespaceSelector": selecting(SOME)}), binding()),
    "rules": lambda: with_space(policy(rules=[rule([f"r{place}/*"], ["a", "b"]) for place in range(SOME)]), binding()),
    "values": lambda: with_space(policy(rules=[rule([f"r{place}" for place in range(MANY)])]), binding()),
    "names": lambda: with_space(*(thing("Namespace", f"n{place}") for place in range(MANY))),
    "params": lambda: of_params(SOME),
}


def hostile_request() -> dict[str, Any]:
    """A request that the policies of hostile states look at."""
    thing_asked = {"apiVersion": "apps/v1", "kind": "Deployment", "metadata": {"name": "web", "namespace": "default"}}
    return request("Deployment", DEPLOYMENT, namespace="default", object=thing_asked)
