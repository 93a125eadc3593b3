"""What a cluster decides, by worked cases: a state, a request, and the answer of the definition."""

import json
import unittest
from typing import Any

from ..clusters.making import binding, definition, list_text, policy, request, review_text, rule, thing
from ..evaluator.cluster import response, starting, state
from ..evaluator.refused import Refused
from ..home import ROOT, is_checkout

POD, NODE, SPACE = ("", "v1", "pods"), ("", "v1", "nodes"), ("", "v1", "namespaces")
FOREIGN_SPACE = ("corp.example.com", "v1", "namespaces")
PROD = thing("Namespace", "prod", labels={"env": "prod"})
IN_PROD = {"namespaceSelector": {"matchLabels": {"env": "prod"}}}
LIMITS = {"apiVersion": "v1", "kind": "ConfigMap"}
LIMITS_X = thing("ConfigMap", "x", namespace="prod")
FALSE = [{"expression": "false", "message": "m"}]
ALLOWED = '"allowed":true,"uid":"u1"'
WARNING = "Validation failed for ValidatingAdmissionPolicy 'p' with binding 'b': "
ANNOTATION = "validation.policy.admission.k8s.io/validation_failure"
# of a request for another version of a custom resource
BETA = request("Widget", ("x.io", "v1beta1", "widgets"), namespace="prod")


def pod(**more: Any) -> dict[str, Any]:
    return request("Pod", POD, **{"namespace": "prod", **more})


def denies(**more: Any) -> list[Any]:
    """A policy that denies what it matches, and its binding."""
    return [policy(validations=FALSE, **more), binding()]


def denial(message: str, reason: str = "Invalid", code: int = 422) -> str:
    return f'"allowed":false,"status":{{"code":{code},"message":{json.dumps(message)},"reason":"{reason}"}},"uid":"u1"'


def forbidden(message: str = "m", resource: str = "pods", name: str = "web", bound: str = " with binding 'b'", **more: Any) -> str:
    return denial(f"{resource} \"{name}\" is forbidden: ValidatingAdmissionPolicy 'p'{bound} denied request: {message}", **more)


def not_configured(part: str, message: str, **more: Any) -> str:
    return forbidden(f"failed to configure {part}: {message}", **more)


def annotated(text: str) -> str:
    return f'"auditAnnotations":{{"{ANNOTATION}":{json.dumps(text)}}}'


class Cases(unittest.TestCase):
    def check(self, items: list[Any], given: dict[str, Any], wanted: str, partial: bool = False) -> None:
        """The answer under a state of these items and the namespace prod: what is wanted in `response`, or a whole line."""
        opened = state.opened([list_text([*items, PROD])], partial)
        whole = f'{{"apiVersion":"admission.k8s.io/v1","kind":"AdmissionReview","response":{{{wanted}}}}}'
        self.assertEqual(response.answer(opened, review_text(given)), wanted if wanted.startswith("{") else whole)

    def refused(self, text: str, policy_name: str = "p") -> str:
        return f'{{"policy":"{policy_name}","refused":"{text}","uid":"u1"}}'


class Matching(Cases):
    def test_resources(self) -> None:
        run = request("PodExecOptions", POD, "CONNECT", subResource="exec")
        self.check(denies(rules=[rule(["pods/*"])]), pod(), forbidden())
        self.check(denies(rules=[rule(["*"])]), run, ALLOWED)
        self.check(denies(rules=[rule(["*/*"])]), run, forbidden())
        self.check(denies(rules=[rule(["/"])]), pod(), ALLOWED)

    def test_scopes(self) -> None:
        ending = request("Namespace", SPACE, "UPDATE", name="prod", namespace="prod", subResource="finalize")
        self.check(denies(rules=[rule(["*/*"], versions=["v1"], scope="Namespaced")]), ending, ALLOWED)
        self.check(denies(rules=[rule(["*/*"], scope="Cluster")]), ending, forbidden(resource="namespaces", name="prod"))
        foreign = request("Namespace", FOREIGN_SPACE, namespace="prod")
        self.check(denies(rules=[rule(scope="Namespaced")]), foreign, forbidden(resource="namespaces.corp.example.com"))
        # in another version that the server may serve, a namespace would have the scope Namespaced
        self.check(denies(rules=[rule(["*/*"], scope="Namespaced")]), ending, self.refused("N6"))

    def test_namespace_selectors(self) -> None:
        selected = denies(constraints=IN_PROD)
        self.check(selected, request("Node", NODE), forbidden(resource="nodes"))
        old = {"metadata": {"labels": {"env": "dev"}}}
        going = request("Namespace", SPACE, "DELETE", name="prod", namespace="prod", oldObject=old)
        self.check(selected, going, forbidden(resource="namespaces", name="prod"))
        new = {"metadata": {"name": "new", "labels": {"env": "prod"}}}
        coming = request("Namespace", SPACE, name="new", namespace="new", object=new)
        self.check(selected, coming, forbidden(resource="namespaces", name="new"))
        collection = request("Namespace", SPACE, "DELETE", name="")
        self.check(selected, collection, not_configured(
            "policy", "Internal error occurred: resource name may not be empty", resource="namespaces", name="Unknown", bound=""))

    def test_a_namespace_that_is_not_there(self) -> None:
        gone = pod(namespace="gone")
        missing = 'namespaces "gone" not found'
        self.check([policy(constraints=IN_PROD), binding()], gone, not_configured("policy", missing, bound=""))
        self.check([policy(constraints=IN_PROD, failurePolicy="Ignore"), binding()], gone, ALLOWED)
        self.check([policy(), binding(matchResources=IN_PROD)], gone, not_configured("binding", missing))
        self.check([policy(failurePolicy="Ignore"), binding(actions=["Audit"])], gone, denial(missing, "NotFound", 404))
        odd = 'namespaces "a\\"\\\\" not found'
        self.check([policy(), binding()], pod(namespace='a"\\'), denial(odd, "NotFound", 404))

    def test_object_selectors(self) -> None:
        absent = {"objectSelector": {"matchExpressions": [{"key": "env", "operator": "DoesNotExist"}]}}
        run = pod(operation="CONNECT", subResource="exec", object={"stdin": True})
        self.check(denies(rules=[rule(["*/*"])], constraints=absent), run, ALLOWED)
        was = {"metadata": {"labels": {"env": "prod"}}}
        self.check(denies(constraints={"objectSelector": IN_PROD["namespaceSelector"]}), pod(oldObject=was), forbidden())

    def test_equivalents(self) -> None:
        widgets = [rule(["widgets"], ["x.io"], ["v1"])]
        self.check(denies(rules=widgets), BETA, self.refused("N6"))
        self.check(denies(rules=widgets, constraints={"matchPolicy": "Exact"}), BETA, ALLOWED)
        self.check([policy(validations=FALSE), binding(matchResources={"resourceRules": widgets})], BETA, self.refused("N6"))

    def test_exempt_resources(self) -> None:
        rules = [rule(["*/*"])]
        own = request("ValidatingAdmissionPolicy", ("admissionregistration.k8s.io", "v1", "validatingadmissionpolicies"))
        self.check(denies(rules=rules), own, ALLOWED)
        hooks = "validatingwebhookconfigurations"
        hook = request("ValidatingWebhookConfiguration", ("admissionregistration.k8s.io", "v1", hooks))
        self.check(denies(rules=rules), hook, forbidden(resource=f"{hooks}.admissionregistration.k8s.io"))

    def test_what_a_webhook_got_converted(self) -> None:
        pods = {"group": "", "version": "v1", "resource": "pods"}
        self.check([], pod(requestResource=pods, requestSubResource=""), ALLOWED)
        self.check([], pod(requestResource={**pods, "version": "v2"}), '{"refused":"N2","uid":"u1"}')
        self.check([], pod(requestSubResource="status"), '{"refused":"N2","uid":"u1"}')


class Params(Cases):
    NAMES = [{"expression": "false", "messageExpression": "params.metadata.name"}]

    def test_none_are_asked_for(self) -> None:
        without = policy(paramKind=LIMITS, validations=[{"expression": "params != null", "message": "m"}])
        self.check([without, binding(), LIMITS_X], pod(), forbidden())

    def test_where_they_are(self) -> None:
        maps = [thing("ConfigMap", name, namespace=space) for name, space in (("b", "prod"), ("a", "prod"), ("0", "dev"))]
        found = {"selector": {}, "parameterNotFoundAction": "Deny"}
        self.check([policy(paramKind=LIMITS, validations=self.NAMES), binding(paramRef=found), *maps], pod(), forbidden("a"))
        in_dev = binding(paramRef={**found, "namespace": "dev"})
        self.check([policy(paramKind=LIMITS, validations=self.NAMES), in_dev, *maps], pod(), forbidden("0"))

    def test_errors(self) -> None:
        named = {"name": "y", "parameterNotFoundAction": "Deny"}
        items = [policy(paramKind=LIMITS), binding(actions=["Warn"], paramRef=named), LIMITS_X]
        self.check(items, request("Node", NODE), not_configured(
            "binding", "cannot use namespaced paramRef in policy binding that matches cluster-scoped resources", resource="nodes"))
        self.check(items, pod(), not_configured("binding", "no params found for policy binding with `Deny` parameterNotFoundAction"))
        spaces = [policy(paramKind={"apiVersion": "v1", "kind": "Namespace"}), binding(paramRef={**named, "namespace": "prod"})]
        self.check(spaces, pod(), not_configured("binding", "paramRef.namespace must not be provided for a cluster-scoped `paramKind`"))

    def test_none_there_but_allowed(self) -> None:
        allowed = binding(paramRef={"name": "y", "parameterNotFoundAction": "Allow"})
        items = [policy(paramKind=LIMITS, validations=FALSE), allowed, LIMITS_X]
        self.check(items, pod(), ALLOWED)
        self.check(items, pod(namespace="gone"), denial('namespaces "gone" not found', "NotFound", 404))


class Answers(Cases):
    def test_an_error_is_invalid(self) -> None:
        divided = [{"expression": "1/0 == 1", "reason": "Forbidden"}]
        self.check([policy(validations=divided), binding()], pod(), forbidden("expression '1/0 == 1' resulted in error"))
        self.check([policy(validations=divided, failurePolicy="Ignore"), binding()], pod(), ALLOWED)
        undecided = [{"name": "c", "expression": "1/0 == 1"}]
        self.check([policy(matchConditions=undecided), binding()], pod(), forbidden("match conditions not decided"))

    def test_messages(self) -> None:
        for validation, wanted in [
            ({"expression": " false "}, "failed expression: false"),
            ({"expression": "false", "message": " m\t"}, "m"),
            ({"expression": "false", "message": " "}, "failed expression: false"),
            ({"expression": "false", "messageExpression": "'\\u00a0n '", "message": "m"}, "n"),
            ({"expression": "false", "messageExpression": "'a\\nb'", "message": "m"}, "m"),
            ({"expression": "false", "messageExpression": "'a\\n'", "message": "m"}, "a"),
            ({"expression": "false", "messageExpression": f"'{'a' * 5121}'", "message": "m"}, "m"),
            ({"expression": "false", "messageExpression": f"'{'a' * 5120} '", "message": "m"}, "a" * 5120),
        ]:
            with self.subTest(validation):
                self.check([policy(validations=[validation]), binding()], pod(), forbidden(wanted))

    def test_only_the_first_denial_is_told(self) -> None:
        two = [{"expression": "false", "message": "m", "reason": "Forbidden"}, {"expression": "false", "message": "n"}]
        self.check([policy(validations=two), binding()], pod(), forbidden(reason="Forbidden", code=403))

    def test_warnings_and_annotations(self) -> None:
        two = policy(validations=[*FALSE, {"expression": "false", "message": "n"}])
        told = '[{"message":"m","policy":"p","binding":"b","expressionIndex":0,"validationActions":["Warn","Audit"]}]'
        self.check([two, binding(actions=["Warn", "Audit"])], pod(),
                   f'"allowed":true,{annotated(told)},"uid":"u1","warnings":["{WARNING}m","{WARNING}n"]')
        self.check([policy(validations=FALSE * 2), binding(actions=["Warn"])], pod(), f'{ALLOWED},"warnings":["{WARNING}m"]')
        escaped = told.replace('"m"', '"\\u003ca\\u0026\\u2028b"').replace('"Warn",', "")
        self.check([policy(validations=[{"expression": "false", "message": "<a&\u2028b"}]), binding(actions=["Audit"])], pod(),
                   f'"allowed":true,{annotated(escaped)},"uid":"u1"')

    def test_names(self) -> None:
        named: list[tuple[dict[str, Any], str]] = [
            ({"name": 'a"\\'}, 'a\\"\\\\'),
            ({"name": "", "object": {"metadata": {"generateName": "web-"}}}, "web-"),
            ({"name": "", "object": {"metadata": {"name": 1}}}, "Unknown"),
            ({"name": "", "object": {"spec": {}}}, "Unknown/errorGettingName"),
            ({"name": "", "operation": "DELETE"}, "Unknown"),
        ]
        for more, name in named:
            with self.subTest(name):
                self.check(denies(), pod(**more), forbidden(name=name))


class Refusals(Cases):
    # 1.5 is refused as a number of the request, but only if a policy is asked
    HALF = {"metadata": {"name": "web"}, "spec": {"share": 0.5}}

    def test_reviews(self) -> None:
        opened = state.opened([list_text([PROD])])
        for text, wanted in [
            (b"{", '{"refused":"N2"}'),
            (b'{"request":{"uid":"u"}}', '{"refused":"N2","uid":"u"}'),
            (review_text({"uid": 1}), '{"refused":"N2"}'),
            (review_text(pod(operation="PATCH")), '{"refused":"N2","uid":"u1"}'),
            (review_text(pod(object=None)), '{"refused":"N2","uid":"u1"}'),
        ]:
            with self.subTest(text):
                self.assertEqual(response.answer(opened, text), wanted)

    def test_roots(self) -> None:
        self.check(denies(), pod(object=self.HALF), self.refused("N2"))
        self.check([], pod(object=self.HALF), ALLOWED)
        share = {**thing("ConfigMap", "x", namespace="prod"), "data": 0.5}
        found = {"name": "x", "parameterNotFoundAction": "Deny"}
        self.check([policy(paramKind=LIMITS), binding(paramRef=found), share], pod(), self.refused("N3"))

    def test_the_next_policy_is_asked(self) -> None:
        half = pod(object=self.HALF)
        widgets = [rule(["widgets"], ["x.io"], ["v1"])]
        later = [policy("q", rules=[rule(["pods"])], validations=FALSE), binding("c", "q", actions=["Warn"])]
        self.check([*denies(rules=widgets), *later], BETA, self.refused("N6"))
        # the answer has the first refusal of the policies under Fail
        self.check([*denies(), *later], half, self.refused("N2"))
        ignoring = [policy(validations=FALSE, failurePolicy="Ignore"), binding()]
        also = [policy("q", failurePolicy="Ignore"), binding("c", "q")]
        self.check([*ignoring, *also, policy("r"), binding("d", "r")], half, self.refused("N2", "r"))
        self.check([*denies(), *also], half, self.refused("N2"))
        # or else the first
        self.check([*ignoring, *also], half, self.refused("N2"))
        # and a denial wins over it
        not_there = binding("c", "q", paramRef={"name": "y", "parameterNotFoundAction": "Deny"})
        self.check([*denies(), policy("q", paramKind=LIMITS), not_there, LIMITS_X], half, denial(
            "pods \"web\" is forbidden: ValidatingAdmissionPolicy 'q' with binding 'c' denied request: "
            "failed to configure binding: no params found for policy binding with `Deny` parameterNotFoundAction"))

    def test_a_refusal_passes_over_the_rest_of_its_binding(self) -> None:
        found = {"selector": {}, "parameterNotFoundAction": "Deny"}
        maps = [{**thing("ConfigMap", "a", namespace="prod"), "data": 0.5}, thing("ConfigMap", "b", namespace="prod")]
        self.check([policy(paramKind=LIMITS, validations=FALSE), binding(paramRef=found), *maps], pod(), self.refused("N3"))
        # and the next binding is asked
        denied = [policy(paramKind=LIMITS, validations=FALSE), binding("a", paramRef=found), binding()]
        self.check([*denied, *maps], pod(), forbidden())
        unknown = binding("a", matchResources={"resourceRules": [rule(["widgets"], ["x.io"], ["v1"])]})
        widgets = {"resource": "widgets.x.io"}
        self.check([policy(validations=FALSE), unknown, binding()], BETA, forbidden(**widgets))
        self.check([policy(validations=FALSE), unknown, binding(actions=["Warn"])], BETA, self.refused("N6"))
        self.check([policy(), unknown, binding()], BETA, self.refused("N6"))

    def test_a_missing_namespace_wins_over_a_refusal(self) -> None:
        blocked = policy("a", validations=[{"expression": "'a'.matches('a')"}])
        items = [blocked, binding("a", "a"), policy(), binding()]
        self.check(items, pod(namespace="gone"), denial('namespaces "gone" not found', "NotFound", 404), True)
        self.check(items, pod(), self.refused("C7", "a"), True)

    def test_blocked_policies(self) -> None:
        matches: dict[str, Any] = {"validations": [{"expression": "'a'.matches('a')"}]}
        self.check([policy(rules=[rule(["nodes"])], **matches), binding()], pod(), ALLOWED, True)
        self.check([policy(**matches), binding(matchResources={"resourceRules": [rule(["nodes"])]})], pod(), self.refused("C7"), True)
        asked: dict[str, Any] = {"matchConditions": [{"name": "c", "expression": "[1].all(x, namespaceObject == null)"}]}
        self.check([policy(**asked), binding()], pod(), self.refused("C7"), True)
        self.check([policy(paramKind=LIMITS), binding()], pod(), self.refused("C8"), True)


class States(unittest.TestCase):
    def refusal(self, *documents: bytes) -> str:
        with self.assertRaises(Refused) as raised:
            state.opened(list(documents))
        return raised.exception.text

    def of_items(self, *items: Any) -> str:
        return self.refusal(list_text([*items, PROD]))

    def test_lists(self) -> None:
        for text in (b"{", b"[]", b'{"apiVersion":"v1","kind":"List"}', b'{"apiVersion":"v1","kind":"Items","items":[]}'):
            with self.subTest(text):
                self.assertEqual(self.refusal(list_text([1]), text), "C1 1")
        # first each text has to be JSON, then each document a list
        self.assertEqual(self.refusal(b"[]", b"{"), "C1 1")
        self.assertEqual(self.refusal(list_text([])), "C4")
        self.assertEqual(self.refusal(list_text([PROD]), list_text([PROD])), "C3 prod")

    def test_items(self) -> None:
        beta = thing("ValidatingAdmissionPolicy", "p", "admissionregistration.k8s.io/v1beta1")
        for item in (1, thing("Pod", ""), thing("Pod", "p", namespace=1), thing("Pod", "p", labels={"a": 1}), beta):
            with self.subTest(item):
                self.assertEqual(self.of_items(PROD, item), "C2 1")

    def test_bindings(self) -> None:
        some = {"matchPolicy": "Some"}
        wrong: list[tuple[dict[str, Any], str]] = [
            ({"mode": "new"}, "spec"),
            ({"policyName": ""}, "spec.policyName"),
            ({"validationActions": []}, "spec.validationActions"),
            ({"validationActions": ["Deny", "Warn"]}, "spec.validationActions"),
            ({"validationActions": ["Audit", "Audit"]}, "spec.validationActions"),
            ({"validationActions": ["deny"]}, "spec.validationActions"),
            ({"matchResources": some}, "spec.matchResources"),
            ({"matchResources": {"namespaceSelector": {"matchLabels": []}}}, "spec.matchResources"),
            ({"paramRef": {"name": "x"}}, "spec.paramRef"),
            ({"paramRef": {"parameterNotFoundAction": "Deny"}}, "spec.paramRef"),
            ({"paramRef": {"name": "x", "selector": {}, "parameterNotFoundAction": "Deny"}}, "spec.paramRef"),
            # the first of several
            ({"mode": "new", "policyName": ""}, "spec"),
            ({"policyName": "", "validationActions": []}, "spec.policyName"),
            ({"validationActions": [], "matchResources": some}, "spec.validationActions"),
            ({"matchResources": some, "paramRef": {}}, "spec.matchResources"),
        ]
        for more, part in wrong:
            with self.subTest(more):
                self.assertEqual(self.of_items(binding("b", "none", **more)), f"C5 b: {part}")

    def test_policies(self) -> None:
        unbound = policy("q", rules=[])
        wrong: list[dict[str, Any]] = [
            {"rules": []}, {"constraints": {"scope": "*"}}, {"paramKind": {"kind": "ConfigMap"}}, {"rules": [{"scope": ""}]},
        ]
        for more in wrong:
            with self.subTest(more):
                self.assertEqual(self.of_items(policy(**more), unbound, binding()), "C6 p")

    def test_compiling(self) -> None:
        kind = {"apiVersion": "x.io/v1", "kind": "Limit"}
        self.assertEqual(self.of_items(policy(validations=[{"expression": "1"}]), binding()), "C7 p K7")
        self.assertEqual(self.of_items(policy(auditAnnotations=[]), binding()), "C7 p K3")
        self.assertEqual(self.of_items(policy(paramKind=kind), binding()), "C8 p")
        other_version = thing("Limit", "a", "x.io/v2")
        served = definition("x.io", "Limit", "limits")
        self.assertEqual(self.of_items(policy(paramKind=kind), binding(), served, other_version), "C8 p")
        self.assertEqual(len(state.opened([list_text([policy(paramKind=kind), binding(), served, PROD])]).policies), 1)

    def test_lines_of_a_start(self) -> None:
        matches = policy("q", validations=[{"expression": "'a'.matches('a')"}], paramKind=LIMITS)
        items = [PROD, LIMITS_X, matches, binding("c", "q"), binding("b", "q"), policy(), binding("a"), policy("unbound")]
        self.assertEqual(starting.policy_lines(state.opened([list_text(items)], True)), [
            "gatekeeper: policy p, bindings a", "gatekeeper: policy q, bindings b c, params v1 ConfigMap 1, blocked C7 K6 validation 0 Y2"])

    def test_scope_of_a_kind(self) -> None:
        kind = ("v1", "ConfigMap")
        cluster = state.read([list_text([PROD, thing("ConfigMap", "a")])])
        both = state.read([list_text([PROD, thing("ConfigMap", "a"), LIMITS_X])])
        self.assertEqual([one.scope(kind) for one in (cluster, both)], ["Cluster", "Namespaced"])
        self.assertIsNone(both.scope(("v1", "Secret")))


@unittest.skipUnless(is_checkout(), "the example is in the repository")
class Example(unittest.TestCase):
    def test_responses_are_those_worked_by_hand(self) -> None:
        folder = ROOT / "examples" / "cluster"
        opened = state.opened([(folder / "state.json").read_bytes()])
        reviews = (folder / "reviews.jsonl").read_bytes().splitlines()
        wanted = (folder / "responses.jsonl").read_text().splitlines()
        self.assertEqual([response.answer(opened, review) for review in reviews], wanted)
