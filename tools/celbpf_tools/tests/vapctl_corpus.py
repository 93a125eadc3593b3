"""The findings of manifests, computed apart from `vapctl` and the programs.

Of `vapctl` it has nothing but the reading of YAML and JSON. Each object becomes a request by the table below, and
tools/celbpf_tools/evaluator/cluster decides it under a state that is put together here.
"""

import json
from collections.abc import Iterator
from fractions import Fraction
from pathlib import Path
from typing import Any, Optional

from .. import documents
from ..evaluator import documents as evaluated
from ..evaluator.cluster import attributes, state
from ..evaluator.cluster.dispatch import Dispatch
from ..evaluator.cluster.events import Events
from ..evaluator.cluster.rules import NO

GROUP = "admissionregistration.k8s.io/v1"
POLICY, BINDING = "ValidatingAdmissionPolicy", "ValidatingAdmissionPolicyBinding"
DEFINITION = "CustomResourceDefinition"
# by group what each kind's resource is called; those of the second table have no namespace
IN_NAMESPACES = {
    "": {
        "ConfigMap": "configmaps", "Endpoints": "endpoints", "LimitRange": "limitranges", "PersistentVolumeClaim": "persistentvolumeclaims",
        "Pod": "pods", "PodTemplate": "podtemplates", "ReplicationController": "replicationcontrollers",
        "ResourceQuota": "resourcequotas", "Secret": "secrets", "Service": "services", "ServiceAccount": "serviceaccounts",
    },
    "apps": {
        "ControllerRevision": "controllerrevisions", "DaemonSet": "daemonsets", "Deployment": "deployments",
        "ReplicaSet": "replicasets", "StatefulSet": "statefulsets",
    },
    "autoscaling": {"HorizontalPodAutoscaler": "horizontalpodautoscalers"},
    "batch": {"CronJob": "cronjobs", "Job": "jobs"},
    "coordination.k8s.io": {"Lease": "leases"},
    "discovery.k8s.io": {"EndpointSlice": "endpointslices"},
    "networking.k8s.io": {"Ingress": "ingresses", "NetworkPolicy": "networkpolicies"},
    "policy": {"PodDisruptionBudget": "poddisruptionbudgets"},
    "rbac.authorization.k8s.io": {"Role": "roles", "RoleBinding": "rolebindings"},
}
IN_CLUSTER = {
    "": {"Namespace": "namespaces", "Node": "nodes", "PersistentVolume": "persistentvolumes"},
    "admissionregistration.k8s.io": {"ValidatingWebhookConfiguration": "validatingwebhookconfigurations"},
    "apiextensions.k8s.io": {DEFINITION: "customresourcedefinitions"},
    "apiregistration.k8s.io": {"APIService": "apiservices"},
    "certificates.k8s.io": {"CertificateSigningRequest": "certificatesigningrequests"},
    "flowcontrol.apiserver.k8s.io": {"FlowSchema": "flowschemas"},
    "networking.k8s.io": {"IngressClass": "ingressclasses"},
    "node.k8s.io": {"RuntimeClass": "runtimeclasses"},
    "rbac.authorization.k8s.io": {"ClusterRole": "clusterroles", "ClusterRoleBinding": "clusterrolebindings"},
    "scheduling.k8s.io": {"PriorityClass": "priorityclasses"},
    "storage.k8s.io": {"CSIDriver": "csidrivers", "StorageClass": "storageclasses"},
}
# what has the name of a quantity in these manifests, and may be a number with a fraction
QUANTITIES = ("averageValue", "cpu", "requests.cpu", "storage")
# the policy, the action and the message of a finding; of what is not decided the message is not compared
Finding = tuple[str, str, str]


def objects(path: Path) -> Iterator[dict[str, Any]]:
    """The objects of a file, with those of lists one by one."""
    for document in documents.all_in(path):
        if not document["kind"].endswith("List"):
            yield document
        for item in document["items"] if document["kind"].endswith("List") else ():
            yield {"apiVersion": document["apiVersion"], "kind": document["kind"].removesuffix("List"), **item}


def quantity(value: Any) -> Any:
    """What is stored of a number as a quantity: a text, with thousandths if it is no whole one."""
    if not isinstance(value, (int, float)) or isinstance(value, bool):
        return "1" if value == "1.0" else value
    number = Fraction(str(value))
    return str(number) if number.denominator == 1 else f"{number * 1000}m"


def text_of(key: Any) -> str:
    """A key, which YAML may have as a bool or a number."""
    return key if isinstance(key, str) else json.dumps(key)


def sent(value: Any, key: str = "") -> Any:
    """A value as it is sent: ints for numbers without a fraction, quantities as texts, and nothing that is empty."""
    if key in QUANTITIES:
        return quantity(value)
    if isinstance(value, float) and value.is_integer():
        return int(value)
    if isinstance(value, list):
        return [sent(item) for item in value]
    if isinstance(value, dict):
        return {text_of(name): sent(part, str(name)) for name, part in value.items()}
    return value


def trimmed(thing: dict[str, Any]) -> dict[str, Any]:
    """An object; of a policy, the expressions and messages have no blanks at their ends, as the gatekeeper reads them."""
    if thing["kind"] != "ValidatingAdmissionPolicy":
        return thing
    validations = [{name: text.strip() for name, text in one.items()} for one in thing["spec"]["validations"]]
    return {**thing, "spec": {**thing["spec"], "validations": validations}}


class Corpus:
    """Policies with their bindings, and the manifests that are checked."""

    def __init__(self, policies: list[Path], manifests: list[Path]):
        self.files = {path: [sent(one) for one in objects(path)] for path in manifests}
        given = [trimmed(one) for path in policies for one in objects(path)]
        things = [one for found in self.files.values() for one in found]
        self.tables = [(IN_NAMESPACES, True), (IN_CLUSTER, False), *map(self.defined, filter(is_definition, things))]
        namespaces = [one for one in given + things if one["kind"] == "Namespace"]
        known = {one["metadata"]["name"] for one in namespaces}
        others = {"default", *(one["metadata"].get("namespace", "default") for one in things)} - known
        made = [*given, *bindings(given), *namespaces_of(sorted(others))]
        made += [one for one in things if is_definition(one) or one in namespaces]
        listed = [one if "namespace" in one["metadata"] or one["kind"] != "ConfigMap" else placed(one) for one in made if one is not None]
        items = list({json.dumps([one["kind"], one["metadata"]]): one for one in listed}.values())
        self.state = state.opened([json.dumps({"apiVersion": "v1", "kind": "List", "items": items}).encode()], True)
        self.actions = {one["metadata"]["name"]: one["spec"]["validationActions"] for one in items if one["kind"] == BINDING}

    def defined(self, definition: dict[str, Any]) -> tuple[dict[str, dict[str, str]], bool]:
        """The table of a CustomResourceDefinition."""
        spec = definition["spec"]
        return {spec["group"]: {spec["names"]["kind"]: spec["names"]["plural"]}}, spec["scope"] == "Namespaced"

    def findings(self) -> dict[str, list[set[Finding]]]:
        """By the name of a file the findings of each of its objects."""
        return {path.name: [self.of_object(one) for one in found] for path, found in self.files.items()}

    def of_object(self, thing: dict[str, Any]) -> set[Finding]:
        """The findings of a request that creates an object."""
        request = self.request_of(thing)
        if request is None:
            return {("", "error", "")}
        return self.of_events(Dispatch(self.state, attributes.of(request), request).run())

    def kept_out(self, thing: dict[str, Any]) -> set[str]:
        """The policies, and the bindings of the others, that do not match the request, as `vapctl why` calls them."""
        asked, found = attributes.of(self.request_of(thing)), set()
        for policy in self.state.policies:
            if policy.constraints.answer(asked, self.state.namespaces) == NO:
                found.add(policy.name)
                continue
            found |= {f"{policy.name}, binding {one.name}" for one in policy.bindings
                      if one.resources.answer(asked, self.state.namespaces) == NO}
        return found

    def request_of(self, thing: dict[str, Any]) -> Optional[dict[str, Any]]:
        """The request that creates an object, if its kind is known."""
        group, _, version = thing["apiVersion"].rpartition("/")
        for table, is_namespaced in self.tables:
            plural = table.get(group, {}).get(thing["kind"])
            if plural:
                made = self.request(thing, (group, version, plural), is_namespaced)
                return dict(evaluated.read(json.dumps(made).encode(), "N2"))
        return None

    def request(self, thing: dict[str, Any], resource: tuple[str, str, str], is_namespaced: bool) -> dict[str, Any]:
        """The request that creates an object."""
        group, version, plural = resource
        name = thing["metadata"].get("name", "")
        made: dict[str, Any] = {
            "uid": "1", "operation": "CREATE", "name": name, "oldObject": None, "object": placed(thing) if is_namespaced else thing,
            "kind": {"group": group, "version": version, "kind": thing["kind"]},
            "resource": {"group": group, "version": version, "resource": plural},
        }
        if is_namespaced or thing["kind"] == "Namespace":
            made["namespace"] = made["object"]["metadata"]["namespace"] if is_namespaced else name
        return made

    def of_events(self, events: Events) -> set[Finding]:
        """What each policy finds, by the most severe action of its binding."""
        found = {(one.policy, "deny", one.message) for one in events.denials}
        for text in events.warnings:
            head, _, message = text.partition("': ")
            policy = head.split("'")[1]
            found.add((policy, "warn", message))
        for one in events.failures:
            if not {"Deny", "Warn"} & set(one.actions):
                found.add((one.policy, "audit", one.message))
        return found | {(one.policy, "error", "") for one in events.refusals}


def is_definition(thing: dict[str, Any]) -> bool:
    return bool(thing["kind"] == DEFINITION)


def placed(thing: dict[str, Any]) -> dict[str, Any]:
    """An object in its namespace."""
    return {**thing, "metadata": {**thing["metadata"], "namespace": thing["metadata"].get("namespace", "default")}}


def bindings(things: list[dict[str, Any]]) -> list[dict[str, Any]]:
    """A binding that denies, for each policy without one."""
    bound = {one["spec"]["policyName"] for one in things if one["kind"] == BINDING}
    names = [one["metadata"]["name"] for one in things if one["kind"] == POLICY and one["metadata"]["name"] not in bound]
    return [{"apiVersion": GROUP, "kind": BINDING, "metadata": {"name": name},
             "spec": {"policyName": name, "validationActions": ["Deny"]}} for name in names]


def namespaces_of(names: list[str]) -> list[dict[str, Any]]:
    """Namespaces whose only label is their name."""
    return [{"apiVersion": "v1", "kind": "Namespace", "metadata": {"name": name, "labels": {"kubernetes.io/metadata.name": name}}}
            for name in names]
