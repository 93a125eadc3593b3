"""The few names, labels and resources that states and requests have in common, so that they often meet."""

from dataclasses import dataclass
from typing import Any


@dataclass(frozen=True)
class Kind:
    """A kind with its resource, whether its objects have namespaces, and the subresources that it is asked for."""

    group: str
    version: str
    kind: str
    plural: str
    namespaced: bool = True
    subresources: tuple[Any, ...] = ("status", "status", "a/b")

    @property
    def resource(self) -> tuple[Any, ...]:
        return self.group, self.version, self.plural


CORE_NAMESPACE = Kind("", "v1", "Namespace", "namespaces", False, ("status", "finalize", "a/b"))
KINDS = [
    Kind("", "v1", "Pod", "pods", True, ("status", "exec", "exec", "eviction", "a/b")),
    Kind("", "v1", "Pod", "pods", True, ("status", "exec")),
    Kind("", "v1", "ConfigMap", "configmaps"),
    Kind("", "v1", "Node", "nodes", False),
    CORE_NAMESPACE,
    CORE_NAMESPACE,
    # only version v1 of namespaces is of the cluster even if the request has a namespace
    Kind("", "v2", "Namespace", "namespaces"),
    Kind("corp.example.com", "v1", "Namespace", "namespaces"),
    Kind("corp.example.com", "v1", "Namespace", "namespaces", False),
    Kind("apps", "v1", "Deployment", "deployments", True, ("status", "scale")),
    Kind("extensions", "v1beta1", "Deployment", "deployments", True, ("status", "scale")),
    Kind("", "v1", "Event", "events"),
    Kind("events.k8s.io", "v1", "Event", "events"),
    Kind("x.io", "v1", "Widget", "widgets"),
    Kind("x.io", "v1beta1", "Widget", "widgets"),
    Kind("x.io", "v1", "Team", "teams", False),
]
# resources that no policy is asked about, and one that looks like them
RARE_KINDS = [
    Kind("admissionregistration.k8s.io", "v1", "ValidatingAdmissionPolicy", "validatingadmissionpolicies", False),
    Kind("admissionregistration.k8s.io", "v1beta1", "MutatingAdmissionPolicy", "mutatingadmissionpolicies", False),
    Kind("admissionregistration.k8s.io", "v1", "ValidatingWebhookConfiguration", "validatingwebhookconfigurations", False),
    Kind("authentication.k8s.io", "v1", "TokenReview", "tokenreviews", False),
    Kind("authorization.k8s.io", "v1", "LocalSubjectAccessReview", "localsubjectaccessreviews"),
    Kind("x.io", "v1", "TokenReview", "tokenreviews"),
]
NAMESPACES = ["prod", "dev", "test", "kube-system"]
NAMES = ["web", "web", "db", "a"]
KEYS = ["env", "env", "team", "example.com/owner"]
VALUES = ["prod", "prod", "dev", "", "a"]
OPERATIONS = ["CREATE", "UPDATE", "DELETE", "CONNECT"]
# in no order, and one is the beginning of another
POLICY_NAMES = ["q", "p", "p-1", "p.a", "P", "é", "\U0001f600", "\ufffd"]
BINDING_NAMES = ["c", "b", "b-1", "B", "ä"]
PARAM_NAMES = ["b", "a", "c", "limits"]
CONFIG_MAP = {"apiVersion": "v1", "kind": "ConfigMap"}
NAMESPACE = {"apiVersion": "v1", "kind": "Namespace"}
LIMIT = {"apiVersion": "x.io/v1", "kind": "Limit"}
# no object of it is ever listed
NOWHERE = {"apiVersion": "y.io/v1", "kind": "Nothing"}
