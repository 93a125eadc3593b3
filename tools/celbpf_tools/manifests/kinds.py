"""The resource of a kind: a table of those that are built in, and those of CustomResourceDefinitions."""

from dataclasses import dataclass
from typing import Any, Iterator, Optional

DEFINITION = ("apiextensions.k8s.io", "CustomResourceDefinition")
# kind, plural, scope, group (`core` for the one without a name) and the versions of its API
TABLE = """
ConfigMap                        configmaps                          Namespaced  core                          v1
Endpoints                        endpoints                           Namespaced  core                          v1
Event                            events                              Namespaced  core                          v1
LimitRange                       limitranges                         Namespaced  core                          v1
Namespace                        namespaces                          Cluster     core                          v1
Node                             nodes                               Cluster     core                          v1
PersistentVolume                 persistentvolumes                   Cluster     core                          v1
PersistentVolumeClaim            persistentvolumeclaims              Namespaced  core                          v1
Pod                              pods                                Namespaced  core                          v1
PodTemplate                      podtemplates                        Namespaced  core                          v1
ReplicationController            replicationcontrollers              Namespaced  core                          v1
ResourceQuota                    resourcequotas                      Namespaced  core                          v1
Secret                           secrets                             Namespaced  core                          v1
Service                          services                            Namespaced  core                          v1
ServiceAccount                   serviceaccounts                     Namespaced  core                          v1
MutatingAdmissionPolicy          mutatingadmissionpolicies           Cluster     admissionregistration.k8s.io  v1 v1beta1 v1alpha1
MutatingAdmissionPolicyBinding   mutatingadmissionpolicybindings     Cluster     admissionregistration.k8s.io  v1 v1beta1 v1alpha1
MutatingWebhookConfiguration     mutatingwebhookconfigurations       Cluster     admissionregistration.k8s.io  v1
ValidatingAdmissionPolicy        validatingadmissionpolicies         Cluster     admissionregistration.k8s.io  v1 v1beta1 v1alpha1
ValidatingAdmissionPolicyBinding validatingadmissionpolicybindings   Cluster     admissionregistration.k8s.io  v1 v1beta1 v1alpha1
ValidatingWebhookConfiguration   validatingwebhookconfigurations     Cluster     admissionregistration.k8s.io  v1
CustomResourceDefinition         customresourcedefinitions           Cluster     apiextensions.k8s.io          v1
APIService                       apiservices                         Cluster     apiregistration.k8s.io        v1
ControllerRevision               controllerrevisions                 Namespaced  apps                          v1
DaemonSet                        daemonsets                          Namespaced  apps                          v1
Deployment                       deployments                         Namespaced  apps                          v1
ReplicaSet                       replicasets                         Namespaced  apps                          v1
StatefulSet                      statefulsets                        Namespaced  apps                          v1
HorizontalPodAutoscaler          horizontalpodautoscalers            Namespaced  autoscaling                   v2 v1
CronJob                          cronjobs                            Namespaced  batch                         v1
Job                              jobs                                Namespaced  batch                         v1
CertificateSigningRequest        certificatesigningrequests          Cluster     certificates.k8s.io           v1
ClusterTrustBundle               clustertrustbundles                 Cluster     certificates.k8s.io           v1 v1beta1 v1alpha1
Lease                            leases                              Namespaced  coordination.k8s.io           v1
EndpointSlice                    endpointslices                      Namespaced  discovery.k8s.io              v1
Event                            events                              Namespaced  events.k8s.io                 v1
FlowSchema                       flowschemas                         Cluster     flowcontrol.apiserver.k8s.io  v1
PriorityLevelConfiguration       prioritylevelconfigurations         Cluster     flowcontrol.apiserver.k8s.io  v1
IPAddress                        ipaddresses                         Cluster     networking.k8s.io             v1 v1beta1
Ingress                          ingresses                           Namespaced  networking.k8s.io             v1
IngressClass                     ingressclasses                      Cluster     networking.k8s.io             v1
NetworkPolicy                    networkpolicies                     Namespaced  networking.k8s.io             v1
ServiceCIDR                      servicecidrs                        Cluster     networking.k8s.io             v1 v1beta1
RuntimeClass                     runtimeclasses                      Cluster     node.k8s.io                   v1
PodDisruptionBudget              poddisruptionbudgets                Namespaced  policy                        v1
ClusterRole                      clusterroles                        Cluster     rbac.authorization.k8s.io     v1
ClusterRoleBinding               clusterrolebindings                 Cluster     rbac.authorization.k8s.io     v1
Role                             roles                               Namespaced  rbac.authorization.k8s.io     v1
RoleBinding                      rolebindings                        Namespaced  rbac.authorization.k8s.io     v1
DeviceClass                      deviceclasses                       Cluster     resource.k8s.io               v1 v1beta2 v1beta1
ResourceClaim                    resourceclaims                      Namespaced  resource.k8s.io               v1 v1beta2 v1beta1
ResourceClaimTemplate            resourceclaimtemplates              Namespaced  resource.k8s.io               v1 v1beta2 v1beta1
ResourceSlice                    resourceslices                      Cluster     resource.k8s.io               v1 v1beta2 v1beta1
PriorityClass                    priorityclasses                     Cluster     scheduling.k8s.io             v1
CSIDriver                        csidrivers                          Cluster     storage.k8s.io                v1
CSINode                          csinodes                            Cluster     storage.k8s.io                v1
CSIStorageCapacity               csistoragecapacities                Namespaced  storage.k8s.io                v1
StorageClass                     storageclasses                      Cluster     storage.k8s.io                v1
VolumeAttachment                 volumeattachments                   Cluster     storage.k8s.io                v1
VolumeAttributesClass            volumeattributesclasses             Cluster     storage.k8s.io                v1 v1beta1
"""


@dataclass(frozen=True)
class Resource:
    """The plural of a kind in its group, and whether its objects have namespaces."""

    group: str
    version: str
    kind: str
    plural: str
    namespaced: bool


def group_version(api_version: str) -> tuple[str, str]:
    """Group, which is empty for the core one, and version."""
    group, _, version = api_version.rpartition("/")
    return group, version


def built_in() -> Iterator[Resource]:
    """The resources of the table."""
    for line in TABLE.strip().split("\n"):
        kind, plural, scope, group, *versions = line.split()
        for version in versions:
            yield Resource("" if group == "core" else group, version, kind, plural, scope == "Namespaced")


def served(definition: dict[str, Any]) -> Iterator[Resource]:
    """The resources of a CustomResourceDefinition, none if it is not whole."""
    spec: Any = definition.get("spec")
    try:
        names, scope = spec["names"], spec["scope"]
        for version in spec["versions"]:
            if version.get("served", True):
                yield Resource(spec["group"], version["name"], names["kind"], names["plural"], scope == "Namespaced")
    except (AttributeError, KeyError, TypeError):
        return


class Resources:
    """Resources by group, version and kind."""

    def __init__(self) -> None:
        self.known: dict[tuple[str, str, str], Resource] = {}
        self.add(built_in())
        self.built_in_groups = {one.group for one in self.known.values()}

    def add(self, resources: Iterator[Resource]) -> None:
        for one in resources:
            self.known[one.group, one.version, one.kind] = one

    def define(self, things: list[Any]) -> None:
        """Takes the definitions among objects."""
        for thing in things:
            if (group_version(thing["apiVersion"])[0], thing["kind"]) == DEFINITION:
                self.add(served(thing))

    def is_alone(self, group: str, plural: str) -> bool:
        """Whether a resource has one version, and none in another group, so that no API server converts a request for it."""
        groups = self.built_in_groups if group in self.built_in_groups else {group}
        return sum(one.plural == plural and one.group in groups for one in self.known.values()) == 1

    def of(self, thing: dict[str, Any]) -> Optional[Resource]:
        """The resource of an object, or None if its kind is not known."""
        return self.known.get((*group_version(thing["apiVersion"]), thing["kind"]))
