"""Quantities of objects of built-in kinds, as an API server stores them.

A chart may write `cpu: 0.5`. An API server reads a quantity of a number as of a text, here `500m`, and rounds those of
lists of resources up to thousandths (k8s.io/kubernetes/pkg/apis/core/v1, `SetDefaults_ResourceList`).
"""

import sys
from decimal import Decimal
from typing import Any, Iterator, Union

from .quantity_texts import stored

CLAIM = ("resources.requests.*", "resources.limits.*")
DIVISORS = ("downwardAPI.items[].resourceFieldRef.divisor", "projected.sources[].downwardAPI.items[].resourceFieldRef.divisor")
CONTAINER = (*CLAIM, "env[].valueFrom.resourceFieldRef.divisor")
POD = (
    *(f"{key}[].{path}" for key in ("containers", "initContainers", "ephemeralContainers") for path in CONTAINER),
    *CLAIM, "overhead.*", "volumes[].emptyDir.sizeLimit",
    *(f"volumes[].ephemeral.volumeClaimTemplate.spec.{path}" for path in CLAIM),
    *(f"volumes[].{path}" for path in DIVISORS),
)
WORKLOAD = tuple(f"spec.template.spec.{path}" for path in POD)
LIMITS = ("max", "min", "default", "defaultRequest", "maxLimitRequestRatio")
METRICS = (
    *(f"{kind}.target.averageValue" for kind in ("resource", "containerResource", "pods", "object", "external")),
    *(f"{kind}.target.value" for kind in ("resource", "containerResource", "pods", "object", "external")),
)
DEVICES = ("spec.devices[].capacity.*.value", "spec.devices[].basic.capacity.*.value")
# by group and kind the paths of quantities; `*` is any key, `[]` any item. A path that ends with `*` is a list of resources
PATHS = {
    ("", "Pod"): tuple(f"spec.{path}" for path in POD),
    ("", "PodTemplate"): tuple(f"template.spec.{path}" for path in POD),
    ("", "ReplicationController"): WORKLOAD,
    ("apps", "Deployment"): WORKLOAD,
    ("apps", "DaemonSet"): WORKLOAD,
    ("apps", "ReplicaSet"): WORKLOAD,
    ("apps", "StatefulSet"): (*WORKLOAD, *(f"spec.volumeClaimTemplates[].spec.{path}" for path in CLAIM)),
    ("batch", "Job"): WORKLOAD,
    ("batch", "CronJob"): tuple(f"spec.jobTemplate.{path}" for path in WORKLOAD),
    ("", "PersistentVolumeClaim"): tuple(f"spec.{path}" for path in CLAIM),
    ("", "PersistentVolume"): ("spec.capacity.*",),
    ("", "ResourceQuota"): ("spec.hard.*",),
    ("", "LimitRange"): tuple(f"spec.limits[].{key}.*" for key in LIMITS),
    ("", "Node"): ("status.capacity.*", "status.allocatable.*"),
    ("autoscaling", "HorizontalPodAutoscaler"): tuple(f"spec.metrics[].{path}" for path in METRICS),
    ("node.k8s.io", "RuntimeClass"): ("overhead.podFixed.*",),
    ("storage.k8s.io", "CSIStorageCapacity"): ("capacity", "maximumVolumeSize"),
    ("resource.k8s.io", "ResourceSlice"): DEVICES,
}


def steps_of(path: str) -> list[str]:
    """A path as keys, `*` and `[]`."""
    return [step for part in path.split(".") for step in (part.removesuffix("[]"), "[]" * part.endswith("[]")) if step]


def tree_of(paths: tuple[str, ...]) -> dict[str, Any]:
    """The steps of paths as a tree, so that what paths share is walked once; a leaf is empty."""
    tree: dict[str, Any] = {}
    for path in paths:
        below = tree
        for step in steps_of(path):
            below = below.setdefault(step, {})
    return tree


TREES = {kind: tree_of(paths) for kind, paths in PATHS.items()}


def text_of(value: Union[int, float]) -> str:
    """A number as Go's JSON writes it: with an exponent below 1e-6 and from 1e21 on."""
    number = Decimal(repr(value))
    if isinstance(value, int) or value == 0 or Decimal("1e-6") <= abs(number) < Decimal("1e21"):
        return f"{number:f}"
    digits, _, exponent = f"{number.normalize():e}".partition("e")
    return f"{digits}e{int(exponent):+d}"


def quantity_of(value: Union[int, float], is_resource: bool = False) -> str:
    """The text that an API server stores of a number."""
    return stored(text_of(value), is_resource)


def places(value: Any, tree: dict[str, Any]) -> Iterator[tuple[dict[str, Any], str, bool]]:
    """The map and the key of each value at the leaves of a tree of steps, and whether it is of a list of resources."""
    if not isinstance(value, dict):
        return
    for step, below in tree.items():
        for key in list(value) if step == "*" else [step] if step in value else []:
            if not below:
                yield value, key, step == "*"
                continue
            items = below.get("[]")
            if items is None:
                yield from places(value[key], below)
            elif isinstance(value[key], list):
                for item in value[key]:
                    yield from places(item, items)


def is_number(value: Any) -> bool:
    """Whether a value is a number that JSON has, and no larger than a double."""
    return isinstance(value, (int, float)) and not isinstance(value, bool) and abs(value) <= sys.float_info.max


def write_quantities(thing: dict[str, Any]) -> None:
    """Replaces the quantities of an object by what an API server stores."""
    group = thing["apiVersion"].rpartition("/")[0]
    for holder, key, is_resource in places(thing, TREES.get((group, thing["kind"]), {})):
        value = holder[key]
        if isinstance(value, str):
            holder[key] = stored(value, is_resource)
        elif is_number(value):
            holder[key] = quantity_of(value, is_resource)
