"""An audit of ten thousand Deployments: how long it takes, and whether its numbers are those that are counted here too."""

import json
import os
import subprocess
import sys
import time
from collections import Counter
from pathlib import Path
from typing import Any

from celbpf_tools.home import DATA, ROOT

from .runs import row

COUNT = 10_000
# five policies, two of which are about other kinds
POLICIES = DATA / "vapctl" / "policies"
NAMESPACES = ("shop", "billing", "search", "ops", "data", "web", "batch", "edge")
LIMITS = ("250m", "500m", "1", "2")
# the numbers of `byNamespace` that are compared
OUTCOMES = ("objects", "allowed", "denied", "warned")


def container(number: int) -> dict[str, Any]:
    """A container; that of each 23rd Deployment has the tag latest, and that of each 29th a limit of 750m."""
    tag = "latest" if number % 23 == 7 else f"1.{number % 40}.0"
    cpu = "750m" if number % 29 == 3 else LIMITS[number % 4]
    return {
        "env": [{"name": "MODE", "value": f"mode-{number % 97}"}],
        "image": f"registry.example.com/team-{number % 13}/app:{tag}", "imagePullPolicy": "IfNotPresent", "name": "app",
        "ports": [{"containerPort": 8080, "name": "http", "protocol": "TCP"}],
        "resources": {"limits": {"cpu": cpu, "memory": "256Mi"}, "requests": {"cpu": "100m", "memory": "128Mi"}},
        "terminationMessagePath": "/dev/termination-log", "terminationMessagePolicy": "File",
    }


def deployment(number: int) -> dict[str, Any]:
    """A Deployment as `kubectl get -o json` prints it; each 11th has five replicas, and each 5th no label owner."""
    name, replicas = f"app-{number:05}", 5 if number % 11 == 4 else 1 + number % 3
    labels = {"app.kubernetes.io/name": name, "app.kubernetes.io/part-of": f"part-{number % 50}", "owner": f"team-{number % 13}"}
    own = {key: value for key, value in labels.items() if key != "owner" or number % 5}
    metadata = {
        "annotations": {"deployment.kubernetes.io/revision": str(1 + number % 9)}, "creationTimestamp": "2026-11-01T08:00:00Z",
        "generation": 1 + number % 9, "labels": own, "name": name, "namespace": NAMESPACES[number % len(NAMESPACES)],
        "resourceVersion": str(100_000 + number), "uid": f"00000000-0000-4000-8000-{number:012}",
    }
    pod = {
        "containers": [container(number)], "dnsPolicy": "ClusterFirst", "restartPolicy": "Always",
        "schedulerName": "default-scheduler", "securityContext": {}, "terminationGracePeriodSeconds": 30,
    }
    selected = {"app.kubernetes.io/name": name}
    spec = {
        "progressDeadlineSeconds": 600, "replicas": replicas, "revisionHistoryLimit": 10, "selector": {"matchLabels": selected},
        "strategy": {"rollingUpdate": {"maxSurge": "25%", "maxUnavailable": "25%"}, "type": "RollingUpdate"},
        "template": {"metadata": {"creationTimestamp": None, "labels": selected}, "spec": pod},
    }
    condition = {"lastTransitionTime": "2026-11-01T08:00:10Z", "lastUpdateTime": "2026-11-01T08:00:10Z", "status": "True"}
    status = {
        "availableReplicas": replicas, "observedGeneration": 1 + number % 9, "readyReplicas": replicas, "replicas": replicas,
        "updatedReplicas": replicas, "conditions": [
            {**condition, "message": "Deployment has minimum availability.", "reason": "MinimumReplicasAvailable", "type": "Available"},
            {**condition, "message": f"ReplicaSet \"{name}-5d4f\" has successfully progressed.", "reason": "NewReplicaSetAvailable",
             "type": "Progressing"},
        ],
    }
    return {"apiVersion": "apps/v1", "kind": "Deployment", "metadata": metadata, "spec": spec, "status": status}


def write(path: Path) -> list[dict[str, Any]]:
    """Writes the Deployments as a List, with the indent of `kubectl`; what is written."""
    items = [deployment(number) for number in range(COUNT)]
    with open(path, "w", encoding="utf-8") as out:
        json.dump({"apiVersion": "v1", "items": items, "kind": "List", "metadata": {"resourceVersion": ""}}, out, indent=4)
        out.write("\n")
    return items


def found_in(thing: dict[str, Any]) -> dict[str, str]:
    """By policy what it finds in a Deployment: what each says, without CEL."""
    found: dict[str, str] = {}
    containers = thing["spec"]["template"]["spec"]["containers"]
    is_tagged = all(":" in one["image"] and not one["image"].endswith(":latest") for one in containers)
    is_limited = all(one.get("resources", {}).get("limits", {}).get("cpu") in LIMITS for one in containers)
    if not is_tagged or not is_limited:
        found["containers"] = "denied"
    if thing["spec"].get("replicas", 0) > 3:
        found["replicas"] = "denied"
    if "owner" not in thing["metadata"].get("labels", {}):
        found["owner"] = "warned"
    return found


def counted(things: list[dict[str, Any]]) -> tuple[dict[str, Counter[str]], dict[str, Counter[str]]]:
    """The numbers of objects by policy, and by namespace."""
    policies: dict[str, Counter[str]] = {name: Counter() for name in ("balancers", "containers", "owner", "replicas", "shops")}
    spaces: dict[str, Counter[str]] = {}
    for thing in things:
        found = found_in(thing)
        for policy, action in found.items():
            policies[policy][action] += 1
        outcome = "denied" if "denied" in found.values() else "allowed"
        spaces.setdefault(thing["metadata"]["namespace"], Counter()).update(["objects", outcome, *["warned"] * ("owner" in found)])
    return policies, spaces


def faults(report: dict[str, Any], things: list[dict[str, Any]]) -> list[str]:
    """What of a report is not as it is counted here."""
    policies, spaces = counted(things)
    told = [f"{name}: {report['byPolicy'].get(name)}, and not {dict(count)}" for name, count in policies.items()
            if report["byPolicy"].get(name) != count]
    for name, count in spaces.items():
        found = report["byNamespace"].get(name, {})
        if any(found.get(key, 0) != count[key] for key in OUTCOMES):
            told.append(f"{name}: {found}, and not {dict(count)}")
    if report["summary"]["objects"] != len(things) or set(report["byNamespace"]) != set(spaces):
        told.append(f"{report['summary']['objects']} objects in {sorted(report['byNamespace'])}")
    outcomes = {one["object"]["name"]: one["outcome"] for one in report["results"]}
    for thing in things:
        wanted = "denied" if "denied" in found_in(thing).values() else "allowed"
        if outcomes.get(name := thing["metadata"]["name"]) != wanted:
            told.append(f"{name}: {outcomes.get(name)}, and not {wanted}")
    return told


def measure(runs: Any) -> None:
    """The seconds of an audit by four gatekeepers, and whether it is right."""
    objects, report = Path(runs.folder, "deployments.json"), Path(runs.folder, "report.json")
    things = write(objects)
    words: list[Any] = [ROOT / "vapctl", "audit", "--jobs", "4", "--policy", POLICIES, objects, "-o", "table", "-o", f"json={report}"]
    began = time.perf_counter()
    ended = subprocess.run(words, env={**os.environ, "CELBPF_PROGRAM": runs.program}, stdout=subprocess.DEVNULL, check=False)
    seconds = time.perf_counter() - began
    if ended.returncode != 1:
        sys.exit(f"measure: vapctl audit ended with status {ended.returncode}")
    if told := faults(json.loads(report.read_text()), things):
        sys.exit("\n".join(["measure: the report is not as it is counted", *told[:10]]))
    row(f"audit of {COUNT:,} objects, {objects.stat().st_size / 1e6:.1f} MB", f"{seconds:.2f} s")
