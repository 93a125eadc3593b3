"""The state of a cluster, as `kubectl` reads it."""

import subprocess
from dataclasses import dataclass, field
from typing import Optional

from ..entry import Stop
from ..manifests.kinds import Resources
from .cluster import BINDING, POLICY, is_of, policy_of, spec_of
from .inputs import Inputs, Place, Thing, Trouble
from .statuses import REFUSED

# what each state has; without one of the first two, or without params, it would decide otherwise than the cluster
DECIDING = ("validatingadmissionpolicies.admissionregistration.k8s.io", "validatingadmissionpolicybindings.admissionregistration.k8s.io")
KINDS = (*DECIDING, "namespaces", "customresourcedefinitions.apiextensions.k8s.io")


@dataclass
class Kubectl:
    """The program `kubectl`, with the words that choose a cluster."""

    program: str = "kubectl"
    words: list[str] = field(default_factory=list)

    def get(self, resource: str) -> str:
        """What it prints of a resource. Raises `NotGiven` if it fails."""
        command = [self.program, *self.words, "get", resource, "--all-namespaces", "--output=json"]
        try:
            ran = subprocess.run(command, stdin=subprocess.DEVNULL, capture_output=True, encoding="utf-8", errors="replace", check=False)
        except OSError as why:
            raise Stop(f"{self.program}: {why.strerror}", REFUSED) from why
        if ran.returncode:
            lines = [line for line in ran.stderr.splitlines() if line.strip()]
            raise NotGiven(lines[-1] if lines else f"status {ran.returncode}")
        return ran.stdout


class NotGiven(Exception):
    """What a cluster does not give, and why."""


def param_kinds(things: list[Thing]) -> dict[tuple[str, str], str]:
    """The kinds of the params of policies that are bound, each with the first policy that has it."""
    bound = {policy_of(one) for one in things if is_of(one, BINDING)}
    found: dict[tuple[str, str], str] = {}
    for policy in things:
        kind = spec_of(policy).get("paramKind") if is_of(policy, POLICY) and policy.name in bound else None
        if isinstance(kind, dict):
            found.setdefault((str(kind.get("apiVersion")), str(kind.get("kind"))), policy.name)
    return found


def resource_of(api_version: str, kind: str, resources: Resources) -> Optional[str]:
    """What `kubectl get` calls a kind; `None` if it is not known."""
    found = resources.of({"apiVersion": api_version, "kind": kind})
    if found is None:
        return None
    return f"{found.plural}.{found.version}.{found.group}" if found.group else found.plural


class Saving:
    """The objects that a cluster gives, and what it does not; `lacks` tells whether a state without that decides otherwise."""

    def __init__(self, kubectl: Kubectl):
        self.kubectl = kubectl
        self.inputs = Inputs()
        self.things: list[Thing] = []
        self.lacks = False

    @property
    def troubles(self) -> list[Trouble]:
        return self.inputs.troubles

    def take(self, resource: str, decides: bool) -> None:
        """Takes the objects of a resource."""
        name, before = f"kubectl get {resource}", len(self.troubles)
        try:
            self.things += self.inputs.of_text(name, self.kubectl.get(resource))
        except NotGiven as why:
            self.troubles.append(Trouble(Place(name), str(why)))
        self.lacks = self.lacks or (decides and len(self.troubles) > before)

    def take_all(self) -> None:
        """Takes what the policies of the cluster need."""
        for resource in KINDS:
            self.take(resource, resource in DECIDING)
        resources = Resources()
        resources.define([thing.value for thing in self.things])
        for (api_version, kind), policy in param_kinds(self.things).items():
            named = resource_of(api_version, kind, resources)
            if named is None:
                self.troubles.append(Trouble(Place(f"policy {policy}"), f"the kind of its params, {api_version} {kind}, is not defined"))
                self.lacks = True
            elif named not in KINDS:
                self.take(named, True)
