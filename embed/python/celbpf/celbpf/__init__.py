"""Decides Kubernetes admission in process, under ValidatingAdmissionPolicies.

    with Gate(policy) as gate:
        response = gate.decide(review)
        if not response.allowed:
            print(response.json)

Documents are bytes of JSON. A `Refused` is raised if there is no decision. The decisions are those of the program
gatekeeper, byte for byte: both are the same proved code. With `profile=True` a policy is read, and decides, as by the
program celbpf. This package is a thin layer over them, and is not proved.
"""

from .gate import DEFAULT_READS, DEFAULT_STEPS, Gate, Response, compile_policy, review
from .refusal import Refused, Status

__all__ = ["DEFAULT_READS", "DEFAULT_STEPS", "Gate", "Refused", "Response", "Status", "compile_policy", "review"]
