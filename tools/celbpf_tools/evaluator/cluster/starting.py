"""What standard error gets before the first review."""

from typing import Any

from .state import Policy, State


def policy_line(state: State, policy: Policy) -> str:
    """The line of a bound policy: its bindings, its params, and why it is blocked."""
    line = f"gatekeeper: policy {policy.name}, bindings{''.join(f' {one.name}' for one in policy.bindings)}"
    if policy.kind is not None:
        line += f", params {' '.join(policy.kind)} {len(state.of_kind(policy.kind))}"
    return f"{line}, blocked {policy.cause}" if policy.cause else line


def policy_lines(state: State) -> list[Any]:
    return [policy_line(state, policy) for policy in state.policies]
