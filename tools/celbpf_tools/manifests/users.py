"""The user of a request, with the groups that an API server gives it, as for `kubectl --as` and `--as-group`."""

from typing import Any

AUTHENTICATED, UNAUTHENTICATED = "system:authenticated", "system:unauthenticated"
ANONYMOUS = "system:anonymous"
# `system:serviceaccount:NAMESPACE:NAME` is a service account, and in these groups if none are given
ACCOUNT, ACCOUNTS = ["system", "serviceaccount"], "system:serviceaccounts"


def groups_of(name: str, given: list[Any]) -> list[Any]:
    """The groups of a user: those that are given, and that of all users who are authenticated, or who are not."""
    parts = name.split(":")
    if not given and parts[:2] == ACCOUNT and len(parts) == 4:
        given = [ACCOUNTS, f"{ACCOUNTS}:{parts[2]}"]
    all_users = UNAUTHENTICATED if name == ANONYMOUS else AUTHENTICATED
    return given if {all_users, UNAUTHENTICATED} & set(given) else [*given, all_users]


def user_info(name: str, groups: list[Any]) -> dict[str, Any]:
    """The `userInfo` of a request."""
    return {"username": name, "groups": groups_of(name, groups)}
