"""What may be meant by a kind that no API server has."""

import difflib
from collections.abc import Iterable
from typing import Optional

from .kinds import Resource, built_in, group_version

# how alike words are of which one may be meant by the other
ALIKE = 0.75


def near(word: str, known: Iterable[str]) -> Optional[str]:
    """The word that is most alike, whatever its capitals are."""
    by_letters = {one.lower(): one for one in known}
    found = difflib.get_close_matches(word.lower(), by_letters, 1, ALIKE)
    return by_letters[found[0]] if found else None


def near_in(group: str, kind: str) -> Optional[str]:
    """The kind of a built-in group that may be meant by one that the group does not have."""
    kinds = {one.kind for one in built_in() if one.group == group}
    return None if kind in kinds else near(kind, kinds)


def version_of(resource: Resource) -> str:
    """What an object of a resource has as `apiVersion`."""
    return f"{resource.group}/{resource.version}" if resource.group else resource.version


def first_versions(resources: Iterable[Resource]) -> str:
    """The first version of each group, as the table has them."""
    by_group: dict[str, Resource] = {}
    for one in resources:
        by_group.setdefault(one.group, one)
    return " or ".join(map(version_of, by_group.values()))


def advice(api_version: str, kind: str) -> Optional[str]:
    """What to write for a kind that is not known; `None` if a CustomResourceDefinition may have it, whose group has a dot."""
    group, _ = group_version(api_version)
    known = list(built_in())
    has_group = any(one.group == group for one in known)
    same = [one for one in known if one.kind == kind]
    if "." in group and not has_group:
        return None
    if own := [one for one in same if one.group == group] or same:
        return f"{kind} is {first_versions(own)}"
    if not has_group:
        return f"no API server has the group {group}"
    meant = near_in(group, kind)
    if meant is not None:
        return f"did you mean {meant}?"
    meant = near(kind, [one.kind for one in known])
    found = first_versions(one for one in known if one.kind == meant)
    return f"did you mean {found} {meant}?" if meant else f"the {f'group {group}' if group else 'core group'} has none of this name"
