"""Lists the capitalised names of the folders `specs` that two files define, so that a name means one thing.

usage: tools/defined-twice

Each such name stands before the places of its definitions. Functions, records and types count; the cases of a type do
not, for a type may share the name of a case with another.
"""

from collections import defaultdict
from typing import Any

from ..definitions import modules


def places(files: list[Any]) -> dict[str, Any]:
    """Where each capitalised name is defined, one place a file."""
    found = defaultdict(list)
    for module in files:
        for name, definition in module.definitions.items():
            if name[0].isupper():
                found[name].append(f"{module.file}:{definition.place}")
    return found


def main() -> int:
    found = places(modules())
    twice = {name: of for name, of in sorted(found.items()) if len(of) > 1}
    for name, of in twice.items():
        print(f"{name}: {' '.join(of)}")
    if twice:
        print(f"{len(twice)} of {len(found)} capitalised names are defined in two files or more")
        return 1
    print(f"all {len(found)} capitalised names of specs are defined in one file each")
    return 0
