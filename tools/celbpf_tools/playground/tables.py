"""The tables that the page shares with the tools, so that they are written once."""

from typing import Any

from ..asking import operands, syntax_words, wide_functions
from ..asking.refused import MEANINGS
from ..manifests.kinds import TABLE
from ..vapctl import key_causes
from ..vapctl.quantities import PATHS
from ..vapctl.refusals import OTHERS


def kinds() -> list[Any]:
    """For each built-in kind its plural, whether it has namespaces, its group, and its versions."""
    rows = [line.split() for line in TABLE.strip().split("\n")]
    return [[kind, plural, scope == "Namespaced", "" if group == "core" else group, *versions]
            for kind, plural, scope, group, *versions in rows]


def tables() -> dict[str, Any]:
    """All tables."""
    return {
        "kinds": kinds(),
        "quantities": {f"{group}/{kind}": list(paths) for (group, kind), paths in PATHS.items()},
        "meanings": MEANINGS,
        "others": OTHERS,
        "later": wide_functions.LATER,
        "notThere": wide_functions.NOT_THERE,
        "functions": list(wide_functions.TAKEN),
        "macros": list(wide_functions.MACROS),
        "elsewhere": wide_functions.ELSEWHERE,
        "operators": syntax_words.WORDS,
        "operandTypes": operands.TYPES,
        "operandsTaken": operands.TAKES,
        "operandsAlone": operands.ALONE,
        "operandsShown": operands.SHOWN,
        "keys": {
            "document": key_causes.DOCUMENT, "spec": key_causes.SPEC, "items": key_causes.ITEMS, "names": key_causes.NAMES,
            "values": {key: list(values) for key, values in key_causes.VALUES.items()},
        },
    }
