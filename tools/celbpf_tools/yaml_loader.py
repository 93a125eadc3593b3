"""How `kubectl` reads YAML (sigs.k8s.io/yaml), where PyYAML reads it otherwise.

Numbers and bools are those of YAML 1.1 without dates and without numbers to the base of 60. What a number is too large
for is a text, as 1e400. Of a map the later entry counts, also if `<<` brings it.
"""

import math
import re
from collections.abc import Iterator
from typing import Any

from .vapctl.numbers import key_of

TAG = "tag:yaml.org,2002:"
# PyYAML takes more texts for numbers and dates than a cluster does: 1:30 is a text there, and so are 2026-11-26 and =
NOT_RESOLVED = tuple(TAG + kind for kind in ("timestamp", "int", "float", "value"))
# which `kubectl` takes for bools beside `yes` and `no`, and PyYAML does not
LETTERS = {"y": True, "n": False}
# the tag of the key `<<`, which may be there twice
MERGE = f"{TAG}merge"
# of keys that are no texts
NO_TEXTS = {MERGE, *(TAG + kind for kind in ("bool", "int", "float", "null"))}
INT = re.compile(r"[-+]?(?:0|[1-9][0-9_]*|0x[0-9a-fA-F_]+|0o?[0-7_]+|0b[01_]+)$")
FLOAT = re.compile(r"[-+]?(?:\._*[0-9][0-9_]*|[0-9][0-9_]*(?:\.[0-9_]*)?)(?:[eE][-+]?[0-9]+)?$|[-+]?\.(?:inf|Inf|INF)$|\.(?:nan|NaN|NAN)$")
# an int of one of these bases is no float, and of more than 64 bits it is a text
BASED = re.compile(r"[-+]?0[xob]")
LEAST, MOST = -(2**63), 2**64 - 1


def loader_of(yaml: Any, base: Any) -> Any:
    """A loader of the package `yaml`; `base` is one of its safe loaders."""

    class Loader(base):  # type: ignore[misc]
        """Loads YAML as `kubectl` does."""

        def construct_yaml_int(self, node: Any) -> Any:
            number = super().construct_yaml_int(node)
            return number if LEAST <= number <= MOST or not BASED.match(node.value) else node.value

        def construct_yaml_float(self, node: Any) -> Any:
            number = super().construct_yaml_float(node)
            return node.value if math.isinf(number) and node.value[-1].isdigit() else number

        def construct_yaml_binary(self, node: Any) -> str:
            return bytes(super().construct_yaml_binary(node)).decode(errors="replace")

        def flatten_mapping(self, node: Any) -> None:
            """Puts what `<<` brings in its place, and makes texts of the keys."""
            if not any(key.tag in NO_TEXTS for key, _ in node.value):
                return
            found: dict[Any, Any] = {}
            for key, value in node.value:
                for name, one in self.brought(value) if key.tag == MERGE else [(self.as_text(key), value)]:
                    found[(name.tag, name.value) if isinstance(name, yaml.ScalarNode) else id(name)] = name, one
            node.value = list(found.values())

        def as_text(self, key: Any) -> Any:
            """A key as JSON has it: 1 and true are not one key."""
            if key.tag not in NO_TEXTS:
                return key
            return yaml.ScalarNode(f"{TAG}str", key_of(self.construct_object(key)), key.start_mark, key.end_mark)

        def brought(self, node: Any) -> Iterator[tuple[Any, Any]]:
            """The entries that `<<` brings of a map, or of a list of maps, of which the first one counts."""
            for one in reversed(node.value) if isinstance(node, yaml.SequenceNode) else [node]:
                if not isinstance(one, yaml.MappingNode):
                    raise yaml.constructor.ConstructorError(None, None, "what `<<` brings is no map", one.start_mark)
                self.flatten_mapping(one)
                yield from one.value

    Loader.yaml_implicit_resolvers = {
        first: [(tag, found) for tag, found in pairs if tag not in NOT_RESOLVED]
        for first, pairs in yaml.SafeLoader.yaml_implicit_resolvers.items()
    }
    Loader.bool_values = {**yaml.SafeLoader.bool_values, **LETTERS}
    Loader.add_implicit_resolver(f"{TAG}bool", re.compile("[yYnN]$"), list("yYnN"))
    Loader.add_implicit_resolver(f"{TAG}int", INT, list("-+0123456789"))
    Loader.add_implicit_resolver(f"{TAG}float", FLOAT, list("-+0123456789."))
    for kind in ("int", "float", "binary"):
        Loader.add_constructor(TAG + kind, getattr(Loader, f"construct_yaml_{kind}"))
    for kind in ("omap", "pairs"):
        Loader.add_constructor(TAG + kind, Loader.construct_yaml_seq)
    # `<<` that is a value
    Loader.add_constructor(MERGE, Loader.construct_yaml_str)
    return Loader
