"""Objects by a CustomResourceDefinition, as an API server validates them; a field that it would drop is refused too."""

import re
from pathlib import Path
from typing import Any

from .. import documents

NAME = re.compile(r"[a-z0-9]([-a-z0-9.]{0,251}[a-z0-9])?")
TYPES = {"object": dict, "array": list, "string": str, "integer": int, "boolean": bool}


def faults(value: Any, schema: dict[str, Any], path: str = "") -> list[str]:
    """What is wrong with a value by a schema of a definition."""
    kind: Any = TYPES[schema["type"]]
    if not isinstance(value, kind) or (kind is int and isinstance(value, bool)):
        return [f"{path} is no {schema['type']}"]
    if "enum" in schema and value not in schema["enum"]:
        return [f"{path} is {value}"]
    if kind is list:
        return [fault for place, one in enumerate(value) for fault in faults(one, schema["items"], f"{path}[{place}]")]
    if kind is not dict or not {"properties", "additionalProperties"} & set(schema):
        return []
    found = [f"{path}.{key} is missing" for key in schema.get("required", ()) if key not in value]
    for key, part in value.items():
        of = schema.get("properties", {}).get(key, schema.get("additionalProperties"))
        found += faults(part, of, f"{path}.{key}") if of else [f"{path}.{key} is not defined"]
    return found


def object_faults(thing: dict[str, Any], definitions: Path) -> list[str]:
    """What is wrong with an object by the definition of its kind."""
    for one in documents.one_in(definitions)["items"]:
        spec = one["spec"]
        version = spec["versions"][0]
        if (thing.get("apiVersion"), thing.get("kind")) != (f"{spec['group']}/{version['name']}", spec["names"]["kind"]):
            continue
        metadata = thing["metadata"]
        found = faults(thing, version["schema"]["openAPIV3Schema"])
        if not NAME.fullmatch(metadata["name"]):
            found.append("its name is none")
        if ("namespace" in metadata) != (spec["scope"] == "Namespaced"):
            found.append("its namespace")
        return found
    return [f"no definition of {thing.get('apiVersion')} {thing.get('kind')}"]
