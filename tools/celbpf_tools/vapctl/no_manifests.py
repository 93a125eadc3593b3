"""Documents that are no objects of a cluster: files of tools that make such objects, and others that are in their folders."""

import os
from typing import Any

REVIEW = "AdmissionReview"
# the files of tools, by their names, and by the groups of their kinds
BY_NAME = {
    "kustomization.yaml": "kustomize build", "kustomization.yml": "kustomize build", "Chart.yaml": "helm template",
    "values.yaml": "helm template",
}
BY_GROUP = {"kustomize.config.k8s.io": "kustomize build", "skaffold": "skaffold render"}
# tools that are given no folder
ALONE = ("skaffold render",)
# the most files that a line names
MOST = 3


def tool_of(value: Any) -> str:
    """What makes objects of a document of a tool; empty if it is none by its group."""
    version = value.get("apiVersion") if isinstance(value, dict) else None
    return BY_GROUP.get(version.partition("/")[0], "") if isinstance(version, str) else ""


def names_kind(value: Any) -> bool:
    """Whether a document names what kind of object it is, or may be an object that lacks one of the two keys of it."""
    if not isinstance(value, dict) or value.get("kind") == REVIEW or tool_of(value):
        return False
    keys = [key in value for key in ("apiVersion", "kind")]
    return all(keys) or (any(keys) and ("metadata" in value or "items" in value))


def why_no_object(value: Any) -> str:
    """Why a value is no object of a cluster; empty if it is one."""
    if not isinstance(value, dict):
        return "it is not an object"
    for key in ("apiVersion", "kind"):
        if not isinstance(value.get(key), str) or not value[key]:
            return f"the object has no {key}"
    return "it is no object of a cluster" if tool_of(value) else ""


def tool_for(file: str, value: Any) -> str:
    """What makes objects of a file with this document, by its name too; empty if it is no file of a tool."""
    return tool_of(value) or BY_NAME.get(os.path.basename(file), "")


def piped(tool: str, folder: str) -> str:
    """How to check what a tool makes of a folder."""
    return f"`{tool}{f' {folder}' * (tool not in ALONE)} | vapctl check .. -`"


def advice(file: str, value: Any) -> str:
    """How to check what a file of a tool makes; empty if it is none."""
    tool = tool_for(file, value)
    return f"{piped(tool, os.path.dirname(file) or '.')} checks what it makes" if tool else ""


def passed_over(files: dict[str, str]) -> str:
    """The line on files that are passed over, each with its tool if it has one."""
    more = f" and {len(files) - MOST} more" if len(files) > MOST else ""
    told = f"passed over, since no manifests are in them: {', '.join(list(files)[:MOST])}{more}"
    tools = [piped(tool, "DIR") for tool in dict.fromkeys(filter(None, files.values()))]
    return f"{told}; {' and '.join(tools)} check{'s' * (len(tools) == 1)} what they make" if tools else told
