"""The faults of reports by their schemas. What needs a program that is not installed finds none, which is told."""

import importlib
import importlib.util
import json
import shutil
import subprocess
from pathlib import Path
from typing import Any, Callable

from ..home import DATA
from .vapctl_crds import object_faults

FOLDER = DATA / "vapctl"


def sarif_faults(file: Path) -> list[str]:
    """The faults of a report in SARIF."""
    if importlib.util.find_spec("jsonschema") is None:
        print("SARIF: left out, since there is no jsonschema (Debian's python3-jsonschema)", flush=True)
        return []
    jsonschema: Any = importlib.import_module("jsonschema")
    validator = jsonschema.Draft7Validator(json.loads((FOLDER / "sarif.json").read_text()))
    return [f"{list(fault.absolute_path)}: {fault.message}" for fault in validator.iter_errors(json.loads(file.read_text()))]


def junit_faults(file: Path) -> list[str]:
    """The faults of a report in JUnit's XML."""
    if not shutil.which("xmllint"):
        print("JUnit: left out, since there is no xmllint (Debian's libxml2-utils)", flush=True)
        return []
    words = ["xmllint", "--noout", "--schema", str(FOLDER / "junit.xsd"), str(file)]
    ran = subprocess.run(words, capture_output=True, text=True, check=False)
    return ran.stderr.splitlines() if ran.returncode else []


def policy_report_faults(file: Path) -> list[str]:
    """The faults of PolicyReports, and of their numbers."""
    items = json.loads(file.read_text())["items"]
    found = [fault for one in items for fault in object_faults(one, FOLDER / "policyreport-crd.yaml")]
    found += [f"{one['metadata']}: the summary" for one in items if sum(one["summary"].values()) != len(one["results"])]
    return found if items else ["there is no report"]


SCHEMAS: dict[str, Callable[[Path], list[str]]] = {"sarif": sarif_faults, "junit": junit_faults, "policyreport": policy_report_faults}
