"""The examples that can be chosen in the page."""

import json
import tempfile
from pathlib import Path
from typing import Any

from ..home import EXAMPLES
from ..testing import cases
from ..testing.answers import Asked
from .sources import FOLDER

WIDE = EXAMPLES.parent / "wide"


def text_of(path: Path) -> str:
    """The text of a file, empty if there is none."""
    return path.read_text(encoding="utf-8") if path.exists() else ""


def of_reviews(folder: Path) -> dict[str, Any]:
    """An example whose reviews are files."""
    reviews = {path.name.removesuffix(".review.json"): text_of(path) for path in sorted(folder.glob("*.review.json"))}
    beside = {name: text_of(folder / f"{name}.json") for name in ("namespace", "params")}
    return {"policy": text_of(folder / "policy.json"), "reviews": reviews, **beside}


def of_cases(folder: Path, made: Asked) -> dict[str, Any]:
    """An example whose reviews are those of the cases of its tests."""
    read = cases.read(folder / "tests.yaml").cases
    plain = [case for case in read if not case.beside.keys() - {"policy"}]
    reviews = {case.name: json.dumps(json.loads(made.review(case)), indent=2) + "\n" for case in plain}
    return {"policy": text_of(folder / "policy.yaml"), "reviews": reviews, "namespace": "", "params": ""}


def first() -> dict[str, Any]:
    """The example with which the page begins: a manifest of an object, in YAML."""
    folder = FOLDER / "first"
    reviews = {"a deployment": text_of(folder / "manifest.yaml")}
    return {"a first look": {"policy": text_of(folder / "policy.yaml"), "reviews": reviews, "namespace": "", "params": ""}}


def examples() -> dict[str, Any]:
    """The other examples by their names: the policy, the reviews by their names, and the documents beside them."""
    with tempfile.TemporaryDirectory() as temporary:
        made = Asked(Path(temporary))
        found = {f"{path.parent.name}, in YAML": of_cases(path.parent, made) for path in sorted(WIDE.glob("*/policy.yaml"))}
    return {**{path.parent.name: of_reviews(path.parent) for path in sorted(EXAMPLES.glob("*/policy.json"))}, **found}
