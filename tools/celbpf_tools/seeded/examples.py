"""The example policies of the repository, with their reviews."""

from pathlib import Path
from typing import Any, Iterator, Optional

from ..home import EXAMPLES
from .cases import Case


def bytes_of(path: Path) -> Optional[bytes]:
    """What a file holds, or None where there is none."""
    return path.read_bytes() if path.exists() else None


def examples() -> Iterator[Any]:
    """For each review its name, its case, and the response that is stored beside it."""
    for path in sorted(EXAMPLES.glob("*/*.review.json")):
        folder, name = path.parent, path.name.removesuffix(".review.json")
        beside = [bytes_of(folder / f"{kind}.json") for kind in ("namespace", "params")]
        case = Case((folder / "policy.json").read_bytes(), path.read_bytes(), *beside)
        yield f"{folder.name}/{name}", case, (folder / f"{name}.response.json").read_text()
