"""What is known of changes: which mean the same as what they replace, and which make a law false, each with the reason."""

from pathlib import Path

FOLDER = Path(__file__).resolve().parents[2] / "data" / "mutate-definitions"
EQUIVALENT = FOLDER / "equivalent"
FALSE_LAWS = FOLDER / "false-laws"
MARK = " -- "


def read(path: Path) -> dict[str, str]:
    """The changes of a file, each with its reason; a line that begins with `#` is none."""
    lines = path.read_text(encoding="utf-8").splitlines() if path.exists() else []
    return dict(line.rsplit(MARK, 1) for line in lines if MARK in line and not line.startswith("#"))
