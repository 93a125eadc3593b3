"""Cases as rows of tests in the crates."""

import json
from typing import Any, Iterator

from ..home import ROOT
from .cases import POLICY, REVIEW, Case, wanted
from .policies import spec_of
from .reviews import Documents

# bytes of a row's two documents
SHORTEST, LONGEST = 200, 500
# where the rows stand
FOLDER = ROOT / "crates" / "review_tests" / "src" / "tests" / "seeded"
FILES, ROWS_A_FILE = 10, 100


BAR = "¦"


def is_part(text: str) -> Any:
    """Whether a text may stand in a row, between broken bars, within a raw literal."""
    return BAR not in text and '"#' not in text and not any(ord(one) < 32 or ord(one) == 127 for one in text)


def compact(value: Any) -> Any:
    return json.dumps(value, ensure_ascii=False, separators=(",", ":"))


def pruned(value: Any, text: str) -> Any:
    """A value without the keys that stand nowhere in a text."""
    if isinstance(value, list):
        return [pruned(item, text) for item in value]
    if isinstance(value, dict):
        return {key: pruned(item, text) for key, item in value.items() if key in text}
    return value


def documents_of(numbers: Any) -> Any:
    """The texts of the next specification, and of an object with what that may ask for."""
    spec = compact(spec_of(numbers, ["object"]))
    return spec, compact(pruned(Documents(numbers).thing(), spec))


def case_of_texts(spec: Any, thing: Any) -> Any:
    """The case of these texts."""
    policy = {**POLICY, "spec": json.loads(spec)}
    review: dict[str, Any] = {**REVIEW, "request": {"uid": "u1", "object": json.loads(thing)}}
    return Case(compact(policy).encode(), compact(review).encode())


def row_of(numbers: Any) -> Any:
    """The outcome and the parts of the next row, or None where the next case is not one for a row."""
    spec, thing = documents_of(numbers)
    if not SHORTEST <= len(spec) + len(thing) <= LONGEST:
        return None
    given, _ = wanted(case_of_texts(spec, thing))
    if given is None or not given.is_within:
        return None
    inner = given.response.split('"response":', 1)[1].removesuffix("}")
    if not all(is_part(text) for text in (spec, thing, inner)):
        return None
    costs = given.costs.work, given.costs.most_charged(given.charge)
    return given.verdict.outcome, [spec, thing, *map(str, costs), "0" if given.allowed else "1", inner]


def rows(numbers: Any, count: int) -> Iterator[Any]:
    """So many rows, a line each: specification, object, work, the most that may be charged, status and response.
    Two beside each other have different outcomes."""
    before = None
    while count:
        row = row_of(numbers)
        if row is None or row[0] == before:
            continue
        count -= 1
        before, parts = row
        yield BAR.join(parts)


def files_of(numbers: Any) -> Iterator[Any]:
    """The files of the rows, as pairs of a path and a text."""
    lines = list(rows(numbers, FILES * ROWS_A_FILE))
    for file in range(FILES):
        first = file * ROWS_A_FILE
        stored = "\n".join(lines[first : first + ROWS_A_FILE])
        head = f"//! Rows {first + 1} to {first + ROWS_A_FILE}, as `tools/seeded-policies --write-rows` makes them."
        yield FOLDER / f"rows_{file + 1}.rt", f'{head}\n\npub const ROWS: &str =\n    r#"{stored}"#;\n'


def write_rows(numbers: Any) -> None:
    for path, text in files_of(numbers):
        path.write_text(text)


def other_files(numbers: Any) -> Any:
    """The files that do not hold their rows."""
    made = files_of(numbers)
    return [path for path, text in made if not path.exists() or path.read_text() != text]
