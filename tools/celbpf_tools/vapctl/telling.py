"""What `vapctl why` prints of a decision of one policy.

The first line is the outcome. Then comes each condition, variable and validation with its value (true, false, the
error, or its value as JSON) and its expression. For an error the first part of it that is one follows; for what is
false a tree of its parts with their values, the item of a macro that decides, and what to change; and for each denial
its message and where that comes from. All is asked of the programs, for the parts of an expression by small policies
with the same variables.
"""

import argparse
import json
import tempfile
from pathlib import Path
from typing import Any, Optional

from ..asking import policies
from ..asking.errors import first_error
from ..asking.files import Files
from ..asking.program import NotAnswered, Program
from ..asking.reasons import reasons
from ..asking.texts import escaped, indented, on_one_line
from ..asking.translating import program_of
from ..asking.values import ERROR, Values
from ..documents import text_of
from ..entry import Stop
from ..playground.building import with_case, written_page
from ..testing import cases
from ..testing.answers import Asked

OUTCOMES = {"1": "skipped", "2": "rejected", "3": "denied", "4": "admitted"}
RUNS = ("denied", "admitted")
BOOLS = ("true", "false", ERROR)
# before the lines of a tree
INDENT = "      "
# the most names of cases that a message lists
MOST_NAMES = 20
# stands for a message, to see whether the message is what is answered
MARK = "the message"


def cases_of(path: Path) -> list[cases.Case]:
    """The cases of a test file."""
    try:
        return cases.read(path).cases
    except cases.Broken as why:
        raise Stop(f"{path}: {why}") from why


def case_named(place: Path, name: str) -> cases.Case:
    """The case of this name in a test file, or in one of a folder."""
    found = [case for path in cases.files_of([place]) for case in cases_of(path)]
    named = [case for case in found if case.name == name]
    if not named:
        listed = ", ".join(repr(case.name) for case in found[:MOST_NAMES])
        raise Stop(f"{place}: no case {name!r}; there are {listed}{', ..' if len(found) > MOST_NAMES else ''}")
    files = list(dict.fromkeys(str(case.file) for case in named))
    if len(files) > 1:
        raise Stop(f"{place}: the case {name!r} is in {', '.join(files)}; give one of them")
    if "policy" not in named[0].beside:
        raise Stop(f"{files[0]}: the case {name!r} has no policy, but a cluster's state")
    return named[0]


def of_case(given: argparse.Namespace, folder: Path) -> argparse.Namespace:
    """The words with the documents of the case that they name, as files of this folder."""
    case = case_named(Path(given.policy), given.case)
    at, asked = case.file.parent, Asked(folder)
    review = asked.write("review.json", asked.review(case))
    found = {key: asked.beside(case, key) for key in ("policy", "namespace", "params") if key in case.beside}
    policy = case.beside["policy"]
    written = text_of(at / policy) if isinstance(policy, str) else ""
    return argparse.Namespace(**{**vars(given), **found, "review": review, "tests": str(case.file), "written": written})


def documents(given: argparse.Namespace, kept: Files) -> list[Any]:
    """The words that name the documents."""
    named = [("--review", given.review), ("--namespace", given.namespace), ("--params", given.params)]
    return [word for option, file in named if file for word in (option, kept.named(file))]


class Teller:
    """The program, and the parts of a policy; `translated` has the text of each part's translation, if these are to be shown."""

    def __init__(self, program: Program, policy: dict[Any, Any]):
        self.program = program
        self.policy = policy
        self.parts = policies.evaluated(policy)
        self.translated: dict[Any, Any] = {}

    def tell_text(self, part: policies.Part) -> None:
        """Prints the text of a part, and its translation."""
        print(indented(part.text))
        if translation := self.translated.get((part.kind, part.place)):
            print(f"    translated: {escaped(translation)}")

    def tell_value(self, part: policies.Part) -> Optional[str]:
        """Prints the value of a part, with its expression; the value, if it is known."""
        program = self.program.of(part.kind)
        try:
            value = Values(program, part.scope).of(part.text, [])
        except NotAnswered as why:
            print(f"{part.title}: not shown, since the program answers {why.line} for it alone")
            self.tell_text(part)
            return None
        decides = part.kind in ("condition", "validation")
        no_bool = ", which is no bool and counts as the error" if decides and value not in BOOLS else ""
        print(f"{part.title}: {on_one_line(value)}{no_bool}")
        self.tell_text(part)
        lines = (reasons(program, part.scope, part.text, True) or []) if value == "false" and decides else []
        for line in lines:
            print(INDENT + escaped(line))
        if value == ERROR:
            print(*(indented(on_one_line(line)) for line in first_error(program, part.scope, part.text)), sep="\n")
        return value

    def tell_conditions(self) -> None:
        """Prints the conditions; a run ends at the first that is false, and does not evaluate those after it."""
        is_ended = False
        for part in self.of_kind("condition"):
            if is_ended:
                print(f"{part.title}: not evaluated")
                self.tell_text(part)
            else:
                is_ended = self.tell_value(part) == "false"

    def of_kind(self, kind: str) -> list[Any]:
        return [part for part in self.parts if part.kind == kind]

    def tell_denial(self, place: int) -> None:
        """Prints the message of a denial, and the message expression if it has one."""
        response = self.program.response(policies.alone(self.policy, place))
        if response["allowed"]:
            return
        message, source = response["status"]["message"], origin(self.program, self.policy, place)
        print(f"denial by validation {place}: {on_one_line(message)}")
        print(f"    from {source}")
        for part in self.of_kind("message"):
            if part.place == place:
                self.tell_value(part)


def origin(program: Program, policy: dict[Any, Any], place: int) -> str:
    """Where the message of a denial comes from."""
    validation = policy["spec"]["validations"][place]
    why = "it has no message"
    if validation.get("messageExpression"):
        marked = policies.alone(policy, place, message=MARK)
        if program.response(marked)["status"]["message"] != MARK:
            return "its message expression"
        why = "its message expression gives no message"
    return "its message" if validation.get("message") else f"its expression, since {why}"


def tell(program: Program, policy: dict[Any, Any], verdict: list[Any], shows_translation: bool = False) -> None:
    """Prints all of a verdict, whose lines these are."""
    outcome = OUTCOMES[verdict[0].split()[1]]
    print(outcome)
    teller = Teller(program, policy)
    if shows_translation:
        teller.translated = {(part.kind, part.place): part.text for part in policies.parts(program.document(policy))}
    teller.tell_conditions()
    if outcome not in RUNS:
        print("variables and validations are not asked")
        return
    for part in (*teller.of_kind("variable"), *teller.of_kind("validation")):
        teller.tell_value(part)
    for line in verdict:
        if line.startswith("validation "):
            teller.tell_denial(int(line.split()[1]))


def files(given: argparse.Namespace) -> list[Any]:
    """The files as a page names them; for a case its test file, since those of its documents are removed."""
    if given.case is not None:
        return [f"case {given.case} of {given.tests}"]
    if "shown" in given:
        return list(given.shown)
    beside = [f"{name} {file}" for name, file in (("namespace", given.namespace), ("params", given.params)) if file]
    return [given.policy, given.review, *beside]


def shown_text(file: Optional[str]) -> str:
    """The text of a document as a page shows it: one of a line is laid out."""
    text = Path(file).read_text(encoding="utf-8", errors="surrogatepass") if file else ""
    try:
        is_line = text.lstrip().startswith("{") and text.strip().count("\n") == 0
        return json.dumps(json.loads(text), indent=2, ensure_ascii=False) if is_line else text
    except ValueError:
        return text


def write_page(given: argparse.Namespace, kept: Files, policy: str, text: str) -> None:
    """Writes the page with the case: the policy as its author wrote it, and the documents that were asked."""
    named = {key: shown_text(kept.maybe(getattr(given, key))) for key in ("review", "namespace", "params")}
    written = getattr(given, "written", "") or shown_text(policy)
    case = {"given": {"policy": written, **named}, "files": files(given)}
    Path(given.html).write_text(with_case(text, case), encoding="utf-8", errors="backslashreplace")


def told(given: argparse.Namespace) -> int:
    """Prints why a policy decides as it does, by these words; the status. `shown` among them names the files of a page."""
    text = written_page() if given.html else ""
    with tempfile.TemporaryDirectory() as folder, tempfile.TemporaryDirectory() as documents_folder:
        if given.case is not None:
            given = of_case(given, Path(documents_folder))
        asked = Asked(Path(documents_folder))
        policy, beside = asked.file(str(given.policy), Path()), documents(given, asked.files)
        program = program_of(given, folder, beside)
        response = program.response(policy)
        tell(program, policies.read(policy), program.verdict(policy), given.translated)
        if given.html:
            write_page(given, asked.files, policy, text)
    return 0 if response["allowed"] else 1
