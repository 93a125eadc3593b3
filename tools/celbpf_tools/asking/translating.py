"""Both programs on policies as clusters store them: the gatekeeper translates and answers, celbpf runs the translation."""

import json
import os
from pathlib import Path
from typing import Any, Optional

from ..entry import Stop
from .gatekeeper import Gatekeeper, line_of
from .index_tables import is_wrapped, placed
from .program import Program, located, located_gatekeeper

NO_GATEKEEPER = "no gatekeeper is beside the program; --gatekeeper names one, and --profile needs none"


class Translating(Program):
    """The programs, instead of celbpf alone."""

    def __init__(self, path: Path, gatekeeper: Path, folder: str, documents: Any = ()):
        super().__init__(path, folder, documents)
        self.gatekeeper = Gatekeeper(gatekeeper, folder)
        # the images whose programs run on params with a table of indices
        self.wrapped: set[str] = set()

    def seen(self, kind: str, documents: Any) -> Any:
        """Conditions have no namespace."""
        if kind != "condition" or "--namespace" not in documents:
            return documents
        at = list(documents).index("--namespace")
        return [*documents[:at], *documents[at + 2 :]]

    def written(self, translation: str) -> str:
        """The file of a translation."""
        path = os.path.join(self.folder, "translated.json")
        Path(path).write_text(translation, encoding="utf-8")
        return path

    def document(self, policy: Any) -> dict[str, Any]:
        return json.loads(self.gatekeeper.translation(policy))

    def refusal(self, policy: Any) -> str:
        return self.gatekeeper.refusal(policy)

    def compiled(self, policy: Any) -> str:
        translation = self.gatekeeper.translation(policy)
        image = super().compiled(self.written(translation))
        self.wrapped.discard(image)
        if is_wrapped(translation):
            self.wrapped.add(image)
        return image

    def kept_image(self, policy: Any) -> str:
        kept = super().kept_image(policy)
        if self.image() in self.wrapped:
            self.wrapped.add(kept)
        return kept

    def placed(self, documents: Any) -> list[str]:
        """The words of these documents with a table of indices beside the params."""
        return placed(documents, Path(self.folder, "tabled.json"))

    def given_to(self, image: str) -> list[str]:
        return self.placed(self.documents) if image in self.wrapped else self.documents

    def asked_by(self, policy: Any, documents: Any) -> list[str]:
        translation = self.gatekeeper.translation(policy)
        return ["--policy", self.written(translation), *(self.placed(documents) if is_wrapped(translation) else documents)]

    def response(self, policy: Any) -> dict[str, Any]:
        """The gatekeeper's response to the review; what is no line goes to celbpf."""
        named = dict(zip(self.documents[::2], self.documents[1::2]))
        line = line_of(Path(named.pop("--review")).read_bytes())
        if line is None:
            return super().response(policy)
        return self.gatekeeper.decision(policy, line, [word for pair in named.items() for word in pair])


def gatekeeper_of(given: Optional[str], celbpf: Optional[str]) -> Path:
    """The gatekeeper that was given, or the one beside the program, which has to be there."""
    found = located_gatekeeper(given, celbpf)
    if found is None:
        raise Stop(NO_GATEKEEPER)
    return found


def program_of(given: Any, folder: str, documents: Any = ()) -> Program:
    """What answers for policies, by the words of a script: with `--profile` celbpf alone."""
    celbpf = located(given.program)
    if given.profile:
        return Program(celbpf, folder, documents)
    return Translating(celbpf, gatekeeper_of(given.gatekeeper, given.program), folder, documents)
