"""`vapctl translate`: a policy as it is compiled."""

import argparse
import json
import tempfile
from typing import Any

from ...asking.gatekeeper import Gatekeeper
from ...asking.index_tables import NEEDED, is_wrapped
from ...asking.translating import gatekeeper_of
from ..checking import tell
from ..inputs import Inputs
from ..one_decision import policy_text
from ..positions import Marks
from ..statuses import GOOD
from ..wide_linting import wide_faults
from .compile import one_policy, refuse

MORE = """It prints the policy of the profile (docs/CEL.md) that is compiled for a policy as clusters store them, as JSON, which
`celbpf` reads. It has the policy's name, and as annotations the text of each part as its author wrote it. If it reads params
with a table of indices, a line on standard error says so. If the policy is refused, all refusals are shown as `vapctl lint`
shows them, and nothing is printed."""


def words(parser: argparse.ArgumentParser) -> None:
    """The options of the command."""
    parser.add_argument("policy", metavar="POLICY", help="a file, YAML or JSON, with the policy; - is standard input")
    parser.add_argument("--name", metavar="NAME", help="the policy of this name, if POLICY has several")
    parser.add_argument("--program", metavar="PROGRAM", help="the program celbpf beside which the gatekeeper is")
    parser.add_argument("--gatekeeper", metavar="PROGRAM", help="the gatekeeper to ask, if not the one that is installed")


def run(given: argparse.Namespace) -> int:
    """Prints the translation, or shows the refusals."""
    inputs = Inputs(keeps_texts=True)
    policy = one_policy(inputs, given)
    with tempfile.TemporaryDirectory() as folder:
        gatekeeper = Gatekeeper(gatekeeper_of(given.gatekeeper, given.program), folder)
        document = json.loads(policy_text(policy))
        if gatekeeper.refusal(document):
            refuse(wide_faults(gatekeeper, policy, Marks(inputs.texts[policy.place.file])))
        text = gatekeeper.translation(document)
    print(json.dumps(with_name(json.loads(text), document), indent=2, ensure_ascii=False))
    if is_wrapped(text):
        tell(f"the translation reads {NEEDED}")
    return GOOD


def with_name(translation: dict[str, Any], policy: dict[str, Any]) -> dict[str, Any]:
    """A translation, which has annotations alone, with the name of its policy."""
    metadata = policy.get("metadata")
    name = metadata.get("name") if isinstance(metadata, dict) else None
    return {**translation, "metadata": {"name": name, **translation["metadata"]}} if isinstance(name, str) else translation
