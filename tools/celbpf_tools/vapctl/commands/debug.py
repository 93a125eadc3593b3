"""`vapctl debug`: the steps of a decision, in a session or in an editor."""

import argparse
import tempfile
from pathlib import Path
from typing import Iterable, Optional

from ...asking import policies
from ...asking.program import NotAnswered, Program, located
from ...asking.translating import program_of
from ...dap.parts import Parts, parts_of, texts_of
from ...dap.serving import serve
from ...entry import Stop
from ..inputs import STDIN
from ..one_decision import Decision, add_words
from ..refusals import words_of_refusal
from ..session import run as run_session
from ..statuses import REFUSED, WORDS

MORE = """Without --dap it is a session of `celbpf debug` on the program of the policy's translation, which `vapctl translate`
prints, on standard input and output. On a terminal it has a prompt, and `help` lists the commands, which docs/DEBUGGER.md
defines. POLICY may be an image too, as `celbpf asm`, `vapctl asm` and `vapctl compile` write it: then no review is needed,
and one that is given is an AdmissionReview in JSON."""
# the begin of an image's file
IMAGE = b"CELBPF0"


def words(parser: argparse.ArgumentParser) -> None:
    """The options of the command."""
    add_words(parser, is_optional=True)
    parser.add_argument("--dap", action="store_true",
                        help="speak the Debug Adapter Protocol with an editor, which names the files")


def run(given: argparse.Namespace) -> int:
    """Debugs until the session ends."""
    if given.dap:
        if given.policy:
            raise Stop("with --dap the editor names the files", WORDS)
        return serve(given)
    if is_image(given.policy):
        files = (("review", given.review), ("namespace", given.namespace_object), ("params", given.params))
        for _, file in files:
            if file:
                # one that cannot be read ends the command
                open(file, "rb").close()
        return run_session(located(given.program), [given.policy, *beside(files)])
    if given.policy not in (None, STDIN) and not given.review:
        # a file that is not there is told first
        Path(given.policy).stat()
    if not given.review:
        raise Stop("a policy and a review are needed, or an image, or --dap", WORDS)
    with tempfile.TemporaryDirectory() as folder:
        return session(given, Path(folder))


def session(given: argparse.Namespace, folder: Path) -> int:
    """A session on the program of a policy."""
    decision = Decision(given, folder)
    program = program_of(given, str(folder), beside((key, decision.files[key]) for key in ("review", "namespace", "params")))
    try:
        image = program.kept_image(decision.files["policy"])
    except NotAnswered as why:
        raise Stop(words_of_refusal(why.line), REFUSED) from why
    words = [image, *program.given_to(image)]
    return run_session(program.path, words, lambda: parts_in(program, str(decision.files["policy"]), image))


def parts_in(program: Program, policy: str, image: str) -> Parts:
    """The parts of a policy that is compiled to this image, with their texts as the author wrote them."""
    return parts_of(program.document(policy), program.run("list", image).stdout, texts_of(policies.read(policy)))


def is_image(name: Optional[str]) -> bool:
    """Whether a file is an image."""
    if not name or not Path(name).is_file():
        return False
    with open(name, "rb") as file:
        return file.read(len(IMAGE)) == IMAGE


def beside(files: Iterable[tuple[str, Optional[str]]]) -> list[str]:
    """The words of `celbpf debug` for the documents that are given."""
    return [word for key, file in files if file for word in (f"--{key}", file)]
