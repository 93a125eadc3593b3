"""From the words of a launch to a session: files, the image, its listing, and the process."""

import difflib
import os
import subprocess
import tempfile
from dataclasses import dataclass, field, replace
from pathlib import Path
from typing import Any, Optional

from ..asking import policies
from ..asking.program import NotAnswered, Program, located
from ..asking.translating import Translating, gatekeeper_of
from ..documents import Unreadable, policy_in
from ..entry import Stop, told
from ..testing.answers import Asked
from ..vapctl.refusals import words_of_refusal
from .arguments import Arguments, BadRequest
from .child import Child, Ended
from .code import Code
from .manifests import review_of
from .parts import Parts, parts_of, texts_of

# what a step of an editor goes by: a part of the policy, a sub-expression, or an instruction
PART, PIECE, INSTRUCTION = "part", "expression", "instruction"
DOCUMENTS = ("review", "namespace", "params")
# the keys of a launch
KEYS = (
    "image", "policy", *DOCUMENTS, "object", "listing", "program", "gatekeeper", "cwd", "noDebug", "stopOnEntry", "stepBy", "profile",
    "translated",
)
# what clients add for themselves, beside keys that begin with two underscores
OF_CLIENTS = ("name", "type", "request", "preLaunchTask", "postDebugTask", "presentation", "internalConsoleOptions", "debugServer")


@dataclass(frozen=True)
class Given:
    """What the adapter was given: its programs, and whether policies are read as celbpf reads them."""

    program: Optional[str] = None
    gatekeeper: Optional[str] = None
    is_profile: bool = False


@dataclass
class Order:
    """What is to be launched."""

    image: Optional[str]
    policy: Optional[str]
    documents: list[str]
    listing: Optional[str]
    program: Optional[str]
    stops_on_entry: bool
    stops_at_all: bool
    step_by: str = PART
    gatekeeper: Optional[str] = None
    is_profile: bool = False
    is_translated: bool = False
    # the name of the object, if the review is a manifest with several
    named: Optional[str] = None

    @property
    def title(self) -> str:
        """The file that was given."""
        return Path(self.policy or self.image or "").name


def named(given: Arguments, key: str) -> Optional[str]:
    """The name of a file or a folder, or `None`."""
    name = given.text(key)
    if name and ("\0" in name or any("\ud800" <= letter <= "\udfff" for letter in name)):
        raise BadRequest(f"{key}: not a path")
    return name


def ordered(given: Arguments, own: Given) -> Order:
    """The order in the arguments of a launch; a relative path is one of the folder `cwd`."""
    unknown = [key for key in given.found if key not in (*KEYS, *OF_CLIENTS) and not key.startswith("__")]
    if unknown:
        near = difflib.get_close_matches(unknown[0], KEYS, 1)
        raise BadRequest(f"launch: {unknown[0]} is no key{f'; there is {near[0]}' if near else ''}")
    folder = named(given, "cwd") or ""
    if folder and not os.path.isdir(os.path.expanduser(folder)):
        raise BadRequest(f"cwd: {folder} is no folder")

    def path(key: str) -> Optional[str]:
        name = named(given, key)
        return os.path.abspath(os.path.join(folder, os.path.expanduser(name))) if name else None

    image, policy = path("image"), path("policy")
    if bool(image) == bool(policy):
        raise BadRequest("launch: either image or policy has to be given")
    documents = [word for key in DOCUMENTS if (name := path(key)) for word in (f"--{key}", name)]
    stops = not given.truth("noDebug", False)
    on_entry = given.truth("stopOnEntry", True) and stops
    step_by = given.text("stepBy") or PART
    if step_by not in (PART, PIECE, INSTRUCTION):
        raise BadRequest(f"stepBy: not {PART}, {PIECE} or {INSTRUCTION}")
    made = Order(image, policy, documents, path("listing"), path("program") or own.program, on_entry, stops, step_by)
    made.gatekeeper, made.named = path("gatekeeper") or own.gatekeeper, given.text("object")
    made.is_profile, made.is_translated = given.truth("profile", own.is_profile), given.truth("translated", False)
    return made


@dataclass
class Launched:
    """A session with what it runs; `close` ends the process and removes the files."""

    order: Order
    code: Code
    child: Child
    program: Program
    folder: tempfile.TemporaryDirectory[str]
    parts: Parts = field(default_factory=Parts)
    scope: list[Any] = field(default_factory=list)

    def close(self) -> None:
        """Ends the process and removes the files."""
        self.child.end()
        self.folder.cleanup()


def readable(path: str) -> bytes:
    """The bytes of a file."""
    try:
        return Path(path).read_bytes()
    except OSError as why:
        raise BadRequest(told(why)) from why


def image_of(order: Order, program: Program) -> str:
    """The file of the image, which is made of the policy if one was given."""
    if order.image:
        return order.image
    return program.kept_image(order.policy)


def document_of(order: Order, asked: Asked, option: str, file: str) -> str:
    """The file of a document; of a manifest the review that creates its object."""
    made = review_of(asked.files.named(file), order.named) if option == "--review" else None
    return asked.file(file, Path()) if made is None else asked.of_text(made)


def with_files(order: Order, folder: str) -> Order:
    """The order with files of JSON that can be opened more than once."""
    asked = Asked(Path(folder))
    named = zip(order.documents[::2], order.documents[1::2])
    documents = [word for option, file in named for word in (option, document_of(order, asked, option, file))]
    policy = asked.file(order.policy, Path(), policy_in) if order.policy else None
    return replace(order, image=asked.files.maybe(order.image), policy=policy, documents=documents)


def program_of(order: Order, folder: str) -> Program:
    """What runs an image, or answers for a policy."""
    celbpf = located(order.program)
    if order.image or order.is_profile:
        return Program(celbpf, folder, order.documents)
    return Translating(celbpf, gatekeeper_of(order.gatekeeper, order.program), folder, order.documents)


def started(order: Order, folder: tempfile.TemporaryDirectory[str]) -> Launched:
    """The session of an order, in a folder for its files."""
    given, order = order, with_files(order, folder.name)
    program = program_of(order, folder.name)
    image = image_of(order, program)
    listed = program.run("list", image)
    if listed.returncode:
        raise NotAnswered(listed)
    code = Code(readable(image), listed.stdout)
    if order.listing:
        write_listing(order.listing, code.text)
    child = Child([program.path, "debug", image, *program.given_to(image)])
    made = Launched(given, code, child, program, folder)
    if order.policy:
        document = policies.read(order.policy)
        made.scope = document["spec"].get("variables") or []
        made.parts = parts_of(program.document(order.policy), listed.stdout, {} if order.is_translated else texts_of(document))
    return made


def write_listing(path: str, text: str) -> None:
    """Writes the listing for clients that open files alone."""
    try:
        Path(path).write_text(text, encoding="utf-8")
    except OSError as why:
        raise BadRequest(told(why)) from why


def launched(order: Order) -> Launched:
    """The session of an order; what hinders it is a `BadRequest`, and leaves no process and no file."""
    folder = tempfile.TemporaryDirectory(prefix="vapctl-debug-")
    made: Any = None
    try:
        made = started(order, folder)
        # the process refuses its documents before it answers a line
        made.child.ask("f")
        return made
    except NotAnswered as why:
        reason = f"{order.title}: {words_of_refusal(why.line)}"
    except Ended as why:
        reason = words_of_refusal(str(why).removeprefix("celbpf: "))
    except (BadRequest, Unreadable) as why:
        reason = str(why)
    except (Stop, OSError, subprocess.SubprocessError) as why:
        reason = f"the program cannot be run: {why}"
    except SystemExit as why:
        reason = f"the program cannot be run or built: status {why}"
    if made:
        made.child.end()
    folder.cleanup()
    raise BadRequest(reason)
