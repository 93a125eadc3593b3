"""Opens the page of playground/ in a headless Chromium, and compares what it shows with sessions and responses.

usage: tools/run-pages [PROGRAM] [--module FILE] [--count N] [--pictures FOLDER]

For each example policy the map from slots to sub-expressions is compared with the listing and with the compiled
beginnings of the policy; for each run of an example the page's value of each sub-expression is compared with the
evaluator's, if there is a Node. Each example is chosen in the page, which has to show the outcome and the message of the
response beside it, to say nothing on the console and to ask for nothing. For the first N denials (10), of a policy each,
`vapctl why` writes the page with the case; what it shows at every position of the slider is compared with what a session
of `celbpf debug` shows at that step, and keys and buttons are pressed. A policy is mended by what the page says, a case
is kept as a link and as a file, and hostile texts have to give an answer or a message. With `--pictures` the pages of
some denials are kept as pictures, light and dark, wide and narrow. FILE is the module of WebAssembly, by default the one
that `tools/wasm` made. It needs Debian's `chromium`; if there is none, only maps and values are compared, and the status
is 10.
"""

import argparse
import json
import os
import subprocess
import sys
import tempfile
from pathlib import Path
from typing import Any

from ..asking.program import Program, located
from ..asking.translating import Translating, gatekeeper_of
from ..browsing import playing
from ..browsing.browser import Browser, Page
from ..browsing.browser import located as browser
from ..browsing.changing import changing_faults
from ..browsing.hostile import POLICY, REVIEW, hostile_faults
from ..browsing.positions import keys_faults, positions_faults
from ..browsing.trying import hostile_texts_faults, keeping_faults, mending_faults
from ..browsing.values import values_faults
from ..entry import Stop, parser_of
from ..home import EXAMPLES, ROOT
from ..playground import module
from ..playground.building import page as page_text
from ..slots.checking import map_faults
from ..slots.mapping import parts_of

SIZES = {"wide": (1280, 900), "narrow": (420, 900)}
SCHEMES = ("light", "dark")
VIEWS = {"top": "scrollTo(0, 0)", **{name: f"document.getElementById('{name}').scrollIntoView()" for name in ("why", "run")}}
PICTURED = ("seccomp/unconfined", "replicas/five")
# how often the page is opened for its first decision, and the most milliseconds of the fastest
OPENINGS, FIRST = 5, 300


def words() -> argparse.Namespace:
    parser = parser_of(__doc__)
    parser.add_argument("program", nargs="?")
    parser.add_argument("--module")
    parser.add_argument("--count", type=int, default=10)
    parser.add_argument("--pictures")
    return parser.parse_args()


class Example:
    """A review of an example, with the files beside it."""

    def __init__(self, review: Path):
        self.review = review
        self.policy = review.parent / "policy.json"
        self.example, self.case = review.parent.name, review.name.removesuffix(".review.json")
        self.name = f"{self.example}/{self.case}"
        response = json.loads(review.with_name(review.name.replace(".review.", ".response.")).read_text())["response"]
        self.outcome = "allowed" if response["allowed"] else "denied"
        self.message = response.get("status", {}).get("message", "")
        self.beside = {kind: review.parent / f"{kind}.json" for kind in ("namespace", "params")}
        self.beside = {kind: path for kind, path in self.beside.items() if path.exists()}

    def documents(self) -> list[Any]:
        """The words that name the documents."""
        beside = [word for kind, path in self.beside.items() for word in (f"--{kind}", path)]
        return ["--review", self.review, *beside]


def examples() -> list[Any]:
    return [Example(path) for path in sorted(EXAMPLES.glob("*/*.review.json"))]


def map_checked(policy: Path, program: Program) -> list[Any]:
    """What is wrong with the map of a policy."""
    document = json.loads(policy.read_text())
    faults = map_faults(document, program, parts_of(document, program))
    return [f"{policy.parent.name}: {fault}" for fault in faults]


def written(page: Path, policy: Path, documents: list[Any], path: Path) -> None:
    """Writes a page by `vapctl why`."""
    review, *beside = ["--namespace-object" if word == "--namespace" else word for word in documents[1:]]
    command = [ROOT / "vapctl", "why", policy, review, *beside, "--html", page, "--program", path]
    ran = subprocess.run(command, capture_output=True, text=True)
    if ran.returncode not in (0, 1):
        raise Stop(f"vapctl why ends with status {ran.returncode}: {ran.stderr}")


def pictures(page: Page, name: str, folder: Path) -> None:
    """Keeps pictures of an open page, of its top, of its parts and of its run."""
    for size, (width, height) in SIZES.items():
        for scheme in SCHEMES:
            page.look(width, height, scheme)
            for place, script in VIEWS.items():
                page.value(f"{script}; new Promise((done) => setTimeout(done, 400))")
                (folder / f"{name.replace('/', '-')}-{size}-{scheme}-{place}.png").write_bytes(page.picture())


class Pages:
    """The page in a browser: how many cases it showed, how many positions were compared, and what was wrong."""

    def __init__(self, page: Page, path: Path, folder: str, given: argparse.Namespace):
        self.page = page
        self.path = path
        self.folder = Path(folder)
        self.given = given
        self.shown = self.positions = 0
        self.moved: set[Any] = set()
        self.faults: list[Any] = []
        self.file = self.folder / "playground.html"
        self.file.write_text(page_text(given.module), encoding="utf-8")

    def take(self, what: str, faults: Any) -> None:
        self.faults += [f"{what}: {one}" for one in faults]

    def open_first(self) -> int:
        """Opens the page several times; the milliseconds to the fastest first decision."""
        times = []
        for _ in range(OPENINGS):
            self.take("the page", playing.opened(self.page, self.file))
            times.append(playing.first_decision(self.page))
        return min(times)

    def choose(self, example: Example) -> None:
        """Chooses an example in the page."""
        shown = playing.chosen(self.page, example.example, example.case)
        self.shown += 1
        # a message is a quotation
        found, wanted = (shown["outcome"], shown["message"]), (example.outcome, example.message)
        if found != wanted or not shown["parts"] or shown["status"] or not shown["at"].startswith("step "):
            self.take(example.name, [f"it shows {shown}"])
        self.take(example.name, playing.told(self.page, self.file))

    def write(self, example: Example) -> None:
        """Writes the page of a denial by `vapctl why`, and moves its slider."""
        file = self.folder / "page.html"
        written(file, example.policy, example.documents(), self.path)
        self.moved.add(example.policy)
        self.take(example.name, playing.opened(self.page, file))
        self.take(example.name, self.move(example))

    def move(self, example: Example) -> list[Any]:
        """Moves the slider to each of its positions, and presses keys and buttons."""
        program = self.translating(example.documents())
        number, faults = positions_faults(self.page, program, program.kept_image(str(example.policy)))
        self.positions += number
        return [*faults, *keys_faults(self.page)]

    def translating(self, documents: list[Any]) -> Program:
        """The programs, as `vapctl why` asks them."""
        return Translating(self.path, gatekeeper_of(None, str(self.path)), str(self.folder), documents)

    def take_hostile(self) -> None:
        """The page of texts that would be markup."""
        for name, document in (("policy", POLICY), ("review", REVIEW)):
            (self.folder / f"{name}.hostile.json").write_text(json.dumps(document))
        file, policy, review = (self.folder / name for name in ("h.html", "policy.hostile.json", "review.hostile.json"))
        written(file, policy, ["--review", review], self.path)
        faults = [*playing.opened(self.page, file), *hostile_faults(self.page)]
        program = self.translating(["--review", review])
        self.take("hostile texts", [*faults, *positions_faults(self.page, program, program.kept_image(str(policy)))[1]])

    def all(self) -> int:
        """Does all; the milliseconds to the first decision."""
        first = self.open_first()
        for example in examples():
            self.choose(example)
            if self.given.pictures and example.name in PICTURED:
                pictures(self.page, example.name, Path(self.given.pictures))
        self.take("mending", mending_faults(self.page))
        self.take("hostile", hostile_texts_faults(self.page))
        self.take("keeping", keeping_faults(self.page, self.folder))
        self.take("changing", changing_faults(self.page, self.file))
        for example in examples():
            if example.outcome == "denied" and example.policy not in self.moved and len(self.moved) < self.given.count:
                self.write(example)
        self.take_hostile()
        return first


def maps_checked(path: Path, folder: str) -> list[Any]:
    """Compares the maps and the values of all examples, and says how many there were; what was wrong."""
    program, found = Program(path, folder), []
    policies = sorted(EXAMPLES.glob("*/policy.json"))
    for policy in policies:
        found += map_checked(policy, program)
    values, faults = values_faults(examples())
    print(f"maps of {len(policies)} policies, {values:,} values of {len(examples())} runs, {len(found + faults)} otherwise", flush=True)
    return found + faults


def main() -> int:
    given = words()
    path = located(given.program)
    if given.module:
        os.environ[module.GIVEN] = str(Path(given.module).resolve())
    module.located()
    with tempfile.TemporaryDirectory() as folder:
        faults = maps_checked(path, folder)
        print(*faults, sep="\n" if faults else "", end="\n" if faults else "", file=sys.stderr)
        browser()
        with Browser() as started:
            pages = Pages(started.page(), path, folder, given)
            first = pages.all()
        if first > FIRST:
            pages.take("the page", [f"its first decision takes {first} ms, and at most {FIRST} are allowed"])
        print(*(f"{one}\n" for one in pages.faults), sep="", end="", file=sys.stderr)
        wrong = len(faults) + len(pages.faults)
        moved = f"{pages.positions} positions of {len(pages.moved)}"
        print(f"{pages.shown} cases in the page, the first after {first} ms, {moved}, {wrong} faults")
    return 1 if wrong else 0
