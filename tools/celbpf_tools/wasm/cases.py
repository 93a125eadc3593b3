"""What the programs answer to the examples and to hostile documents, as cases for the module."""

import base64
import json
import subprocess
from pathlib import Path
from typing import Any, Iterator, Optional

from ..asking.gatekeeper import line_of, without_file
from ..documents import one_in
from ..entry import Stop
from ..home import EXAMPLES, ROOT
from ..seeded.cases import case_of
from ..seeded.numbers import Numbers
from ..testing.answers import Asked
from ..testing.cases import files_of, read
from .hostile import hostile

WIDE = ROOT / "examples" / "wide"
STEPS, READS = 10_000_000, 16_777_216
# the statuses of decisions, and those of calls by the refusal, as docs/EMBEDDING.md has them
ALLOWED, DENIED, UNREAD, UNCOMPILED = 0, 1, 2, 3
OF_POLICY = {"K1": UNREAD, "K2": UNREAD, "K3": UNREAD, "K4": UNREAD, "K5": UNREAD, "K8": UNREAD}
OF_RUN = {"N2": 4, "N3": 5, "N4": 6, "N5": 7, "N7": 12}
OF_IMAGE = {"L1": 13, "L2": 13, "L3": 13, "L4": 13, "L5": 13}
# what is done in each session: motions both ways, places, breakpoints, looks at each part, and lines that are no command
COMMANDS = b"".join(
    line + b"\n"
    for line in (
        b"w", b"r", b"s 1", b"s 3", b"l", b"b 8", b"c 1000000", b"r", b"v 1", b"v 2", b"v 9", b"g 0", b"w", b"c 1000000", b"w", b"f",
        b"rs 2", b"w", b"rc", b"w", b"d 8", b"m 4294967296 16", b"m 4294967296 99999", b"g 7", b"r", b"s 100000", b"w", b"",
        b"hello", b"s -1", b"g 99999999999999999999", b"\xff", b"q", b"r",
    )
)


def status_of(line: str) -> int:
    """The status of a call whose text is this line."""
    cause = line.removeprefix("celbpf: ").split()[0]
    return (OF_RUN | OF_POLICY | OF_IMAGE).get(cause, UNCOMPILED)


def case(kind: str, name: str, call: str, documents: list[Any], status: int, text: bytes, **more: Any) -> dict[str, Any]:
    """A case: a call of the module with its documents, and what is wanted."""
    numbers = [str(STEPS), str(READS)] if call == "review" else []
    given = [base64.b64encode(one or b"").decode() for one in documents]
    answer = {"status": status, "text": base64.b64encode(text).decode()}
    return {"kind": kind, "name": name, "call": f"celbpf_page_{call}", "documents": given, "numbers": numbers, **answer, **more}


class Programs:
    """The programs, on files of a folder."""

    def __init__(self, celbpf: Path, gatekeeper: Path, folder: Path):
        self.celbpf = celbpf
        self.gatekeeper = gatekeeper
        self.folder = folder

    def file(self, name: str, held: bytes) -> Path:
        path = self.folder / name
        path.write_bytes(held)
        return path

    def ran(self, program: Path, *words: Any, given: bytes = b"") -> tuple[int, bytes, bytes]:
        """The status of a run, and both outputs."""
        done = subprocess.run([program, *words], input=given, capture_output=True, check=False)
        if done.returncode not in range(5):
            raise Stop(f"{program} ended with status {done.returncode} on {' '.join(map(str, words))}")
        return done.returncode, done.stdout, done.stderr

    def beside(self, namespace: Optional[bytes], params: Optional[bytes]) -> list[Any]:
        """The words that name the documents beside a review."""
        given = {"namespace": namespace, "params": params}
        return [word for kind, held in given.items() if held is not None for word in (f"--{kind}", self.file(f"{kind}.json", held))]

    def decided(self, policy: bytes, review: bytes, *beside: Optional[bytes]) -> tuple[int, bytes]:
        """The status and the text of a decision of the gatekeeper: its response, or the line of the refusal."""
        words = ["--policy", self.file("policy.json", policy), *self.beside(*beside)]
        line = line_of(review)
        status, answer, said = self.ran(self.gatekeeper, *words, given=(line or "").encode())
        if status:
            refused = without_file(said.decode(), [str(word) for word in words])
            return status_of(refused), refused.encode()
        # what is no line of JSON is refused too
        found = json.loads(answer) if line else {"refused": "N2"}
        if "refused" in found:
            return OF_RUN[found["refused"].split()[0]], f"celbpf: {found['refused']}\n".encode()
        return (ALLOWED if found["response"]["allowed"] else DENIED), answer.removesuffix(b"\n")

    def translated(self, policy: bytes) -> tuple[int, bytes]:
        file = self.file("policy.json", policy)
        status, text, said = self.ran(self.gatekeeper, "--translate", file)
        if not status:
            return 0, text
        refused = without_file(said.decode(), [str(file)])
        return status_of(refused), refused.encode()

    def compiled(self, policy: bytes) -> tuple[int, bytes]:
        """The image of a policy, or the line of its refusal."""
        image = self.folder / "image"
        status, _, said = self.ran(self.celbpf, "compile", self.file("policy.json", policy), image)
        return (status_of(said.decode()), said) if status else (0, image.read_bytes())

    def listed(self, image: bytes) -> tuple[int, bytes]:
        status, text, said = self.ran(self.celbpf, "list", self.file("image", image))
        return (status_of(said.decode()), said) if status else (0, text)

    def debugged(self, image: bytes, documents: list[Any], commands: bytes) -> tuple[int, bytes]:
        """The replies of a session, or the line of the refusal."""
        given = zip(("--review", "--namespace", "--params"), documents)
        words = [word for kind, held in given if held for word in (kind, self.file(kind[2:], held))]
        status, text, said = self.ran(self.celbpf, "debug", self.file("image", image), *words, given=commands)
        return (status_of(said.decode()), said) if status else (0, text)


def first(*paths: Path) -> Optional[bytes]:
    """What the first of these files has that is there."""
    return next((path.read_bytes() for path in paths if path.exists()), None)


def of_examples(programs: Programs) -> Iterator[dict[str, Any]]:
    """Each review of an example, and a session over it."""
    images: dict[Path, bytes] = {}
    for path in sorted(EXAMPLES.glob("*/*.review.json")):
        folder, stem = path.parent, path.name.removesuffix(".review.json")
        policy, review = (folder / "policy.json").read_bytes(), path.read_bytes()
        beside = [first(folder / f"{stem}.{kind}.json", folder / f"{kind}.json") for kind in ("namespace", "params")]
        name, documents = f"{folder.name}/{stem}", [review, *beside]
        yield case("responses", name, "review", [policy, *documents], *programs.decided(policy, review, *beside))
        if folder not in images:
            images[folder] = programs.compiled(policy)[1]
            yield from of_policy(programs, folder.name, policy)
        answer = programs.debugged(images[folder], documents, COMMANDS)
        yield case("sessions", name, "debug", [images[folder], *documents, COMMANDS], *answer)


def of_policy(programs: Programs, name: str, policy: bytes) -> Iterator[dict[str, Any]]:
    """The image of a policy, its listing, and the translation."""
    status, image = programs.compiled(policy)
    yield case("images", name, "compile", [policy], status, image)
    yield case("listings", name, "list", [image], *programs.listed(image))
    yield case("translations", name, "translate", [policy], *programs.translated(policy))


def of_wide(programs: Programs) -> Iterator[dict[str, Any]]:
    """Each case of the policies in the language of clusters, and what is compiled of their translations."""
    asked = Asked(programs.folder)
    for path in files_of([WIDE]):
        for one in read(path).cases:
            beside = {kind: asked.file(one.beside[kind], path.parent) for kind in ("namespace", "params") if kind in one.beside}
            given = [Path(beside[kind]).read_bytes() if kind in beside else None for kind in ("namespace", "params")]
            policy, review = wide_policy(path, one), asked.review(one).encode()
            name = f"{path.parent.name}/{one.name}"
            yield case("wide responses", name, "review", [policy, review, *given], *programs.decided(policy, review, *given))
        status, translation = programs.translated(policy)
        yield case("translations", path.parent.name, "translate", [policy], status, translation)
        yield case("images", f"of the translation of {path.parent.name}", "compile", [translation], *programs.compiled(translation))


def wide_policy(path: Path, one: Any) -> bytes:
    """The policy of a case as JSON."""
    name = one.beside.get("policy") or "policy.yaml"
    return json.dumps(one_in(path.parent / name)).encode()


HEAD = b'{"apiVersion":"admissionregistration.k8s.io/v1","kind":"ValidatingAdmissionPolicy","spec":%s}'
REFUSED = [
    b"", b"[", b"{}", HEAD % b"{}", HEAD % b'{"validations":[]}', HEAD % b'{"validations":[{"expression":"true","message":"a\\nb"}]}',
    HEAD % b'{"auditAnnotations":[{"key":"a","valueExpression":"\'b\'"}],"validations":[{"expression":"true"}]}',
    *(
        HEAD % b'{"validations":[{"expression":"%s"}]}' % text
        for text in (
            b"object.", b"a # b", b"x", b"'a' + 1", b"has(object)", b"1", b"9223372036854775808 == 1", b"url('a')", b"!" * 600,
            # its line is longer than the first room
            b"a" * 65_530,
        )
    ),
    HEAD % b'{"variables":[{"name":"v","expression":"1 +"}],"validations":[{"expression":"true"}]}',
    HEAD % b'{"validations":[{"expression":"true","messageExpression":"2"}]}',
]


def of_refused(programs: Programs) -> Iterator[dict[str, Any]]:
    """Policies, documents and images that are refused."""
    policy, review = ((EXAMPLES / "replicas" / name).read_bytes() for name in ("policy.json", "three.review.json"))
    for place, text in enumerate(REFUSED):
        name = f"policy {place}"
        yield case("refusals", name, "review", [text, review, None, None], *programs.decided(text, review, None, None))
        yield case("refusals", name, "compile", [text], *programs.compiled(text))
        yield case("refusals", name, "translate", [text], *programs.translated(text))
    for place, text in enumerate((b"{", b"{}", b"[]", b"\xff", b'{"request":{"uid":1}}')):
        name = f"document {place}"
        yield case("refusals", f"review {place}", "review", [policy, text, None, None], *programs.decided(policy, text, None, None))
        yield case("refusals", name, "review", [policy, review, text, None], *programs.decided(policy, review, text, None))
        yield case("refusals", name, "review", [policy, review, None, text], *programs.decided(policy, review, None, text))
    image = programs.compiled(policy)[1]
    for place, held in enumerate((b"junk", image[:-1], image[:16], image + b"\0", b"CELBPF01" + image[8:])):
        yield case("refusals", f"image {place}", "list", [held], *programs.listed(held))
        yield case("refusals", f"image {place}", "debug", [held, review, None, None, b"r\n"], *programs.debugged(held, [review], b"r\n"))
    rows: list[list[Any]] = [[b"{", None, None], [review, b"[", None], [review, None, b"["], [None, b"{}", None]]
    for place, documents in enumerate(rows):
        answer = programs.debugged(image, documents, b"r\n")
        yield case("refusals", f"session {place}", "debug", [image, *documents, b"r\n"], *answer)


def of_hostile(programs: Programs) -> Iterator[dict[str, Any]]:
    """Documents that are deep, long or costly."""
    for one in hostile():
        answer = programs.decided(one.policy, one.review, None, None)
        yield case("hostile", one.name, "review", [one.policy, one.review, None, None], *answer, may=one.may_fail)
        yield case("hostile", one.name, "translate", [one.policy], *programs.translated(one.policy), may=one.may_fail)
        yield case("hostile", one.name, "compile", [one.policy], *programs.compiled(one.policy), may=one.may_fail)


def of_seed(programs: Programs, seed: int, count: int) -> Iterator[dict[str, Any]]:
    """So many policies from a seed, each with a review, of which some are spoiled."""
    numbers = Numbers(seed)
    for place in range(count):
        given, name = case_of(numbers), f"{place} of seed {seed}"
        beside = [given.namespace, given.params]
        documents = [given.review, *beside]
        answer = programs.decided(given.policy, given.review, *beside)
        yield case("seeded responses", name, "review", [given.policy, *documents], *answer)
        yield case("seeded translations", name, "translate", [given.policy], *programs.translated(given.policy))
        status, image = programs.compiled(given.policy)
        yield case("seeded images", name, "compile", [given.policy], status, image)
        if not status:
            answer = programs.debugged(image, documents, COMMANDS)
            yield case("seeded listings", name, "list", [image], *programs.listed(image))
            yield case("seeded sessions", name, "debug", [image, *documents, COMMANDS], *answer)


def cases(programs: Programs, seed: int, count: int) -> list[Any]:
    """All of them, with so many from a seed; the first is a decision."""
    parts = (of_examples, of_wide, of_refused, of_hostile)
    return [*(one for part in parts for one in part(programs)), *of_seed(programs, seed, count)]
