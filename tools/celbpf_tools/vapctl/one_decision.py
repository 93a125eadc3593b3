"""One policy and one review, in files as `celbpf` reads them: what `why` and `debug` share."""

import argparse
import json
from collections.abc import Iterator
from pathlib import Path
from typing import Any, Optional

from ..documents import text_of
from ..entry import Stop
from ..manifests.sending import object_sent
from .checking import add_old, add_request_words, refuse_user, resources_of, stop, stop_at, tell
from .cluster import POLICY, as_stored, is_of
from .inputs import STDIN, Inputs, Thing, Trouble
from .no_manifests import REVIEW
from .requests import OPERATIONS, Asked, NoReview, Reviews
from .statuses import REFUSED

# the most names that a message lists
MOST_NAMES = 10


def without_nulls(value: dict[str, Any]) -> dict[str, Any]:
    """A map without the keys that are null, which an API server takes for absent."""
    return {key: one for key, one in value.items() if one is not None}


def policy_text(thing: Thing) -> str:
    """A policy as `celbpf` reads it: of v1, without what a cluster adds to it."""
    stored = as_stored(thing).value
    kept = without_nulls({key: value for key, value in stored.items() if key != "status"})
    if isinstance(kept.get("spec"), dict):
        kept["spec"] = without_nulls(kept["spec"])
    return json.dumps(kept)


def named(things: list[Thing], name: Optional[str], what: str, option: str, file: str = "") -> Thing:
    """The one of these objects of a file, or the one of this name, which may follow its kind and a slash."""
    chosen = [one for one in things if name is None or name in (one.name, f"{one.kind}/{one.name}")]
    if len(chosen) == 1:
        return chosen[0]
    if not things:
        where = "in standard input" if file == STDIN else f"in {file}" if file else "among the inputs"
        raise Stop(f"no {what} is {where}", REFUSED)
    listed = ", ".join(f"{one.kind}/{one.name}" if option != "--name" else one.name for one in things[:MOST_NAMES])
    found = f"{listed}{', ..' if len(things) > MOST_NAMES else ''}"
    if name is None:
        stop([f"{len(things)} objects for one {what}: {found}{f'; {option} NAME chooses one' * bool(option)}"])
    if chosen:
        told = ", ".join(f"{one.kind}/{one.name} ({one.place})" for one in chosen[:MOST_NAMES])
        use = "give the file of one" if "/" in name or option == "--name" else "use KIND/NAME"
        stop([f"several are called {name}: {told}; {use}"])
    stop([f"no {what} is called {name}; there are {found}"])


def is_asked(constraints: Any, resource: str) -> bool:
    """Whether some rule of constraints may match a resource, of whatever group and version; without rules none is known."""
    rules = constraints.get("resourceRules") if isinstance(constraints, dict) else None
    if not isinstance(rules, list) or not rules:
        return True
    names = [str(name) for rule in rules if isinstance(rule, dict) for name in rule.get("resources") or []]
    return any(name in ("*", "*/*") or name.partition("/")[0] in (resource, "*") for name in names)


def notices(policy: dict[str, Any], request: dict[str, Any], has_params: bool) -> Iterator[str]:
    """What the decision of a policy alone lacks that one in a cluster has."""
    spec = policy.get("spec") if isinstance(policy.get("spec"), dict) else {}
    assert isinstance(spec, dict)
    resource = request.get("resource")
    plural = resource.get("resource") if isinstance(resource, dict) else None
    if isinstance(plural, str) and not is_asked(spec.get("matchConstraints"), plural):
        yield f"its matchConstraints have no rule for {plural}: a cluster does not ask this policy"
    if spec.get("paramKind") and not has_params:
        yield "the policy has a paramKind, and without --params its params are null"
    if "userInfo" in str(spec) and "userInfo" not in request:
        yield "the policy reads request.userInfo, which the request has with --user alone"


class Decision:
    """The files of a decision, in a folder, and how messages call them."""

    def __init__(self, given: argparse.Namespace, folder: Path):
        refuse_user(given)
        self.given, self.folder, self.inputs = given, folder, Inputs()
        found = self.read(given.policy)
        policies = [one for one in found if is_of(one, POLICY)]
        self.policy = named(policies, given.name, POLICY, "--name", given.policy)
        self.review = named(self.read(given.review), given.object, "object", "--object", given.review)
        self.files: dict[str, Optional[str]] = {"policy": self.write("policy.json", policy_text(self.policy)),
                      "review": self.write("review.json", self.review_text())}
        self.written = self.own_text(len(found) == 1)
        self.shown = [str(self.policy.place), f"{self.review.place} {self.review.title}"]
        for key, file in (("namespace", given.namespace_object), ("params", given.params)):
            self.files[key] = self.document(key, file) if file else None
        request = json.loads(Path(str(self.files["review"])).read_text(encoding="utf-8", errors="surrogatepass")).get("request")
        for line in notices(self.policy.value, request if isinstance(request, dict) else {}, bool(given.params)):
            tell(line)

    def read(self, word: str) -> list[Thing]:
        """The objects of an input, which has to be read whole."""
        found = self.inputs.things([word])
        stop_at(self.inputs.troubles)
        return found

    def own_text(self, is_alone: bool) -> str:
        """The text of the policy as its author wrote it, if its file has nothing else and can be read again; or else what it says."""
        file = Path(self.policy.place.file)
        return text_of(file) if is_alone and file.is_file() else json.dumps(self.policy.value, indent=2, ensure_ascii=False)

    def write(self, name: str, text: str) -> str:
        path = self.folder / name
        path.write_text(text, encoding="utf-8", errors="surrogatepass")
        return str(path)

    def document(self, key: str, file: str) -> str:
        """The file of a namespace or of params."""
        thing = named(self.read(file), None, key, "", file)
        self.shown.append(f"{key} {thing.place}")
        return self.write(f"{key}.json", json.dumps(object_sent(thing.value)))

    def review_text(self) -> str:
        """The review that is given, or the one of an object."""
        if self.review.kind == REVIEW:
            return json.dumps(self.review.value)
        given = self.given
        old = self.read(given.old) if given.old else []
        defined = [thing for file in given.definitions for thing in self.read(file)]
        reviews = Reviews(resources_of([self.review, *old, *defined]),
                          Asked(given.namespace, given.operation or "", given.user, given.groups))
        add_old(reviews, old)
        try:
            return str(reviews.text(self.review, "1")[1])
        except NoReview as why:
            stop_at([Trouble(self.review.place, f"{self.review.title}: {why}")])
            raise


def add_words(parser: argparse.ArgumentParser, is_optional: bool = False) -> None:
    """The options of a decision."""
    more: dict[str, Any] = {"nargs": "?"} if is_optional else {}
    parser.add_argument("policy", metavar="POLICY", help="a file, YAML or JSON, with the policy; - is standard input", **more)
    parser.add_argument("review", metavar="REVIEW", nargs="?",
                        help="a file with an AdmissionReview, or with a manifest: then its object is created")
    parser.add_argument("--name", metavar="NAME", help="the policy of this name, if POLICY has several")
    parser.add_argument("--object", metavar="[KIND/]NAME", help="the object of this name, if REVIEW has several")
    parser.add_argument("--params", metavar="F", help="the params of the policy")
    parser.add_argument("--namespace-object", metavar="F", help="the Namespace that expressions see as namespaceObject")
    group = add_request_words(parser)
    group.add_argument("--old", metavar="F", help="the objects before: the manifest changes one of them")
    group.add_argument("--operation", choices=OPERATIONS, help="of the manifest's request")
    group.add_argument("--definitions", action="append", default=[], metavar="F",
                       help="CustomResourceDefinitions of the manifest's kind; may be given several times")
    add_programs(parser)


def add_programs(parser: argparse.ArgumentParser) -> None:
    """The options by which a policy is read."""
    parser.add_argument("--profile", action="store_true", help="read the policy as `celbpf` does (docs/CEL.md)")
    parser.add_argument("--program", metavar="PROGRAM", help="the program celbpf to ask, if not the one that is installed")
    parser.add_argument("--gatekeeper", metavar="PROGRAM", help="the gatekeeper to ask, likewise")
