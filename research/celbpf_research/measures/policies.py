"""How long policies take to compile, and reviews to answer."""

from typing import Any

from .runs import row

ALLOWED, DENIED, REFUSED = 0, 1, 3

# short runs, of which the best of many is the same again
COUNT = 20


def policy(runs: Any, name: str, expressions: Any, variables: Any = ()) -> Any:
    """A policy whose validations have these expressions, with variables of these names."""
    spec = {
        "variables": [{"name": variable, "expression": "1"} for variable in variables],
        "validations": [{"expression": expression} for expression in expressions],
    }
    document = {
        "apiVersion": "admissionregistration.k8s.io/v1",
        "kind": "ValidatingAdmissionPolicy",
        "spec": spec,
    }
    return runs.document(name, document)


def timed(runs: Any, name: str, words: Any, status: Any) -> None:
    """A run that ends with this status."""
    seconds, memory = runs.best(words, statuses=(status,), count=COUNT)
    row(name, f"{seconds * 1000:.1f} ms", memory)


def reviewed(runs: Any, name: str, policy_path: Any, review_path: Any, status: Any) -> None:
    """A review that ends with this status."""
    words = ["review", "--policy", policy_path, "--review", review_path]
    timed(runs, name, words, status)


def first_example(runs: Any, example: Any) -> None:
    """The first example, and a review of a megabyte under its policy."""
    path = f"{example}/policy.json"
    reviewed(runs, "review, the first example", path, f"{example}/five.review.json", DENIED)
    annotations = {f"key{key:05}".ljust(80, "x"): "y" * 14 for key in range(10_000)}
    thing = {"metadata": {"annotations": annotations}, "spec": {"replicas": 3}}
    reviewed(runs, "review, a document of 1 MB", path, runs.review("megabyte", thing), ALLOWED)


def many_validations(runs: Any, example: Any) -> None:
    """The most validations that a policy has; of five replicas the first two are false."""
    path = policy(runs, "most", [f"object.spec.replicas <= {most}" for most in range(3, 67)])
    words = ["compile", path, f"{runs.folder}/most.img"]
    timed(runs, "compile, 64 validations", words, 0)
    review = f"{example}/five.review.json"
    reviewed(runs, "review, 64 validations", path, review, DENIED)


def many_items(runs: Any) -> None:
    """A macro over lists without the item that is looked for, so that each item is visited."""
    path = policy(runs, "none", ["!object.items.exists(x, x == 1)"])
    for count in (1_000, 10_000, 100_000):
        review = runs.review("items", {"items": list(range(2, count + 2))})
        reviewed(runs, f"review, a macro over {count:,} items", path, review, ALLOWED)


def many_variables(runs: Any) -> None:
    """More variables than a policy may have, which are refused once all their names are found distinct."""
    for count in (1_000, 10_000, 100_000):
        path = policy(runs, "variables", ["true"], (f"v{place}" for place in range(count)))
        words = ["compile", path, f"{runs.folder}/variables.img"]
        timed(runs, f"compile, {count:,} variables, refused", words, REFUSED)


def measure(runs: Any, example: Any) -> None:
    """Reviews and compilations; `example` is the folder of the first example."""
    first_example(runs, example)
    many_validations(runs, example)
    many_items(runs)
    many_variables(runs)
