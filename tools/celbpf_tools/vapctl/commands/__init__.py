"""The subcommands: a module for each, with `MORE` (what its help adds), `words(parser)` for its options, and `run(given)`.

A module is imported when its subcommand is run, so that `check` does not wait for what only `debug` needs.
"""

import importlib
from types import ModuleType

# what each does, as the list of subcommands tells it
WHATS = {
    "check": "check manifests against the policies of a cluster, or given ones",
    "audit": "check the objects of a cluster, with a summary by policy, namespace and kind",
    "state": "save the state of a cluster: its policies, and what they need",
    "test": "run tests of policies",
    "reviews": "show what a policy decides of many reviews",
    "why": "show why a policy decides a review, a manifest or a test case as it does",
    "debug": "debug a decision step by step, forward and back",
    "lint": "show all that is refused in policies",
    "compile": "write the image of a policy's program",
    "translate": "print a policy as it is compiled",
    "as-reviews": "print the admission review of each object, a line each",
    "asm": "assemble a program's text with comments and named constants",
}


def module_of(name: str) -> ModuleType:
    """The module of a subcommand."""
    return importlib.import_module(f"{__name__}.{name.replace('-', '_')}")
