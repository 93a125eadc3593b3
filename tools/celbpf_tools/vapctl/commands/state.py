"""`vapctl state`: the state of a cluster in a file."""

import argparse
import json
import os
import stat
import sys
from collections import Counter
from typing import Optional

from ...entry import Stop
from ...manifests.kinds import DEFINITION
from ..checking import MADE_HERE, tell
from ..choosing import chosen
from ..cluster import BINDING, POLICY, NoState, is_namespace, is_of, namespace_named, policy_of, saved
from ..inputs import Inputs, Thing
from ..results import plural
from ..rules import refuse_rules
from ..saving import Kubectl, Saving, param_kinds
from ..statuses import GOOD, REFUSED

SECRET = ("v1", "Secret")
# the namespaces that an API server makes itself
OWN_NAMESPACES = ("default", "kube-node-lease", "kube-public", "kube-system")
MORE = """It runs `kubectl` and writes a List of policies, bindings, namespaces, CustomResourceDefinitions and the params that
bindings can choose. It names what `kubectl` may not read, and then ends with status 3. If policies, bindings or params are
among that, it writes nothing unless --partial is given. With --from it takes the same of manifests, with the namespaces
that an API server makes itself, as `default`. If params are Secrets, the state is secret: a file is then readable by its owner alone."""


def words(parser: argparse.ArgumentParser) -> None:
    """The options of the command."""
    parser.add_argument("--from", action="append", default=[], dest="manifests", metavar="F",
                        help="take a file or a folder of manifests, and run no kubectl; may be given several times")
    parser.add_argument("--to", metavar="FILE", help="write the state to a file, not to standard output")
    parser.add_argument("--partial", action="store_true",
                        help="also write a state that lacks policies, bindings or params that could not be read")
    parser.add_argument("--context", metavar="NAME", help="the context of kubectl")
    parser.add_argument("--kubeconfig", metavar="FILE", help="the configuration of kubectl")
    parser.add_argument("--kubectl", default="kubectl", metavar="PROGRAM", help="the kubectl to run (default: kubectl)")


def run(given: argparse.Namespace) -> int:
    """Writes the state."""
    things, troubles, lacks = of_manifests(given.manifests) if given.manifests else of_cluster(given)
    for trouble in troubles:
        tell(str(trouble))
    if not any(is_of(thing, POLICY) for thing in things) and troubles:
        raise Stop("no policy could be read, and no state is written", REFUSED)
    if lacks and not given.partial:
        raise Stop("no state is written, since it would decide otherwise without these; --partial writes it", REFUSED)
    things = [*filter(is_needed, things), *(thing for thing in chosen(things) if not is_needed(thing))]
    write(given.to, things)
    tell_counts(things)
    return REFUSED if troubles else GOOD


def write(name: Optional[str], things: list[Thing]) -> None:
    """Writes the state to a file, or to standard output. A file with Secrets is for its owner alone."""
    text = json.dumps({"apiVersion": "v1", "kind": "List", "items": [thing.value for thing in things]}, indent=2) + "\n"
    secrets = sum((thing.api_version, thing.kind) == SECRET for thing in things)
    if name is None:
        sys.stdout.write(text)
    else:
        with open(os.open(name, os.O_WRONLY | os.O_CREAT | os.O_TRUNC, 0o600 if secrets else 0o666), "w", encoding="utf-8") as out:
            if secrets and stat.S_ISREG(os.fstat(out.fileno()).st_mode):
                os.fchmod(out.fileno(), 0o600)
            out.write(text)
    if secrets:
        tell(f"it has {plural(secrets, 'Secret')}, and is secret" + (": only its owner can read the file" if name else ""))


def of_cluster(given: argparse.Namespace) -> tuple[list[Thing], list[object], bool]:
    """The objects of a cluster, what it does not give, and whether that decides."""
    options = (("--context", given.context), ("--kubeconfig", given.kubeconfig))
    saving = Saving(Kubectl(given.kubectl, [word for option, value in options if value for word in (option, value)]))
    saving.take_all()
    return saving.things, list(saving.troubles), saving.lacks


def of_manifests(files: list[str]) -> tuple[list[Thing], list[object], bool]:
    """The objects of manifests that a state has, what is not read, and whether there is such: anything may be in it."""
    inputs = Inputs()
    try:
        things = inputs.things(files)
        refuse_rules(things)
        state = saved(things)
    except NoState as why:
        return [], [*inputs.troubles, *why.lines], True
    kinds = set(param_kinds(state.things))
    kept = [thing for thing in state.things if is_needed(thing) or (thing.api_version, thing.kind) in kinds]
    known = {thing.name for thing in kept if is_namespace(thing)}
    kept += [namespace_named(name, MADE_HERE) for name in OWN_NAMESPACES if name not in known]
    return kept, list(inputs.troubles), bool(inputs.troubles)


def is_needed(thing: Thing) -> bool:
    """Whether a state has an object, whatever its policies are."""
    return is_of(thing, POLICY) or is_of(thing, BINDING) or is_namespace(thing) or (thing.group, thing.kind) == DEFINITION


def tell_counts(things: list[Thing]) -> None:
    """Tells how many objects of each kind there are, and which policies are not bound."""
    counts = Counter(thing.kind for thing in things)
    tell(f"{plural(len(things), 'object')}: {', '.join(f'{kind} {count:,}' for kind, count in counts.items()) or 'none'}")
    if not any(is_of(thing, POLICY) or is_of(thing, BINDING) for thing in things):
        tell("it has no policy and no binding, and `vapctl check` does not take it")
    bound = {policy_of(thing) for thing in things if is_of(thing, BINDING)}
    for thing in things:
        if is_of(thing, POLICY) and thing.name not in bound:
            tell(f"policy {thing.name} has no binding, and decides nothing")
