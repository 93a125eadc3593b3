"""Prints what each review of examples/policies costs: the steps of its policy's program for each unit of
work, and what they charge beyond the roots for each unit that is spent.

usage: tools/costs [--rows]

With --rows it prints the same of the rows of meaning in policy_tests that name no variable: the steps of an
expression's code for each visit, its charge for each unit that is spent, and its slots for each node.

Steps, charge and slots come from tools/data/costs, built without proof in a copy, which compiles and runs
each policy or expression; the rest is counted apart, by tools/evaluator (`tools/seeded-policies --costs`).
"""

import json
import os
import re
import statistics
import subprocess
import sys
from typing import Any, Callable, Iterator

from ..copies import CHECKED, copied, tried, with_driver
from ..evaluator import grammar, macros, measures
from ..evaluator.costs import Costs
from ..evaluator.meaning import Meaning
from ..home import EXAMPLES, ROOT

CRATES = "serde_json value_store value_table guest_memory loader bpf_machine policy_glue review_runner"
MEANINGS = ROOT / "crates" / "policy_tests" / "src" / "tests" / "code" / "meanings.rt"
ROW = re.compile(r'^    \("((?:[^"\\\\]|\\\\.)*)", [0-9]+\),$', re.MULTILINE)
ROOTS = {
    "object": {"spec": {"on": True, "replicas": 5}},
    "oldObject": None,
    "params": {"limit": 3},
    "namespaceObject": {"name": "default"},
    "request": {"uid": "u1"},
}

# what is printed below the rows
MEASURES: dict[str, Callable[..., Any]] = {"median": statistics.median, "greatest": max}


def reviews() -> Iterator[Any]:
    """The name of each review, as replicas/five."""
    for path in sorted(EXAMPLES.glob("*/*.review.json")):
        yield f"{path.parent.name}/{path.name.removesuffix('.review.json')}"


def line(path: Any) -> Any:
    """The document in a file on one line, which is empty where there is no such file."""
    if not os.path.exists(path):
        return "\n"
    with open(path) as file:
        return json.dumps(json.load(file), ensure_ascii=False) + "\n"


def documents(name: str) -> Any:
    """The policy, the review, the namespace's object and the params of a review, a line each."""
    folder = f"{EXAMPLES}/{os.path.dirname(name)}"
    paths = ["policy.json", f"{os.path.basename(name)}.review.json", "namespace.json", "params.json"]
    return "".join(line(f"{folder}/{path}") for path in paths)


def counted(copy: Any) -> Any:
    """The steps and the charge of each review, by its name."""
    driver, cases = with_driver(copy, "costs", "costs", CRATES), f"{copy}/cases"
    os.mkdir(cases)
    for name in reviews():
        with open(f"{cases}/{name.replace('/', '.')}", "w") as file:
            file.write(documents(name))
    ran = tried(driver, *CHECKED, "--cases", cases)
    rows = re.findall(r"^== (\S+)\n(\d+) (\d+)$", ran.stdout, re.MULTILINE)
    if len(rows) != len(list(reviews())):
        sys.exit(f"costs: not each program exited\n{ran.stdout}{ran.stderr}")
    return {case.replace(".", "/"): (int(steps), int(charge)) for case, steps, charge in rows}


def defined() -> Any:
    """The work and what is spent of each review, by its name."""
    command = [f"{ROOT}/tools/seeded-policies", "--costs"]
    ran = subprocess.run(command, check=True, stdout=subprocess.PIPE, text=True)
    rows = (row.split() for row in ran.stdout.splitlines())
    return {name: (int(work), int(spent)) for name, work, spent in rows}


def rows() -> Any:
    """The rows' expressions that name no variable."""
    texts = (json.loads(f'"{text}"') for text in ROW.findall(MEANINGS.read_text()))
    return [text for text in texts if "variables." not in text]


def counted_rows(copy: Any, texts: Any) -> Any:
    """The steps, the charge and the slots of each expression."""
    driver, cases = with_driver(copy, "costs", "rows", CRATES), f"{copy}/cases"
    os.mkdir(cases)
    for number, text in enumerate(texts):
        with open(f"{cases}/{number}", "w") as file:
            file.write(text)
    ran = tried(driver, *CHECKED, "--cases", cases)
    found = re.findall(r"^== (\d+)\n(\d+) (\d+) (\d+)$", ran.stdout, re.MULTILINE)
    if len(found) != len(texts):
        sys.exit(f"costs: not each program exited\n{ran.stdout}{ran.stderr}")
    return {int(number): tuple(map(int, words)) for number, *words in found}


def defined_row(text: str) -> Any:
    """The visits, what is spent and the nodes of an expression."""
    tree, costs = macros.expand(grammar.read(text)), Costs()
    Meaning(ROOTS, {}, costs).of(tree)
    return costs.work, costs.spent, measures.nodes(tree)


def print_rows() -> None:
    texts = rows()
    with copied("out") as copy:
        runs = counted_rows(copy, texts)
    ratios = []
    for number, text in enumerate(texts):
        ratios.append([one / other for one, other in zip(runs[number], defined_row(text))])
        print("{:7.1f} {:7.2f} {:7.1f}".format(*ratios[-1]), text)
    for word, of in MEASURES.items():
        print("{:7.1f} {:7.2f} {:7.1f}".format(*map(of, zip(*ratios))), word)
    print(f"counted for {len(texts)} expressions")


def main() -> Any:
    if sys.argv[1:] == ["--rows"]:
        return print_rows()
    with copied("out") as copy:
        runs = counted(copy)
    definitions = defined()
    form = "{:32} {:>6} {:>6} {:>6} {:>7} {:>6} {:>6}"
    print(form.format("review", "steps", "work", "ratio", "charge", "spent", "ratio"))
    ratios = []
    for name, (steps, charge) in runs.items():
        work, spent = definitions[name]
        ratios.append((steps / work, charge / spent))
        print(form.format(name, steps, work, f"{steps / work:.1f}", charge, spent, f"{charge / spent:.2f}"))
    for word, of in MEASURES.items():
        steps, charge = of(ratio[0] for ratio in ratios), of(ratio[1] for ratio in ratios)
        print(form.format(word, "", "", f"{steps:.1f}", "", "", f"{charge:.2f}"))
    print(f"counted for {len(runs)} reviews")
