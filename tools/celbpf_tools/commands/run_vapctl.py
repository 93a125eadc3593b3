"""Runs `vapctl` on manifests, examples and broken inputs, and compares what it prints and how it ends.

usage: tools/run-vapctl [--quick|PROGRAM GATEKEEPER] [TABLE..]

The tables are the files of tools/data/run-vapctl, worked by hand (`celbpf_tools/tests/vapctl_tables.py` has their lines).
Each example's reviews are then checked as manifests, whose outcome is that of the response beside them; the findings of
fifty files of manifests, and for some what does not match, are those of an evaluator written apart; their reports in
each form are valid by their schemas, those of SARIF and JUnit if jsonschema and xmllint are installed; a thousand
Deployments are audited, whose numbers are counted here too; and each subcommand reads the same broken inputs, on which it
ends with a status of its own and without a traceback.
"""

import argparse
import json
import os
import shutil
import signal
import subprocess
import sys
import tempfile
from collections import Counter
from collections.abc import Iterator
from pathlib import Path
from typing import Any

from .. import entry
from ..asking.program import GIVEN, tested
from ..entry import usage_of
from ..home import DATA, EXAMPLES, ROOT
from ..tests.vapctl_broken import INPUTS, LAUNCHES, TESTS, commands, launches, tests_of
from ..tests.vapctl_corpus import Corpus, Finding
from ..tests.vapctl_schemas import SCHEMAS, junit_faults
from ..tests.vapctl_tables import compared, tables_of
from ..vapctl.commands import WHATS, module_of
from ..vapctl.main import main as main_of_vapctl

TABLES = DATA / "run-vapctl"
CORPUS = DATA / "vapctl"
POLICIES = [CORPUS / "policies", CORPUS / "corpus-policies"]
# what is printed if vapctl itself fails
FAILURES = ("Traceback", "an error in vapctl itself")
DEPLOYMENTS = 1_000
# the files of manifests in the corpus
FILES = 50
# some files of the corpus, and what `why` prints before what does not match
WHY = ("21-nginx.yaml", "23-fluentd.yaml", "24-backup.yaml", "26-services.json", "29-accounts.yaml", "33-probes.yaml", "35-namespaces.yaml")
OUT = "these do not match:\n"
# the most seconds of a run
PATIENCE = 300


class Runs:
    """How many runs there were, and how many are not as they are to be."""

    def __init__(self) -> None:
        self.done = self.wrong = 0

    def tell(self, what: str, is_right: bool, found: str) -> None:
        self.done += 1
        if not is_right:
            self.wrong += 1
            print(f"{what}\nfound: {found}", flush=True)


def vapctl(*words: object, asked: bytes = b"") -> subprocess.CompletedProcess[bytes]:
    """A run of `vapctl`."""
    command = [str(ROOT / "vapctl"), *map(str, words)]
    return subprocess.run(command, input=asked, capture_output=True, check=False)


def run_tables(runs: Runs, program: Path, chosen: list[str]) -> None:
    """The tables, or those that are chosen."""
    for table in tables_of(TABLES, chosen):
        with tempfile.TemporaryDirectory() as folder:
            done, wrong = compared(table.name, table.read_text().splitlines(), program, folder)
        runs.done += done
        runs.wrong += wrong


def forked(words: list[object], text: bytes, folder: Path) -> tuple[int, str]:
    """The status of a run in a process of its own, which begins as a copy of this one, and what it says on both outputs."""
    (folder / "stdin").write_bytes(text)
    child = os.fork()
    if not child:
        for number, name, flags in ((0, "stdin", os.O_RDONLY), (1, "said", os.O_WRONLY | os.O_CREAT | os.O_TRUNC)):
            os.dup2(os.open(folder / name, flags), number)
        os.dup2(1, 2)
        sys.stdin, sys.argv = open(0, encoding="utf-8"), ["vapctl", *map(str, words)]
        signal.alarm(PATIENCE)
        try:
            entry.run("vapctl", main_of_vapctl)
        except SystemExit as ended:
            sys.stdout.flush()
            os._exit(ended.code if isinstance(ended.code, int) else 1)
        finally:
            os._exit(99)
    _, status = os.waitpid(child, 0)
    return os.waitstatus_to_exitcode(status), (folder / "said").read_text(encoding="utf-8", errors="replace")


def creations(folder: Path) -> Iterator[tuple[dict[str, Any], bool]]:
    """The requests of an example that create an object as the request of a manifest would, and whether each is allowed."""
    for path in sorted(folder.glob("*.review.json")):
        request = json.loads(path.read_text())["request"]
        response = json.loads(path.with_name(path.name.replace(".review.", ".response.")).read_text())["response"]
        if request["operation"] == "CREATE" and request.get("object") and not request.get("subResource"):
            yield request, response["allowed"]


def run_examples(runs: Runs, folder: Path) -> None:
    """The examples: each creation is checked as a manifest, by the user of its request."""
    for example in sorted(path.parent for path in EXAMPLES.glob("*/policy.json")):
        for request, is_allowed in creations(example):
            thing, state = folder / "thing.json", []
            thing.write_text(json.dumps(request["object"]))
            for name, word in (("params", "--params"), ("namespace", "--policy")):
                if (example / f"{name}.json").exists():
                    state += [word, example / f"{name}.json"]
            user = request.get("userInfo", {})
            who = [word for group in user.get("groups", []) for word in ("--group", group)]
            report = folder / "report.json"
            report.unlink(missing_ok=True)
            words = ["check", "--policy", example / "policy.json", *state, thing, "--user", user.get("username", "ann"), *who]
            status, said = forked([*words, "-o", f"json={report}"], b"", folder)
            found = json.loads(report.read_text())["results"][0]["outcome"] if report.exists() else ""
            wanted = "allowed" if is_allowed else "denied"
            runs.tell(f"{example.name}: {request['uid']}: {wanted}", found == wanted, f"{found} {said}[{status}]")


def files(folders: list[Path]) -> list[Path]:
    """All files of folders."""
    return sorted(path for folder in folders for path in folder.iterdir())


def finding(entry: dict[str, str]) -> Finding:
    """A finding of a report; of what is not decided without its message."""
    return entry.get("policy", ""), entry["action"], entry["message"] if entry["action"] != "error" else ""


def run_corpus(runs: Runs, folder: Path) -> None:
    """The manifests, whose findings are computed apart."""
    manifests = [CORPUS / name for name in ("manifests", "corpus")]
    wanted = Corpus(files(POLICIES), files(manifests)).findings()
    words = [word for one in POLICIES for word in ("--policy", one)]
    report = folder / "corpus.json"
    status, said = forked(["check", *words, *manifests, "-o", f"json={report}"], b"", folder)
    results = json.loads(report.read_text())["results"]
    found: dict[str, list[set[Finding]]] = {name: [] for name in wanted}
    for one in results:
        found[Path(one["file"]).name].append(set(map(finding, one["findings"])))
    runs.tell("the corpus: status and files", status == 3 and len(wanted) == FILES, f"{said}[{status}] {len(wanted)}")
    for name, each in wanted.items():
        runs.tell(f"the corpus: {name}", found[name] == each, f"{found[name]}\nand not {each}")


def run_forms(runs: Runs, folder: Path) -> None:
    """The reports of the manifests, and of the tests of the examples, by their schemas."""
    words = [word for one in POLICIES for word in ("--policy", one)]
    files = {form: folder / f"report.{form}" for form in SCHEMAS}
    forms = [word for form, file in files.items() for word in ("-o", f"{form}={file}")]
    for command in ("check", "audit"):
        status, said = forked([command, *words, *(CORPUS / name for name in ("manifests", "corpus")), *forms], b"", folder)
        for form, valid in SCHEMAS.items():
            faults = valid(files[form]) if status == 3 else [said]
            runs.tell(f"{command} -o {form} by its schema", not faults, "\n".join(faults[:10]))
    status, said = forked(["test", EXAMPLES, "-o", f"junit={files['junit']}"], b"", folder)
    faults = junit_faults(files["junit"]) if status == 0 else [said]
    runs.tell("test -o junit by its schema", not faults, "\n".join(faults[:10]))


def run_why(runs: Runs, folder: Path) -> None:
    """Some of the manifests, of which `why` names the policies and bindings that do not match."""
    words = [word for one in POLICIES for word in ("--policy", one)]
    for file in WHY:
        corpus = Corpus(files(POLICIES), [CORPUS / "corpus" / file])
        thing = next(iter(corpus.files.values()))[0]
        named = f"{thing['kind']}/{thing['metadata']['name']}"
        status, said = forked(["why", *words, CORPUS / "corpus" / file, "--object", named], b"", folder)
        _, _, listed = said.partition(OUT)
        found = {line.strip().split(": ")[0] for line in listed.splitlines()}
        wanted = corpus.kept_out(thing)
        runs.tell(f"why: {file}", found == wanted and status in (0, 1), f"{said}[{status}]\nand not {sorted(wanted)}")


def run_audit(runs: Runs, folder: Path) -> None:
    """An audit of many Deployments, whose numbers are those that are counted here."""
    items: list[dict[str, Any]] = []
    counts: Counter[tuple[str, str]] = Counter()
    for number in range(DEPLOYMENTS):
        namespace, replicas = f"n{number % 3}", number % 7
        metadata = {"name": f"web-{number}", "namespace": namespace}
        items.append({"apiVersion": "apps/v1", "kind": "Deployment", "metadata": metadata, "spec": {"replicas": replicas}})
        counts[namespace, "denied" if replicas > 3 else "allowed"] += 1
    (folder / "many.json").write_text(json.dumps({"apiVersion": "v1", "kind": "List", "items": items}, indent=1))
    for jobs in (1, 3):
        ran = vapctl("audit", "--policy", EXAMPLES / "replicas" / "policy.json", folder / "many.json", "-o", "json", "--jobs", jobs)
        found = json.loads(ran.stdout)
        numbers = {(name, key): count[key] for name, count in found["byNamespace"].items() for key in ("allowed", "denied")}
        runs.tell(f"audit --jobs {jobs}", ran.returncode == 1 and numbers == counts, f"{numbers}, and not {counts}")
        names = [one["object"]["name"] for one in found["results"]]
        runs.tell(f"audit --jobs {jobs}: the order", names == [one["metadata"]["name"] for one in items], str(names[:5]))


def run_broken(runs: Runs, folder: Path) -> None:
    """Each subcommand on each broken input, as a file and as standard input."""
    for name, text in INPUTS.items():
        path = folder / name
        path.write_bytes(text)
        path.with_name(TESTS).write_bytes(tests_of(path))
        for words in commands(path):
            status, said = forked(words, text, folder)
            is_right = status in (0, 1, 2, 3) and not any(word in said for word in FAILURES)
            runs.tell(f"vapctl {' '.join(map(str, words))}", is_right, f"{said[-2000:]}[{status}]")
        status, said = forked(["debug", "--dap"], launches(path), folder)
        is_right = status == 0 and not any(word in said for word in FAILURES) and said.count('"command":"launch"') == LAUNCHES
        runs.tell(f"vapctl debug --dap: launches of {name}", is_right, f"{said[-2000:]}[{status}]")


def words() -> argparse.Namespace:
    parser = argparse.ArgumentParser(usage=usage_of(__doc__))
    parser.add_argument("--quick", action="store_true")
    parser.add_argument("programs", nargs="*", metavar="PROGRAM GATEKEEPER, and tables")
    return parser.parse_args()


def main() -> int:
    given = words()
    programs = [] if given.quick else given.programs[:2]
    chosen = given.programs if given.quick else given.programs[2:]
    named = programs + ["--quick" if given.quick else None] * 2
    paths = {name: tested(path, name) for name, path in zip(("celbpf", "gatekeeper"), named)}
    runs = Runs()
    for command in WHATS:
        # a run begins as a copy of this process, and then need not import it
        module_of(command)
    with tempfile.TemporaryDirectory() as name:
        folder = Path(name)
        # the gatekeeper that is asked is the one beside the program
        for program, path in paths.items():
            shutil.copy(path, folder / program)
        os.environ.update({GIVEN: str(folder / "celbpf"), "PATH": f"{ROOT}:{os.environ['PATH']}", "DATA": str(CORPUS)})
        run_tables(runs, folder / "celbpf", chosen)
        if not chosen:
            run_examples(runs, folder)
            run_corpus(runs, folder)
            run_forms(runs, folder)
            run_why(runs, folder)
            run_audit(runs, folder)
            (folder / "broken").mkdir()
            run_broken(runs, folder / "broken")
    if runs.wrong:
        print(f"{runs.wrong} of {runs.done} runs of vapctl are not as they are to be")
        return 1
    print(f"all {runs.done} runs of vapctl are as they are to be")
    return 0
