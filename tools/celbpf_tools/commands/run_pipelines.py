"""Runs the shell parts of examples/pipelines on a small repository, and sees which of them fail.

usage: tools/run-pipelines [--quick|PROGRAM GATEKEEPER]

A step of GitHub Actions, the script of GitLab CI, a hook of pre-commit with the files that it is given, and the Makefile
run in a folder with policies, manifests and a chart, whose `helm` is a stand-in. Each is green if all is allowed. Each
that looks at it is red, with the status of the first command that fails and without going on, if a manifest or the chart
is denied, a policy is refused, a test fails, or `helm` does after its first object. What installs packages is not run.
If docker or podman can build images here, the container file is built with the package, and its image checks the manifests.
"""

import os
import re
import shlex
import shutil
import subprocess
import sys
import tempfile
from collections.abc import Iterator
from dataclasses import dataclass
from pathlib import Path
from typing import Any, Callable, Optional

from ..asking.program import GIVEN, tested
from ..documents import one_in
from ..entry import Stop, usage_of
from ..home import DATA, ROOT, TOOLS

PIPELINES = ROOT / "examples" / "pipelines"
POLICY = DATA / "vapctl" / "policies" / "replicas.yaml"
BASH = ["bash", "-e", "-o", "pipefail"]
WENT_ON = "it went on"
# what builds images, and how the one of the container file is called
BUILDERS = ("docker", "podman")
IMAGE = "celbpf-vapctl-test"
OBJECT = "apiVersion: apps/v1\nkind: Deployment\nmetadata: {name: web}\nspec: {replicas: %d}\n"
TESTS = """policy: replicas.yaml
cases:
- {name: few, object: {spec: {replicas: %d}}, expect: allowed}
- {name: many, object: {spec: {replicas: 4}}, expect: denied}
"""
HELM = """#!/bin/sh
[ "$*" = "template web chart" ] || exit 9
cat chart/web.yaml
exit %d
"""
GREEN, DENIED, REFUSED = 0, 1, 3
# the status of make if a recipe fails
MAKE = 2


@dataclass
class Part:
    """A part of a pipeline: how it is called, its words, what it looks at, and its status if a command ends with one."""

    title: str
    words: list[str]
    looks_at: tuple[str, ...]
    is_make: bool = False

    def status(self, failing: dict[str, int]) -> int:
        """The status if these fail: that of the first."""
        found = next((failing[one] for one in self.looks_at if one in failing), GREEN)
        return MAKE if found and self.is_make else found


def github() -> Iterator[Part]:
    """The steps, which have bash as their shell."""
    workflow = one_in(PIPELINES / "github-actions.yaml")
    if workflow["defaults"]["run"]["shell"] != "bash":
        raise Stop("github-actions.yaml: without `shell: bash` a pipe hides a failure")
    looked = {
        "test the policies": ("lint", "tests"), "check the manifests": ("policies", "manifests"),
        "check the chart": ("helm", "policies", "chart"),
    }
    for step in workflow["jobs"]["policies"]["steps"]:
        if "run" in step and step["name"] != "install":
            yield Part(f"github: {step['name']}", script(step["run"]), looked[step["name"]])


def gitlab() -> Iterator[Part]:
    """The script, whose lines run one after another."""
    job = one_in(PIPELINES / "gitlab-ci.yaml")["policies"]
    yield Part("gitlab", script("\n".join(job["script"])), ("lint", "tests", "policies", "manifests", "chart", "helm"))


def pre_commit() -> Iterator[Part]:
    """The hooks, with the files that they are given."""
    looked = {"policies": ("lint", "tests"), "manifests": ("policies", "manifests")}
    for hook in one_in(PIPELINES / "pre-commit-config.yaml")["repos"][0]["hooks"]:
        names = ["policies/replicas.yaml", "policies/tests.yaml", "manifests/web.yaml", "chart/web.yaml"]
        given = [name for name in names if re.search(hook["files"], name)]
        words = [*shlex.split(hook["entry"]), *(given if hook.get("pass_filenames", True) else [])]
        yield Part(f"pre-commit: {hook['id']}", words, looked[hook["id"]])


def makefile() -> Iterator[Part]:
    """The default target."""
    words = ["make", "--file", str(PIPELINES / "Makefile")]
    yield Part("make", words, ("lint", "tests", "policies", "manifests", "chart", "helm"), True)


def script(text: str) -> list[str]:
    """The words that run a text, and tell if they go on to its end."""
    return [*BASH, "-c", f"{text}\necho {WENT_ON}"]


def replace(path: Path, text: str) -> None:
    """Writes a file that is there."""
    path.write_text(text)
    path.chmod(0o755)


# what is changed in the repository, and what then fails with which status
Change = Callable[[Path], Any]
CASES: dict[str, tuple[Change, dict[str, int]]] = {
    "all is allowed": (lambda top: None, {}),
    "a manifest is denied": (lambda top: replace(top / "manifests" / "web.yaml", OBJECT % 4), {"manifests": DENIED}),
    "the chart is denied": (lambda top: replace(top / "chart" / "web.yaml", OBJECT % 4), {"chart": DENIED}),
    "a manifest is not read": (lambda top: replace(top / "manifests" / "web.yaml", "a: ["), {"manifests": REFUSED}),
    "a policy is refused": (
        lambda top: replace(top / "policies" / "replicas.yaml", POLICY.read_text().replace("has(", "hat(")),
        {"lint": REFUSED, "tests": REFUSED, "policies": REFUSED},
    ),
    "a test fails": (lambda top: replace(top / "policies" / "tests.yaml", TESTS % 4), {"tests": DENIED}),
    "helm fails": (lambda top: replace(top / "bin" / "helm", HELM % 1), {"helm": DENIED}),
}


def repository(top: Path) -> None:
    """Makes a small repository in which all is allowed."""
    for name in ("policies", "manifests", "chart", "bin"):
        (top / name).mkdir(parents=True)
    shutil.copy(POLICY, top / "policies")
    replace(top / "policies" / "tests.yaml", TESTS % 3)
    for name in ("manifests", "chart"):
        replace(top / name / "web.yaml", OBJECT % 3)
    replace(top / "bin" / "helm", HELM % 0)


def why_wrong(part: Part, change: Change, failing: dict[str, int]) -> str:
    """What is wrong in a run of a part; empty if nothing is."""
    with tempfile.TemporaryDirectory() as folder:
        top = Path(folder) / "repository"
        repository(top)
        change(top)
        path = {**os.environ, "PATH": f"{top / 'bin'}:{ROOT}:{os.environ['PATH']}"}
        ran = subprocess.run(part.words, cwd=top, env=path, capture_output=True, text=True, check=False)
    wanted = part.status(failing)
    if ran.returncode != wanted:
        return f"status {ran.returncode}, and not {wanted}\n{ran.stdout}{ran.stderr}"
    return f"it went on\n{ran.stdout}" if wanted and WENT_ON in ran.stdout else ""


def ends_well(*words: str) -> bool:
    return subprocess.run(words, capture_output=True, check=False).returncode == 0


def builder() -> Optional[str]:
    """The command that builds images, if there is one that has, or gets, the image that the container file begins with."""
    base = next(line.split()[1] for line in (PIPELINES / "Containerfile").read_text().splitlines() if line.startswith("FROM "))
    for name in filter(shutil.which, BUILDERS):
        if ends_well(name, "info") and (ends_well(name, "image", "inspect", base) or ends_well(name, "pull", base)):
            return name
    return None


def container(command: str, programs: Path, top: Path) -> str:
    """What is wrong in the image of the container file; empty if nothing is."""
    repository(top)
    words: list[list[Any]] = [
        [TOOLS / "package", "--programs", programs, "--no-library", "--to", top],
        [command, "build", "--file", PIPELINES / "Containerfile", "--tag", IMAGE, top],
        [command, "run", "--rm", "--volume", f"{top}:/work:ro", IMAGE, "check", "--policy", "policies", "manifests"],
    ]
    for status in (GREEN, DENIED):
        for one in words:
            ran = subprocess.run(one, capture_output=True, text=True, check=False)
            if ran.returncode != (status if one is words[-1] else GREEN):
                return f"{' '.join(map(str, one))}: status {ran.returncode}\n{ran.stdout}{ran.stderr}"
        words = words[-1:]
        replace(top / "manifests" / "web.yaml", OBJECT % 4)
    return ""


def run_container(programs: Path) -> int:
    """Builds the container file, if that is possible here; how many runs are not as they are to be."""
    command = builder()
    if command is None:
        print(f"the container file: left out, since none of {', '.join(BUILDERS)} can build here")
        return 0
    with tempfile.TemporaryDirectory() as folder:
        found = container(command, programs, Path(folder) / "repository")
    print(f"the container file: {found or 'is built, and its image checks manifests'}", flush=True)
    return 1 if found else 0


def main() -> int:
    given = sys.argv[1:]
    if given[:1] == ["--help"] or len(given) > 2:
        raise Stop(f"usage: {usage_of(__doc__)}", 2)
    paths: list[Optional[str]] = [*given] if len(given) == 2 else ["--quick" if given == ["--quick"] else None] * 2
    with tempfile.TemporaryDirectory() as folder:
        # the gatekeeper that is asked is the one beside the program
        for name, path in zip(("celbpf", "gatekeeper"), paths):
            shutil.copy(tested(path, name), Path(folder, name))
        os.environ[GIVEN] = str(Path(folder, "celbpf"))
        runs = wrong = 0
        for part in (*github(), *gitlab(), *pre_commit(), *makefile()):
            for title, (change, failing) in CASES.items():
                runs += 1
                if found := why_wrong(part, change, failing):
                    wrong += 1
                    print(f"{part.title}: {title}: {found}", flush=True)
        wrong_images = run_container(Path(folder))
    print(f"{runs - wrong} of {runs} runs of pipelines are as they are to be")
    return 1 if wrong or wrong_images else 0
