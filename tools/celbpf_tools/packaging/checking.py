"""What is checked of a package once it is installed below a prefix."""

import gzip
import json
import os
import re
import subprocess
from pathlib import Path
from typing import Any, Iterator

from ..embedding.callers import missing
from ..playground.building import PLACE
from .completion import NAMES

BASH = """source "$1/share/bash-completion/completions/celbpf"
COMP_WORDS=(celbpf re) COMP_CWORD=1
_celbpf celbpf
echo "${COMPREPLY[*]}"
COMP_WORDS=(vapctl c) COMP_CWORD=1
_celbpf vapctl
echo "${COMPREPLY[*]}"
COMP_WORDS=(kubectl-vap check --po) COMP_CWORD=2
_celbpf kubectl-vap
echo "${COMPREPLY[*]}"
"""
# the words that are handed to zsh, which chooses among them
ZSH = """compadd() { shift; print -r -- $@ }
_files() { print files }
ask() { service=$1 words=($@) CURRENT=$# ; source $file }
file=$1/share/zsh/vendor-completions/_celbpf
ask celbpf re
ask celbpf review --p
ask celbpf review p
ask vapctl state --
"""
ZSH_SAYS = """compile review run-image asm list debug
--policy --review --namespace --params --steps
files
--help --from --to --context --kubeconfig --kubectl
"""
PYTHON = """import sys
from celbpf import Gate
with Gate(open(sys.argv[1], "rb").read()) as gate:
    response = gate.decide(open(sys.argv[2], "rb").read())
print(response.json.decode())
sys.exit(0 if response.allowed else 1)
"""
CARGO = '[package]\nname = "mine"\nversion = "1.0.0"\nedition = "2021"\n[dependencies]\ncelbpf = {{ path = "{}" }}\n'
RUST = """use std::{env, fs, process::exit};

fn main() {
    let files: Vec<Vec<u8>> = env::args().skip(1).map(|name| fs::read(name).unwrap()).collect();
    let mut gate = celbpf::Gate::new(&files[0]).unwrap();
    let response = gate.decide(&celbpf::Request::of(&files[1])).unwrap();
    println!("{}", String::from_utf8_lossy(&response.json));
    exit(if response.allowed { 0 } else { 1 });
}
"""
# what a page of a package must not have: files of the repository, and commands of the toolchain
OF_REPOSITORY = re.compile(
    r"(?<!\w)tools/\w|(?<![\w.])\./|^ {4}rt\b|\b[Ii]n this repository\b|\bdist/|\bclone\b|\bPREFIX\b"
)
LINK = re.compile(r"\]\(([^)#\s]*)(?:#([^)\s]*))?\)")


class Checks:
    """What was run, and how much of it is not as it is to be."""

    def __init__(self, folder: Path):
        self.folder = folder
        self.done = self.wrong = 0

    def tell(self, what: str, is_right: bool, found: str) -> None:
        self.done += 1
        if not is_right:
            self.wrong += 1
            print(f"{what}\nfound: {found}", flush=True)

    def run(self, words: list[Any], status: int, wanted: str, asked: str = "", **more: Any) -> None:
        """A run in the folder, whose output begins so, or is so if it ends with a line feed."""
        ran = self.ran(words, asked, **more)
        fits = ran.stdout == wanted if wanted.endswith("\n") else ran.stdout.startswith(wanted)
        self.tell(" ".join(map(str, words)), ran.returncode == status and fits, f"{ran.stdout}{ran.stderr}[{ran.returncode}]")

    def ran(self, words: list[Any], asked: str = "", **more: Any) -> subprocess.CompletedProcess[str]:
        environment = {**os.environ, "LC_ALL": "C.UTF-8", "MANWIDTH": "100", **more}
        return subprocess.run(
            [str(word) for word in words], cwd=self.folder, env=environment, input=asked, capture_output=True, encoding="utf-8",
            check=False,
        )


class Installed:
    """A prefix with a package, and the first example there."""

    def __init__(self, prefix: Path):
        self.prefix = prefix
        self.doc = prefix / "share" / "doc" / "celbpf"
        self.examples = self.doc / "examples"
        self.replicas = self.examples / "policies" / "replicas"
        self.policy, self.review = self.replicas / "policy.json", self.replicas / "five.review.json"
        self.response = (self.replicas / "five.response.json").read_text()
        self.program = prefix / "bin" / "celbpf"

    def manual(self) -> list[Any]:
        """The man pages of the package."""
        return [self.prefix / "share" / "man" / "man1" / f"{name}.1.gz" for name in NAMES]


def dap_launch(policy: Path) -> str:
    """What an editor writes to launch a policy."""
    body = json.dumps({"seq": 1, "type": "request", "command": "launch", "arguments": {"policy": str(policy)}})
    return f"Content-Length: {len(body)}\r\n\r\n{body}"


def check_programs(checks: Checks, it: Installed) -> None:
    """The programs and `vapctl`, on the examples."""
    gate, program = it.examples / "gatekeeper", it.program
    checks.run([program, "review", "--policy", it.policy, "--review", it.review], 1, it.response)
    policies = [word for name in ("few", "even") for word in ("--policy", gate / "policies" / f"{name}.json")]
    lines, answers = (gate / "reviews.jsonl").read_text(), (gate / "answers.jsonl").read_text()
    checks.run([it.prefix / "bin" / "gatekeeper", *policies], 0, answers, lines)
    check_vapctl(checks, it)


def check_vapctl(checks: Checks, it: Installed) -> None:
    """The command `vapctl`, by both of its names."""
    vapctl, cluster = it.prefix / "bin" / "vapctl", it.examples / "cluster"
    checks.run([vapctl, "--version"], 0, f"vapctl {checks.ran([it.prefix / 'bin' / 'gatekeeper', '--version']).stdout.split()[-1]}\n")
    words = ["check", "--cluster", cluster / "state.json", "-n", "dev", cluster / "manifests.yaml", "-o", "github"]
    for name in ("vapctl", "kubectl-vap"):
        checks.run([it.prefix / "bin" / name, *words], 1, "::warning file=")
    checks.run([vapctl, "lint", it.policy], 0, "1 policy: 1 accepted\n")
    checks.run([vapctl, "compile", it.policy, "-o", "replicas.img"], 0, "")
    checks.run([vapctl, "translate", it.policy], 0, '{\n  "apiVersion"')
    checks.run([vapctl, "why", it.policy, it.review], 1, "denied\nvalidation 0: false\n    object.spec.replicas <= 3")
    if (it.prefix / PLACE).exists():
        checks.run([vapctl, "why", it.policy, it.review, "--html", "why.html"], 1, "denied\nvalidation 0")
        page = checks.folder / "why.html"
        checks.tell("the page of why", page.exists() and 'id="case">{"given":{"policy":' in page.read_text(), "no page of a denial")
    words = ["why", "--cluster", cluster / "state.json", "-n", "dev", cluster / "manifests.yaml", "--object", "orders"]
    checks.run([vapctl, *words], 1, "denied\n    databases")
    checks.run([vapctl, "test", it.replicas], 0, "TAP version 13\n1..3\nok 1")
    checks.run([vapctl, "reviews", it.policy, it.review], 1, f"{it.review}:1: denied")
    checks.run([vapctl, "as-reviews", it.policy], 0, '{"apiVersion":"admission.k8s.io/v1"')
    checks.run([vapctl, "asm", "-"], 0, "mov64 r0, 1\nexit\n", "mov64 r0, 0x1 ; one\nexit\n")
    checks.run([vapctl, "debug", "--dap"], 0, "Content-Length: ", dap_launch(it.policy))
    checks.run([vapctl, "test", "--help"], 0, "usage: vapctl test [-h]")


def check_library(checks: Checks, it: Installed) -> Iterator[str]:
    """The library, from each language; yields what is left out."""
    lib = it.prefix / "lib"
    # below /usr all is found where the system looks
    is_elsewhere = it.prefix != Path("/usr")
    pkg = {"PKG_CONFIG_PATH": str(lib / "pkgconfig")} if is_elsewhere else {}
    sources, words = it.prefix / "share" / "celbpf", [it.policy, it.review]
    if lacking := missing("cc", "pkg-config"):
        yield f"C and Rust {lacking}"
        return
    example = it.examples / "c" / "example.c"
    checks.run(["sh", "-c", f"cc -o archive {example} $(pkg-config --cflags --libs celbpf)"], 0, "", **pkg)
    checks.run(["./archive", *words], 1, it.response)
    checks.run(["cc", "-o", "shared", example, "-I", it.prefix / "include", f"-L{lib}", "-lcelbpf", f"-Wl,-rpath,{lib}"], 0, "")
    checks.run(["./shared", *words], 1, it.response)
    (checks.folder / "mine.py").write_text(PYTHON)
    python = {"CELBPF_LIBRARY": str(lib / "libcelbpf.so.1")} if is_elsewhere else {}
    checks.run(["python3", "-B", "mine.py", *words], 1, it.response, PYTHONPATH=str(sources / "python" / "celbpf"), **python)
    if lacking := missing("go"):
        yield f"Go {lacking}"
    else:
        names = {"GOCACHE": str(checks.folder / "cache"), "GOPROXY": "off", "CGO_ENABLED": "1"}
        checks.run(["sh", "-c", f"cd {sources}/go/example && go build -o {checks.folder}/go-example ."], 0, "", **pkg, **names)
        checks.run(["./go-example", *words], 1, it.response)
    if lacking := missing("cargo"):
        yield f"Rust {lacking}"
    else:
        check_rust(checks, sources / "rust" / "celbpf", pkg, words, it.response)


def check_rust(checks: Checks, package: Path, pkg: dict[str, Any], words: list[Any], response: str) -> None:
    """A program in Rust that depends on the package."""
    folder = checks.folder / "mine"
    (folder / "src").mkdir(parents=True, exist_ok=True)
    (folder / "Cargo.toml").write_text(CARGO.format(package))
    (folder / "src" / "main.rs").write_text(RUST)
    run = ["cargo", "run", "-q", "--offline", "--manifest-path", folder / "Cargo.toml", "--", *words]
    checks.run(run, 1, response, **pkg)


def check_manual(checks: Checks, it: Installed) -> Iterator[str]:
    """The man pages and the completion; yields what is left out."""
    if lacking := missing("man"):
        yield f"man pages {lacking}"
    else:
        for page in it.manual():
            ran = checks.ran(["man", "--warnings", "-l", page])
            name = page.name.removesuffix(".1.gz")
            is_right = ran.returncode == 0 and not ran.stderr and f"{name} - " in " ".join(ran.stdout.split())
            checks.tell(f"man {name}", is_right, f"{ran.stderr}[{ran.returncode}] {ran.stdout[:300]}")
    checks.run(["bash", "-c", BASH, "bash", it.prefix], 0, "review\ncheck compile\n--policy\n")
    if lacking := missing("zsh"):
        yield f"zsh {lacking}"
    else:
        checks.run(["zsh", "-f", "-c", ZSH, "zsh", it.prefix], 0, ZSH_SAYS)


def anchors_of(text: str) -> set[Any]:
    """The anchors of a page's headings."""
    heads = re.findall(r"^#+ (.*)$", text, re.MULTILINE)
    return {re.sub(r"[^\w\- ]", "", head).strip().lower().replace(" ", "-") for head in heads}


def text_faults(doc: Path) -> Iterator[str]:
    """The links of pages that lead to nothing, and the words that only the repository has."""
    for page in sorted(doc.rglob("*.md")):
        text = page.read_text()
        yield from (f"{page}: {line}" for line in text.split("\n") if OF_REPOSITORY.search(line))
        for target, anchor in LINK.findall(text):
            if "://" in target:
                continue
            there = page.parent / target if target else page
            if not there.exists() or (anchor and anchor not in anchors_of(there.read_text())):
                yield f"{page}: {target}#{anchor} leads to nothing"


def check_texts(checks: Checks, it: Installed) -> None:
    """The pages, and the texts of the man pages."""
    faults = list(text_faults(it.doc))
    for page in it.manual():
        text = gzip.decompress(page.read_bytes()).decode()
        faults += [f"{page.name}: {line}" for line in text.split("\n") if OF_REPOSITORY.search(line)]
    checks.tell("the texts of pages", not faults, "\n".join(faults))
