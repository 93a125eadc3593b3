"""Runs the debug adapter against a client of another's making, on scripts of requests.

usage: tools/run-dap [--program PROGRAM] [SCRIPT..]

The client is built of tools/data/run-dap/client.go with the package go-dap, whose types every message goes through, so
it needs Debian's golang-go and golang-github-google-go-dap-dev (status 10 without). The scripts are the files *.script
beside it, each a session; the head of client.go has their lines, and the values in them are those of the pages or were
worked out by hand. Images are made of the texts *.asm there. Together the scripts send each request of the adapter.
"""

import io
import os
import re
import shutil
import subprocess
import tempfile
from pathlib import Path
from typing import Any

from ..asking.program import located
from ..dap.adapter import Adapter
from ..entry import Stop, parser_of
from ..home import DATA, EXAMPLES, ROOT

SCRIPTS = DATA / "run-dap"
GOPATH = Path("/usr/share/gocode")
PACKAGE = GOPATH / "src" / "github.com" / "google" / "go-dap"
SENT = re.compile(r"^send (\w+)", re.MULTILINE)
# the seconds of a script
PATIENCE = 300


def built_client(folder: Path) -> Path:
    """The client, built without a look at any other package than those that are installed."""
    go = shutil.which("go")
    if not go or not PACKAGE.is_dir():
        missing = [name for name, is_there in (("golang-go", go), (PACKAGE.name, PACKAGE.is_dir())) if not is_there]
        raise Stop(f"{' and '.join(missing)} not there: apt install golang-go golang-github-google-go-dap-dev", 10)
    client = folder / "client"
    settings = {"GO111MODULE": "off", "GOPATH": str(GOPATH), "GOFLAGS": "", "GOPROXY": "off", "GOCACHE": str(folder / "cache")}
    words = [go, "build", "-o", str(client), str(SCRIPTS / "client.go")]
    made = subprocess.run(words, env={**os.environ, **settings}, capture_output=True, text=True, check=False)
    if made.returncode:
        raise Stop(f"the client was not built: {made.stderr.strip()}")
    return client


def make_images(program: Path, folder: Path) -> None:
    """The images that scripts name, in the folder."""
    orders: list[list[Any]] = [["asm", text, folder / f"{text.stem}.img"] for text in sorted(SCRIPTS.glob("*.asm"))]
    orders.append(["compile", EXAMPLES / "replicas" / "policy.json", folder / "replicas.img"])
    for words in orders:
        made = subprocess.run([program, *words], capture_output=True, text=True, check=False)
        if made.returncode:
            raise Stop(f"{' '.join(map(str, words))}: {made.stderr.strip()}")


def passes(client: Path, script: Path, program: Path, folder: Path) -> bool:
    """Whether a script finds what it says; if not, the client prints where."""
    environment = {**os.environ, "EXAMPLES": str(EXAMPLES), "FOLDER": str(folder)}
    words: list[Any] = [client, script, ROOT / "vapctl", "debug", "--dap", "--program", program]
    try:
        return not subprocess.run(words, env=environment, timeout=PATIENCE, check=False).returncode
    except subprocess.TimeoutExpired:
        print(f"{script.name}: not done in {PATIENCE} seconds", flush=True)
        return False


def not_sent(scripts: list[Path]) -> set[str]:
    """The requests of the adapter that no script sends."""
    sent = {name for script in scripts for name in SENT.findall(script.read_text())}
    with open(os.devnull, "rb") as nothing:
        return set(Adapter(nothing.fileno(), io.BytesIO()).handlers) - sent


def main() -> int:
    parser = parser_of(__doc__)
    parser.add_argument("--program")
    parser.add_argument("scripts", nargs="*")
    given = parser.parse_args()
    scripts = sorted(SCRIPTS.glob("*.script"))
    chosen = [script for script in scripts if not given.scripts or script.stem in given.scripts]
    with tempfile.TemporaryDirectory() as name:
        folder = Path(name)
        client, program = built_client(folder), located(given.program)
        make_images(program, folder)
        failed = [script.stem for script in chosen if not passes(client, script, program, folder)]
    missing = not_sent(scripts)
    if missing:
        print(f"no script sends: {', '.join(sorted(missing))}")
    print(f"{len(chosen) - len(failed)} of {len(chosen)} scripts of requests pass")
    return 1 if failed or missing else 0
