"""Spreads reviews by GNU parallel over processes and over two hosts, and compares the answers with one gatekeeper's.

usage: tools/run-spread [--count N] [--seed N] [--gatekeeper PROGRAM] [--program PROGRAM] [--measure]

N reviews (1,000) of the first example, their replicas from a seed (1), are answered by one gatekeeper. Then parallel
spreads the same lines over one, two and four processes, over two hosts, and over two hosts of which one is killed
while it answers; each time the output has to be the same bytes. The hosts are two `sshd` on the loopback, with keys
and settings of their own in a folder that is removed. N is at least 400. `--measure` prints lines a second, the best of three runs, and
what a million lines take at that rate. It needs Debian's parallel, openssh-server and openssh-client (status 10
without).
"""

import argparse
import shutil
import signal
import subprocess
import sys
import tempfile
import time
from pathlib import Path
from typing import Callable, Iterator

from ..asking.program import located_gatekeeper
from ..entry import Stop, parser_of
from ..home import EXAMPLES
from ..spreading.hosts import SSHD, Hosts
from .gatekeeper_load import reviews

POLICY = EXAMPLES / "replicas" / "policy.json"
PROCESSES = (1, 2, 4)
MILLION = 1_000_000
# the seconds of a run of parallel
PATIENCE = 300
TRIES = 3
# how many blocks a run has, so that each host gets several, and the least lines of all
BLOCKS = 20
LEAST = 400
# gives ten lines, waits, and gives the rest, so that a host can be killed after it has answered a part of its block
SLOWLY = "{ sed -u 10q; sleep 0.4; cat; }"
TERMINATED = 143


class Lines:
    """The lines that are spread, the answers of one gatekeeper to them, and the commands that spread them."""

    def __init__(self, folder: Path, gatekeeper: Path, given: argparse.Namespace):
        self.folder = folder
        self.count = given.count
        self.file = folder / "reviews.jsonl"
        self.answer = f"{gatekeeper} --policy {POLICY}"
        self.file.write_bytes(b"".join(reviews(given.count, given.seed)))
        self.block = str(self.file.stat().st_size // BLOCKS)
        with self.file.open("rb") as lines:
            self.wanted = subprocess.run(self.answer.split(), stdin=lines, capture_output=True, check=True).stdout

    def parts(self, *options: str) -> list[str]:
        """A command of parallel over parts of the file, which each process reads itself."""
        return ["parallel", "--pipepart", "--arg-file", str(self.file), "--keep-order", *options, self.answer]

    def blocks(self, *options: str, command: str = "") -> list[str]:
        """A command of parallel over blocks of its input, which it keeps until they are answered."""
        return ["parallel", "--pipe", "--keep-order", *options, command or self.answer]

    def is_answered(self, what: str, words: list[str]) -> bool:
        """Whether a command answers as one gatekeeper does; else it is told how not."""
        with self.file.open("rb") as lines:
            ran = subprocess.run(words, stdin=lines, capture_output=True, timeout=PATIENCE, check=False)
        return self.compared(what, ran.returncode, ran.stdout, ran.stderr)

    def compared(self, what: str, status: int, found: bytes, said: bytes) -> bool:
        """Whether an output is that of one gatekeeper; else it is told how not."""
        if status == 0 and found == self.wanted:
            print(f"{what}: the same {self.count} answers in the same order", flush=True)
            return True
        wanted = self.wanted.splitlines()
        lines = found.splitlines()
        doubled, lost = len(lines) - len(set(lines)), len(set(wanted) - set(lines))
        print(f"{what}: status {status}, {len(lines)} lines, {lost} lost, {doubled} doubled")
        print(said.decode(errors="replace")[:2000], flush=True)
        return False


def over_processes(lines: Lines) -> Iterator[bool]:
    """The lines over some processes of this machine, from a file and from a pipe."""
    for number in PROCESSES:
        yield lines.is_answered(f"a file over {number}", lines.parts("--block", lines.block, "--jobs", str(number)))
    yield lines.is_answered("a pipe over 4", lines.blocks("--block", lines.block, "--jobs", "4"))


def with_hosts(lines: Lines, hosts: Hosts, log: Path, command: str = "", block: str = "") -> list[str]:
    """A command over two jobs on each host, whose log parallel writes.

    A second try needs `--pipe`: after `--pipepart` it gets no line (parallel 20221122), and so gives no answer.
    """
    options = ["--ssh", hosts.ssh, "--sshlogin", ",".join(f"2/{name}" for name in hosts.names), "--joblog", str(log)]
    return lines.blocks(*options, "--block", block or lines.block, "--retries", str(TRIES), command=command)


def jobs_of(log: Path, host: str) -> int:
    """The jobs that a host has ended well, by the log."""
    rows = [line.split("\t") for line in log.read_text().splitlines()[1:]] if log.exists() else []
    return sum(1 for row in rows if len(row) > 7 and row[1] == host and row[6] == "0")


def over_hosts(lines: Lines, hosts: Hosts) -> bool:
    """The lines over both hosts, each of which has to do a part."""
    log = lines.folder / "hosts.log"
    is_same = lines.is_answered("two hosts", with_hosts(lines, hosts, log))
    shares = [jobs_of(log, name) for name in hosts.names]
    print(f"two hosts: {shares[0]} and {shares[1]} blocks", flush=True)
    return is_same and all(shares)


def with_a_death(lines: Lines, hosts: Hosts) -> bool:
    """The lines over both hosts, of which the second is killed after it has answered a part of a block."""
    log, victim = lines.folder / "death.log", hosts.names[1]
    words = with_hosts(lines, hosts, log, f"{SLOWLY} | {lines.answer}")
    # files, since a pipe that nobody reads would stop parallel before the host is killed
    output, errors = lines.folder / "death.out", lines.folder / "death.err"
    with lines.file.open("rb") as given, output.open("wb") as out, errors.open("wb") as err:
        running = subprocess.Popen(words, stdin=given, stdout=out, stderr=err)
        try:
            end = time.monotonic() + PATIENCE
            while running.poll() is None and not (jobs_of(log, victim) and hosts.runs(victim, "sleep")):
                if time.monotonic() > end:
                    break
                time.sleep(0.01)
            killed = hosts.kill(victim)
            running.wait(PATIENCE)
        finally:
            running.kill()
    print(f"a host that dies: {killed} of its processes were killed, after {jobs_of(log, victim)} of its blocks", flush=True)
    is_same = lines.compared("a host that dies", running.returncode, output.read_bytes(), errors.read_bytes())
    return is_same and killed > 1


def fastest(lines: Lines, words: list[str]) -> float:
    """Lines a second of a command, the best of three runs."""
    best = 0.0
    for _ in range(3):
        began = time.perf_counter()
        with lines.file.open("rb") as given:
            subprocess.run(words, stdin=given, stdout=subprocess.DEVNULL, timeout=PATIENCE, check=True)
        best = max(best, lines.count / (time.perf_counter() - began))
    return best


def measure(lines: Lines, hosts: Hosts) -> None:
    """Prints how fast it is."""
    runs = {f"a file over {number}": lines.parts("--block", "-1", "--jobs", str(number)) for number in PROCESSES}
    runs["a pipe over 4"] = lines.blocks("--block", "4M", "--jobs", "4")
    runs["two hosts, two jobs each"] = with_hosts(lines, hosts, lines.folder / "measure.log", block="4M")
    print(f"{lines.count} lines of {lines.file.stat().st_size // lines.count} bytes on average", flush=True)
    for name, words in runs.items():
        rate = fastest(lines, words)
        print(f"{name}: {rate:.0f} lines a second; a million take {MILLION / rate:.0f} s at that rate", flush=True)


def needed() -> None:
    """Stops if a command is not there."""
    missing = [name for name in ("parallel", "ssh", "ssh-keygen", SSHD) if not shutil.which(name)]
    if missing:
        raise Stop(f"{', '.join(missing)} not there: apt install parallel openssh-server openssh-client", 10)


def main() -> int:
    parser = parser_of(__doc__)
    parser.add_argument("--count", type=int, default=1_000)
    parser.add_argument("--seed", type=int, default=1)
    parser.add_argument("--gatekeeper")
    parser.add_argument("--program")
    parser.add_argument("--measure", action="store_true")
    given = parser.parse_args()
    needed()
    if given.count < LEAST:
        parser.error(f"--count: at least {LEAST}")
    # the hosts are to end with the script
    signal.signal(signal.SIGTERM, lambda *_: sys.exit(TERMINATED))
    gatekeeper = located_gatekeeper(given.gatekeeper, given.program)
    if gatekeeper is None:
        raise Stop("there is no gatekeeper beside the program", 10)
    with tempfile.TemporaryDirectory() as name:
        lines = Lines(Path(name), gatekeeper, given)
        passed = list(over_processes(lines))
        with Hosts(Path(name)) as hosts:
            if given.measure:
                measure(lines, hosts)
            checks: list[Callable[[Lines, Hosts], bool]] = [over_hosts, with_a_death]
            passed += [check(lines, hosts) for check in checks]
    print(f"{sum(passed)} of {len(passed)} ways to spread answer as one gatekeeper does")
    return 0 if all(passed) else 1
