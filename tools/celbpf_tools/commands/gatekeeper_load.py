"""Feeds a gatekeeper many reviews, compares its answers with `celbpf review`, and prints how fast it is.

usage: tools/gatekeeper-load [--count N] [--compare N] [--seed N] [--gatekeeper PROGRAM] [--program PROGRAM]
       tools/gatekeeper-load --cluster [--count N] [--compare N] [--seed N] [--gatekeeper PROGRAM]
       tools/gatekeeper-load --hostile NAME [--to FILE] [--gatekeeper PROGRAM]

N reviews (100,000) of the first example, their replicas from a seed (1), go through one gatekeeper: each after the
answer to the one before, for the greatest time and for the memory that grows, and all at once, for decisions a second;
then in as many parts as there are processors, each through a gatekeeper of its own. The first N answers (200) are
compared with those of `celbpf review`. Last a review of 1 MB is decided by both.

With --cluster they go through `gatekeeper --cluster`, under a state of 40 policies of which 8 match, 200 namespaces and
1,000 ConfigMaps, and through one with these 8 policies; the first N answers are compared with the evaluator's. Then they go
through states of no policy, and of 40 and 1,000 of which none matches. Last a review of 2.9 MB of maps of one key is decided
between two small ones, for its time and for the memory that it leaves.

With --hostile a review is answered under a state that is large in one way, for its time and memory; --to writes the state
into a file and runs nothing. The names are nested, policies, bindings, requirements, rules, values, names and params.
"""

import argparse
import itertools
import json
import os
import random
import resource
import subprocess
import sys
import tempfile
import time
from pathlib import Path
from typing import Any, Iterator

from ..clusters import large as states
from ..clusters.making import list_text, review_text
from ..evaluator.cluster import response, state
from ..home import EXAMPLES, built

EXAMPLE = EXAMPLES / "replicas"
POLICY = ("--policy", str(EXAMPLE / "policy.json"))
WARM = 1000
# the length of a review of small maps
MAPS = 2_900_000


def given_words() -> Any:
    parser = argparse.ArgumentParser(usage=__doc__.split("usage: ")[1].split("\n\n")[0])
    parser.add_argument("--count", type=int, default=100_000)
    parser.add_argument("--compare", type=int, default=200)
    parser.add_argument("--seed", type=int, default=1)
    parser.add_argument("--gatekeeper", default=str(built("gatekeeper")))
    parser.add_argument("--program", default=str(built("celbpf")))
    parser.add_argument("--cluster", action="store_true")
    parser.add_argument("--hostile", choices=list(states.HOSTILE), metavar="NAME")
    parser.add_argument("--to", type=Path)
    return parser.parse_args()


def line_of(document: Any) -> Any:
    return json.dumps(document, separators=(",", ":")).encode() + b"\n"


def reviews(count: int, seed: Any) -> Iterator[Any]:
    """The example's reviews in turn, each with a uid of its own and with replicas from the seed."""
    drawn = random.Random(seed)
    documents = [json.loads(file.read_text()) for file in sorted(EXAMPLE.glob("*.review.json"))]
    for number, document in zip(range(count), itertools.cycle(documents)):
        document["request"]["uid"] = f"seeded-{number}"
        document["request"]["object"]["spec"]["replicas"] = drawn.randrange(8)
        yield line_of(document)


def large() -> Any:
    """A review of a megabyte, most of it annotations."""
    document = json.loads((EXAMPLE / "five.review.json").read_text())
    document["request"]["object"]["metadata"] = {"annotations": {f"note-{n:05}": "x" * 85 for n in range(10_000)}}
    return line_of(document)


def resident(process: Any) -> Any:
    """The resident memory in KiB."""
    status = Path(f"/proc/{process.pid}/status").read_text()
    return int(next(line for line in status.splitlines() if line.startswith("VmRSS")).split()[1])


def one_by_one(gatekeeper: Any, lines: Any, words: Any = POLICY) -> Any:
    """The answers, the seconds of each, and the memory at the end and what of it grew since the first thousand."""
    answers, seconds, first = [], [], 0
    started = [gatekeeper, *words]
    process: Any
    with subprocess.Popen(started, stdin=subprocess.PIPE, stdout=subprocess.PIPE, stderr=subprocess.DEVNULL) as process:
        for number, line in enumerate(lines):
            began = time.perf_counter()
            process.stdin.write(line)
            process.stdin.flush()
            answers.append(process.stdout.readline())
            seconds.append(time.perf_counter() - began)
            if number == WARM:
                first = resident(process)
        last = resident(process)
        process.stdin.close()
    return answers, seconds, last, last - first


def at_once(gatekeeper: Any, lines: Any, parts: Any, words: Any = POLICY) -> Any:
    """Decisions a second, where so many gatekeepers have a part of the lines each."""
    with tempfile.TemporaryDirectory() as folder:
        names = [Path(folder, str(part)) for part in range(parts)]
        for part, name in enumerate(names):
            name.write_bytes(b"".join(lines[part::parts]))
        began = time.perf_counter()
        running = []
        for name in names:
            with name.open() as file:
                null = subprocess.DEVNULL
                running.append(subprocess.Popen([gatekeeper, *words], stdin=file, stdout=null, stderr=null))
        if any(process.wait() for process in running):
            sys.exit("gatekeeper-load: a gatekeeper did not end with status 0")
        return len(lines) / (time.perf_counter() - began)


def alone(program: Any, line: Any) -> Any:
    """What `celbpf review` prints, and the seconds that it takes."""
    with tempfile.NamedTemporaryFile() as file:
        file.write(line)
        file.flush()
        began = time.perf_counter()
        done = subprocess.run([program, "review", *POLICY, "--review", file.name], stdout=subprocess.PIPE, check=False)
        return done.stdout, time.perf_counter() - began


def planted(folder: Path) -> tuple[Any, ...]:
    """Writes the state of a cluster, and those of its policies that match; the words that name each."""
    items, (*policies, params) = states.state(), states.matching()
    whole, beside = folder / "state.json", folder / "params.json"
    whole.write_bytes(list_text(items))
    beside.write_text(json.dumps(params))
    words = ["--params", str(beside)]
    for place, policy in enumerate(policies):
        path = folder / f"policy-{place}.json"
        path.write_text(json.dumps({key: value for key, value in policy.items() if key != "status"}))
        words += ["--policy", str(path)]
    return ["--cluster", str(whole)], words


def of_cluster(given: Any, lines: Any) -> None:
    """How fast a cluster's gatekeeper is, beside one with the policies that match."""
    rates = []
    with tempfile.TemporaryDirectory() as folder:
        cluster, policies = planted(Path(folder))
        opened = state.opened([Path(cluster[1]).read_bytes()])
        for name, words in (("a cluster", cluster), ("its policies that match", policies)):
            answers, seconds, memory, grown = one_by_one(given.gatekeeper, lines, words)
            if words is cluster:
                for line, answer in zip(lines[: given.compare], answers):
                    if response.answer(opened, line).encode() + b"\n" != answer:
                        sys.exit(f"gatekeeper-load: another answer to {line.decode()}")
            half, rate = sorted(seconds)[len(seconds) // 2], at_once(given.gatekeeper, lines, 1, words)
            print(f"{name}: {rate:.0f} decisions a second at once; one by one half within {half * 1e6:.0f} us, the first "
                  f"{seconds[0] * 1000:.1f} ms; memory {memory} KiB, of which {grown} KiB came after the first thousand")
            rates.append(rate)
        print(f"a cluster makes {rates[0] / rates[1]:.2f} of the decisions that its policies make that match")
        unmatched(given, lines, Path(folder))
        of_maps(given, lines, cluster)


def unmatched(given: Any, lines: Any, folder: Path) -> None:
    """How fast requests are answered that no policy matches, beside a state without policies."""
    rates = []
    for count in (0, 40, 1_000):
        path = folder / "elsewhere.json"
        path.write_bytes(list_text(states.elsewhere(count)))
        rates.append(max(at_once(given.gatekeeper, lines, 1, ["--cluster", str(path)]) for _ in range(3)))
        print(f"{count} policies that do not match: {rates[-1]:.0f} decisions a second, {rates[-1] / rates[0]:.2f} of those without policies")


def of_maps(given: Any, lines: Any, cluster: Any) -> None:
    """What a review of small maps costs between small ones."""
    line = review_text(states.small_maps(MAPS)).replace(b" ", b"") + b"\n"
    process: Any
    with subprocess.Popen([given.gatekeeper, *cluster], stdin=subprocess.PIPE, stdout=subprocess.PIPE, stderr=subprocess.DEVNULL) as process:
        answered(process, lines[0])
        before = resident(process)
        took = answered(process, line)
        most = peak(process)
        answered(process, lines[0])
        after = resident(process)
        process.stdin.close()
    print(f"a review of {len(line):,} bytes of small maps: {took:.2f} s, at most {most} KiB; {after - before} KiB more than before it")


def answered(process: Any, line: bytes) -> float:
    """The seconds until a line is answered."""
    began = time.perf_counter()
    process.stdin.write(line)
    process.stdin.flush()
    process.stdout.readline()
    return time.perf_counter() - began


def peak(process: Any) -> int:
    """The most resident memory in KiB so far."""
    status = Path(f"/proc/{process.pid}/status").read_text()
    return int(next(line for line in status.splitlines() if line.startswith("VmHWM")).split()[1])


def hostile(given: Any) -> None:
    """What a hostile state costs."""
    text = list_text(states.HOSTILE[given.hostile]())
    if given.to:
        given.to.write_bytes(text)
        return
    with tempfile.NamedTemporaryFile() as file, tempfile.TemporaryFile() as line:
        file.write(text)
        file.flush()
        line.write(review_text(states.hostile_request()) + b"\n")
        line.seek(0)
        began = time.perf_counter()
        process = subprocess.Popen([given.gatekeeper, "--cluster", file.name], stdin=line, stdout=subprocess.PIPE, stderr=subprocess.PIPE)
        with process:
            said, errors = process.communicate()
        took = time.perf_counter() - began
        memory = resource.getrusage(resource.RUSAGE_CHILDREN).ru_maxrss
    print(f"{given.hostile}: a state of {len(text):,} bytes: {took:.2f} s, {memory:,} KiB, status {process.returncode}")
    print(f"{len(said):,} bytes of output: {said[:200]!r}; {len(errors):,} of standard error, which end with {errors[-100:]!r}")


def main() -> None:
    given = given_words()
    if given.hostile:
        return hostile(given)
    lines = list(reviews(given.count, given.seed))
    if given.cluster:
        return of_cluster(given, lines)
    answers, seconds, memory, grown = one_by_one(given.gatekeeper, lines)
    starts = []
    for line, answer in zip(lines[: given.compare], answers):
        said, took = alone(given.program, line)
        starts.append(took)
        if said != answer:
            sys.exit(f"gatekeeper-load: another answer to {line.decode()}")
    print(f"{min(given.compare, len(lines))} answers are those of celbpf review, {min(starts) * 1000:.1f} ms each")
    ordered = sorted(seconds)
    print(f"one by one: half within {ordered[len(ordered) // 2] * 1e6:.0f} us, the greatest time {ordered[-1] * 1e6:.0f} us")
    print(f"memory: {memory} KiB, of which {grown} KiB came after the first thousand")
    for parts in sorted({1, os.cpu_count() or 1}):
        print(f"at once: {at_once(given.gatekeeper, lines, parts):.0f} decisions a second on {parts}")
    line = large()
    took = one_by_one(given.gatekeeper, [lines[0], line])[1][1]
    print(f"a review of {len(line):,} bytes: {took * 1000:.1f} ms, by celbpf review {alone(given.program, line)[1] * 1000:.1f} ms")
