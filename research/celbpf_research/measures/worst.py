"""Reviews and sessions of the shapes that cost most, each at three sizes, ten times apart."""

import os
from typing import Any

from .policies import ALLOWED, policy
from .runs import row

# one run each, since some take seconds
COUNT = 1

SIZES = (1, 10, 100)

# a container as clusters have them, of some 300 bytes
CONTAINER = {
    "name": "c",
    "image": "registry.example.com/team/service:1.27.3",
    "ports": [{"containerPort": 8080, "protocol": "TCP"}],
    "resources": {"limits": {"cpu": "500m", "memory": "256Mi"}, "requests": {"cpu": "100m", "memory": "128Mi"}},
    "env": [{"name": "LOG_LEVEL", "value": "info"}, {"name": "REGION", "value": "eu-west-1"}],
}

# places an int in each turn
PLACING = """again:
mov64 r1, 7
call 3
ja again
"""

# a list of the text at `object.t`, joined with itself as often as is asked for
DOUBLING = """mov64 r1, 4
mov64 r2, 0
call 20
mov64 r2, r0
mov64 r1, 4
call 7
mov64 r7, r0
call 16
mov64 r1, r0
mov64 r2, r7
call 17
mov64 r6, r0
mov64 r8, {turns}
again:
mov64 r1, r6
mov64 r2, r6
call 11
mov64 r6, r0
add64 r8, -1
jne64 r8, 0, again
exit
"""


def timed(runs: Any, name: str, given: Any, words: Any, lines: Any = '') -> None:
    """A row of one run on files of so many bytes."""
    seconds, memory = runs.best(words, lines, (ALLOWED,), COUNT)
    row(name, f"{given / 1_000_000:.2f} MB in {seconds:.2f} s", memory)


def on_request(runs: Any, name: str, expression: Any, request: Any) -> None:
    """A review of this request under a policy with this validation."""
    path = policy(runs, "worst", [expression])
    whole = {"apiVersion": "admission.k8s.io/v1", "kind": "AdmissionReview", "request": {"uid": "u", **request}}
    review = runs.document("worst-review", whole)
    words = ["review", "--policy", path, "--review", review, "--steps", "1000000000"]
    timed(runs, name, os.path.getsize(review), words)


def shapes(runs: Any) -> None:
    """Documents of many small maps, of maps in maps, and of containers."""
    for count in (1_900, 19_000, 190_000, 2_600_000):
        on_request(runs, f"{count:,} maps of one key", "true", {"object": {"l": [{"": 0}] * count}})
    tower: Any = 0
    for _ in range(100):
        tower = {"": tower}
    for count in (26, 260, 2_600):
        on_request(runs, f"{count:,} towers of 100 maps of one key", "true", {"object": {"l": [tower] * count}})
    for count in (36, 360, 3_600):
        expression = "object.spec.containers.all(c, c.image.startsWith('registry.example.com/'))"
        on_request(runs, f"{count:,} containers", expression, {"object": {"spec": {"containers": [CONTAINER] * count}}})


def session(runs: Any, name: str, image: Any, lines: Any, thing: Any = None) -> None:
    """A row of a session on these lines."""
    words = ["debug", image]
    given = len(lines)
    if thing is not None:
        review = runs.review("session", thing)
        given += os.path.getsize(review)
        words += ["--review", review]
    timed(runs, name, given, words, lines)


def sessions(runs: Any) -> None:
    """Sessions on programs that place values, on a compiled policy, and on long lines."""
    image = runs.image("placing", PLACING)
    for size in SIZES:
        session(runs, f"{10_000 * size:,} steps that place", image, f"s {10_000 * size}\n")
    path = policy(runs, "none", ["!object.items.exists(x, x == 1)"])
    image = f"{runs.folder}/none.img"
    runs.run(["compile", path, image])
    for size in SIZES:
        session(runs, f"c 1000000 over {1_000 * size:,} items", image, "c 1000000\n", {"items": list(range(2, 1_000 * size + 2))})
    image = runs.image("doubling", DOUBLING.format(turns=14))
    session(runs, "v of 134 MB", image, "c 1000\nv 25\n", {"t": "x" * 16_384})
    for size in SIZES:
        session(runs, f"a line of {500_000 * size:,} bytes", image, "x" * (500_000 * size) + "\n", {"t": "x"})


def measure(runs: Any) -> None:
    """Each of them."""
    shapes(runs)
    sessions(runs)
