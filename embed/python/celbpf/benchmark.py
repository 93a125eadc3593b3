"""How fast a gate decides the first example from Python. `python3 benchmark.py [SECONDS]`"""

import sys
import time
from pathlib import Path

from celbpf import Gate

EXAMPLE = Path(__file__).resolve().parents[3] / "examples" / "policies" / "replicas"


def main() -> None:
    seconds = float(sys.argv[1]) if len(sys.argv) > 1 else 1.0
    gate = Gate((EXAMPLE / "policy.json").read_bytes())
    review = (EXAMPLE / "five.review.json").read_bytes()
    count, began = 0, time.perf_counter()
    while time.perf_counter() - began < seconds:
        for _ in range(100):
            gate.decide(review)
        count += 100
    took = time.perf_counter() - began
    print(f"{count / took:.0f} decisions a second on one thread, {took * 1e3 / count:.4f} ms each")


main()
