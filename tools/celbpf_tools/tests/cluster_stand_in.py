"""Stands in for `gatekeeper --cluster`: it answers as the evaluator does. A state with a ConfigMap is answered wrongly
if the first argument is --wrong.
"""

import sys
from pathlib import Path

sys.path.insert(0, str(Path(__file__).resolve().parents[2]))

from typing import Any

from celbpf_tools.evaluator.cluster import response, starting, state  # noqa: E402
from celbpf_tools.evaluator.refused import Refused  # noqa: E402


def main(words: list[Any]) -> int:
    is_wrong = words[:1] == ["--wrong"]
    names = [name for option, name in zip(words, words[1:]) if option == "--cluster"]
    try:
        opened = state.opened([Path(name).read_bytes() for name in names], "--partial" in words)
    except Refused as why:
        # a list is named by its file and not by its place
        code, *rest = why.text.split(" ", 1)
        told = [names[int(rest[0])]] if code == "C1" else rest
        print("celbpf:", code, *told, file=sys.stderr)
        return 3
    print(*starting.policy_lines(opened), sep="\n", end="\n" if opened.policies else "", file=sys.stderr)
    is_wrong = is_wrong and any(item["kind"] == "ConfigMap" for item in opened.items)
    for line in sys.stdin.buffer:
        answer = response.answer(opened, line.rstrip(b"\n"))
        sys.stdout.buffer.write((answer.replace("allowed", "denied") if is_wrong else answer).encode() + b"\n")
    return 0


if __name__ == "__main__":
    sys.dont_write_bytecode = True
    sys.exit(main(sys.argv[1:]))
