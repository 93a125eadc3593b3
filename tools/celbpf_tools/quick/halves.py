"""The module of a run with checks, in LLVM's text, as two modules, each for a processor.

A long function is in one of them, and declared in the other. A short one, which may be inlined, is in both, and so are
the statics, which are constants. What a module does not use, the compiler leaves out. What the run adds to find wrong
uses of memory is left out too: the fill of each new variable, and checks of addresses and of values. The checks of
arithmetic and of what cannot be reached stay.
"""

import re
from pathlib import Path
from typing import Any, Iterable

OF_MEMORY = re.compile(
    r"  call void @(llvm\.memset\.p0\.i64\(ptr %\d+, i8 -86,"
    r'|"rattle-llvm-checks::(Alignment|Cast|Offset|Value)"\()'
)
BEGIN, INTERNAL, END = "define ", "define internal ", "}\n"
# the most lines of a short function
SHORT = 150


class Differs(Exception):
    """The toolchain makes no program in this way; it holds what was said."""


def parts_of(module: Iterable[str]) -> tuple[Any, ...]:
    """The lines of each function, which are in the order of a walk from `main`, and those of all else."""
    functions, others = [], []
    function: list[Any] = []
    for line in module:
        if OF_MEMORY.match(line):
            continue
        if not (function or line.startswith(BEGIN)):
            if line.startswith("@") and " constant " not in line:
                raise Differs(f"a static is no constant: {line}")
            others.append(line)
            continue
        function.append(line)
        if line == END:
            functions.append(function)
            function = []
    return functions, others


def is_short(function: list[Any]) -> bool:
    return function[0].startswith(INTERNAL) and len(function) <= SHORT


def halves_of(module: Iterable[str]) -> tuple[Any, ...]:
    """The lines of the two modules: the first has the first long functions, with half of the lines of all long ones."""
    functions, others = parts_of(module)
    first, second = list(others), list(others)
    left = sum(len(function) for function in functions if not is_short(function)) / 2
    for function in functions:
        if is_short(function):
            first += function
            second += function
            continue
        head = function[0].replace(INTERNAL, "define hidden ", 1)
        own, other = (first, second) if left > 0 else (second, first)
        left -= len(function)
        own += [head, *function[1:]]
        other.append(head.replace(BEGIN, "declare ", 1).replace(" {\n", "\n"))
    return first, second


def write_halves(module: Path) -> list[Any]:
    """Writes the two modules beside the module; their files."""
    files = [module.with_name("first.ll"), module.with_name("second.ll")]
    with module.open() as text:
        for file, lines in zip(files, halves_of(text)):
            file.write_text("".join(lines))
    return files
