"""The LLVM module that the toolchain makes of the calls for x86-64, in LLVM's text, as one for wasm64.

The names of the target are replaced. The calls keep their names, and are no exports: `calls.c` calls them. The toolchain
itself also tests the stack as a function begins, for wasm64; here the stack is the first thing in the memory, and below
it there is nothing, so that one which is too small traps.
"""

import re
from typing import Iterable, Iterator

from ..quick.halves import END, OF_MEMORY, Differs

TARGET = "wasm64-unknown-unknown"
LAYOUT = "e-m:e-p:64:64-p10:8:8-p20:8:8-i64:64-i128:128-n32:64-S128-ni:1:10:20"
HEADS = {
    "target datalayout = ": f'target datalayout = "{LAYOUT}"\n',
    "target triple = ": f'target triple = "{TARGET}"\n',
}
# what code for x86-64 alone has; an empty `asm` is a fence
FOREIGN = re.compile(r'@llvm\.x86\.|^module asm| asm (?!sideeffect "", )')
ATTRIBUTES = "attributes #"
OF_MACHINE = re.compile(r' (?:"(?:probe-stack|stack-probe-size|frame-pointer|target-features)"="[^"]*"|sanitize_address)(?=[ }])')
CPU = re.compile(r'"target-cpu"="[^"]*"')
# the least that engines have; the module has no C library to call
PLAIN = '"no-builtin-bcmp" "no-builtin-memcmp" "no-builtin-strlen" "target-cpu"="lime1"'
MAIN = re.compile(r"define [\w ]*@main\(")
# the name that a call has in a program, where it is an inner function
INNER = re.compile(r'@"(?:\w+::)+(celbpf_page_\w+)"(?=\()')
INTERNAL = re.compile(r"^define internal (?=.*@celbpf_page_)")


def retargeted(line: str) -> str:
    """A line of the module, for wasm64."""
    for begin, own in HEADS.items():
        if line.startswith(begin):
            return own
    if line.startswith(ATTRIBUTES):
        # nothing unwinds, and a group of attributes is not empty
        return CPU.sub(PLAIN, OF_MACHINE.sub("", line)).replace("{ }", "{ nounwind }")
    if not line.startswith("@") and FOREIGN.search(line):
        raise Differs(f"the module has code for x86-64 alone: {line.strip()[:200]}")
    return line


def for_wasm(module: Iterable[str]) -> Iterator[str]:
    """The lines of a static library's module, for wasm64."""
    return map(retargeted, module)


def calls_of_program(module: Iterable[str]) -> Iterator[str]:
    """The lines of a program's module without its `main`, in which the calls are outer functions, as in a library.

    What a run with checks adds to find wrong uses of memory is left out, as in a program that is compiled so.
    """
    is_main = False
    for line in module:
        is_main = is_main or bool(MAIN.match(line))
        if not is_main and not OF_MEMORY.match(line):
            yield line if line.startswith("@") else INTERNAL.sub("define ", INNER.sub(r"@\1", line))
        is_main = is_main and line != END
