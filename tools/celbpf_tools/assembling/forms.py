"""What the operands of each instruction are, as docs/ASSEMBLER.md lists them."""

REGISTER, IMMEDIATE, VALUE, TARGET, FAR, MEMORY, WIDE = "register", "immediate", "value", "target", "far", "memory", "wide"
HELPER = "helper"
# what is expected where an operand of a kind is
EXPECTED = {
    REGISTER: "a register, r0 to r10,", IMMEDIATE: "a number", VALUE: "a register or a number", TARGET: "a label or an offset",
    FAR: "a label or an offset", HELPER: "the number or the name of a helper", MEMORY: "an address such as [r1+8]",
    WIDE: "a number, or the name of a constant,",
}
ARITHMETIC = ("add", "sub", "mul", "div", "sdiv", "or", "and", "lsh", "rsh", "mod", "smod", "xor", "mov", "arsh")
COMPARISONS = ("jeq", "jgt", "jge", "jset", "jne", "jsgt", "jsge", "jlt", "jle", "jslt", "jsle")
EXTENSIONS = ("8to32", "16to32", "8to64", "16to64", "32to64")
ATOMICS = ("add", "or", "and", "xor", "fetch_add", "fetch_or", "fetch_and", "fetch_xor", "xchg", "cmpxchg")
SIZES = ("b", "h", "w", "dw")
WIDTHS = ("32", "64")
# the helpers by their numbers from 1 on, as docs/HELPERS.md names them
HELPERS = (
    "kind", "int_of", "int_new", "text_const", "field", "has", "index", "size", "equal", "less", "join", "starts", "ends", "contains",
    "member", "list_new", "push", "map_new", "put", "item", "count", "text_of_int", "not",
)


def forms() -> dict[str, tuple[str, ...]]:
    """By mnemonic the kinds of the operands."""
    found: dict[str, tuple[str, ...]] = {
        "ja": (TARGET,), "ja32": (FAR,), "call": (HELPER,), "call_local": (FAR,), "exit": (), "lddw": (REGISTER, WIDE),
    }
    for width in WIDTHS:
        found |= {f"{name}{width}": (REGISTER, VALUE) for name in ARITHMETIC}
        found |= {f"{name}{width}": (REGISTER, VALUE, TARGET) for name in COMPARISONS}
        found |= {f"atomic_{name}{width}": (MEMORY, REGISTER) for name in ATOMICS}
        found[f"neg{width}"] = (REGISTER,)
    found |= {f"movsx{name}": (REGISTER, REGISTER) for name in EXTENSIONS}
    found |= {f"{order}{bits}": (REGISTER,) for order in ("le", "be", "swap") for bits in ("16", "32", "64")}
    for size in SIZES:
        found |= {f"ldx{size}": (REGISTER, MEMORY), f"st{size}": (MEMORY, IMMEDIATE), f"stx{size}": (MEMORY, REGISTER)}
    return found | {f"ldxs{size}": (REGISTER, MEMORY) for size in SIZES if size != "dw"}


FORMS = forms()
