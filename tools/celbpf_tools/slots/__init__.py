"""Which part of a policy each slot of its compiled program belongs to.

The code of a policy follows from its text by rules (docs/CODE.md). This package writes that code again, with the place
of each sub-expression in it, and compares it line by line with the listing that `celbpf list` prints. Only if both are
equal there is a map; so a map that is given is exact.

    lines          instructions as lines, and pieces of code with the spans of sub-expressions in them
    nodes          an expression's tree with the place of each node in the text
    tails          the fixed instructions of each construct
    expressions    the code of an expression
    layout         the code of a whole policy
    mapping        the map: `parts_of`, `SlotMap`, `Span`
    checking       the map of a policy beside compiled beginnings of it
"""
