"""Computes definitions outside the prover, to judge many changes of them by the literal rows.

`tokens` and `syntax` read the language of the definitions as far as they use it, `sources` the files, and `names` what
a word of a file stands for. `translation` makes a Python function of each definition, over the `values`, with what the
toolchain computes itself in `natives`. `deciding` says of a statement whether it is true, and `rows` finds the rows of
the crates. Nothing is typed, and relations and quantifiers are not decided: such a row has no answer here.
"""
