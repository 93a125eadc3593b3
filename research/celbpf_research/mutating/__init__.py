"""Changes of definitions, one at a time, and what notices them.

`changes` makes the changes of a function and `types` those of a type, each of them a `change`. `drawing` draws some from
the definitions that the contracts rest on, and `pins` finds the rows and laws of the crates with what they rest on. The
rows are computed by `computing`; what they leave `trying` has the prover check, with rows and laws over a changed
definition, in crates above as `above` says. `verdicts` judges what a check says, with what is `known` of changes.
"""
