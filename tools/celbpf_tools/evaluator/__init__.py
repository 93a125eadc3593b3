"""What a policy answers to a review, and what that costs, written apart from the crates.

It follows docs/CEL.md, docs/POLICIES.md and docs/CODE.md and shares no line with the program, so that
each can be held against the other:

    tokens, grammar, trees   a text's tokens, and the tree that they derive
    macros                   the tree with its macros, `has` and variables as nodes of their own
    types, measures          what is accepted, and how large it is
    values, meaning, costs   what a tree means, what is visited for it and what that spends
    policies                 a policy's document, and what refuses it
    reviews                  a review's documents, and the five roots
    verdicts, responses      what a policy decides, and the text of the answer
    cluster                  what all policies and bindings of a cluster decide

Documents are read by Python's `json`; where it takes more than `serde_json` does (a number that overflows a
double, more than 127 levels), this package says nothing of the program.
"""
