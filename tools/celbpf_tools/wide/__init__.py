"""The wide language: a wider part of CEL, as API servers store it, written apart from the crates.

No program of this repository reads it yet. It holds the profile of docs/CEL.md, and shares with
`celbpf_tools.evaluator` the values, the meaning of operators and the profile's table of types:

    tokens, grammar, trees     a text's tokens, and the tree that they derive
    macros                     macros and `has` as nodes of their own
    signatures, calls, kinds   the static kind of a tree, and which trees have none
    reach                      whether the texts that functions take are known from the documents
    results, meaning, calling  what a tree means
    texts, lists, patterns     functions of texts, methods of lists, regular expressions
    quantities, times,
    versions                   typed values
    clauses                    how often each clause of the meaning is evaluated
    expressions, documents,
    cases, comparing           expressions with documents from a seed, and programs on them
    profile                    the expressions that are in the profile too
    expression, policies       an expression of a policy, and what a policy decides
"""
