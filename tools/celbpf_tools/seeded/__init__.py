"""Policies and reviews from a seed, and the program's answers to them.

    numbers                  numbers from a seed, the same on every machine
    texts                    texts and ints, and how literals spell them
    expressions              expressions of a kind that is asked for
    policies, reviews        what documents say
    spoils                   documents with one thing wrong
    program                  runs of the built program
    cases                    a policy with a review, and what the program has to answer
    examples                 the example policies as cases
    rows                     cases as rows of a test
    counts                   what came of many cases
"""
