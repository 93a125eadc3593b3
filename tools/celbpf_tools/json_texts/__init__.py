"""Documents from a seed as bytes, good and spoiled, and what Python's json reads of them.

    reading                  what a document is, by Python's json and the limits of docs/VALUES.md
    answers                  what the program has to answer to a review, a namespace and params
    pieces                   texts, numbers, words and blanks of JSON, good and bad
    values                   values, as bytes
    documents                reviews, namespaces and params, as bytes
    shrinking                the smallest documents that still differ
"""
