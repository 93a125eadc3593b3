"""Tools that ask how well the rest is tested, and what it costs; nothing that a user runs needs them.

    computing   the values of definitions, computed from their text
    mutating    definitions that are changed one at a time, and whether a row notices
    hostile     reviews that take long to decide or to read
    measures    runs that are timed
    commands    a module for each script
    tests       unit tests, which `tools/run-units` runs

They use the package `celbpf_tools`, which uses nothing of this one.
"""
