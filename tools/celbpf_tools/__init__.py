"""What `vapctl` and the scripts of `tools` are made of: each script is a file that calls a command of this package.

    home         where the repository or the installed package is
    entry        how a script begins and ends: words, streams, statuses
    commands     a module for each script in Python
    vapctl       the command `vapctl`, a module for each subcommand
    documents    policies, reviews and tests, read as JSON or YAML (`yaml_loader`, `yaml_words`)
    definitions  the definitions in the folders `specs`, read by their names
    assembling   a friendlier text of programs than `celbpf asm` takes
    asking       questions to the built program about a policy
    evaluator    what a policy answers to a review, written apart from the crates
    slots        which sub-expression each slot of a compiled policy belongs to
    playground   the page in which policies are decided and explained
    browsing     a headless browser, for tests of that page
    seeded       policies and reviews from a seed
    json_texts   documents from a seed as bytes, and what Python's json reads of them
    copies       copies of the crates, on which scripts work
    pages        what the pages show, as runs
    tests        unit tests, which `tools/run-units` runs

All of it goes by the programs' command lines and outputs alone; nothing here reads a crate's sources but `definitions`
and the scripts that work on copies of them.
"""
