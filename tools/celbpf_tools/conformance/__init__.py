"""The conformance data of cel-spec, run through the program.

`textproto` reads the files, `cases` takes the cases from them, `values` makes JSON of their values, `lexis` and
`profile` decide which cases are in the profile of docs/CEL.md, and `running` asks the program.
"""
