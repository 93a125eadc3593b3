"""The page in which policies are decided, explained and debugged: one HTML file of the sources in playground/.

    sources     the folder of the sources
    bundling    modules of JavaScript as one script
    tables      the tables that the page shares with the tools
    examples    the examples that can be chosen
    module      the module of WebAssembly
    building    the whole page, also with a case in it
"""
