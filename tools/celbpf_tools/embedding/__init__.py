"""The library for other languages.

    building    the archive and the shared library, from the proved static library
    callers     the tests of each language
    measuring   how fast each language decides
"""
