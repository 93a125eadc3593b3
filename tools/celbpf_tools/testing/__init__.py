"""Tests of policies.

    cases        test files, and the cases that they list
    reviews      the review of a case
    answers      what the programs answer to cases: many by one gatekeeper
    coverage     which outcomes of a policy's parts the cases reach
    output       TAP, short lines, JUnit's XML
"""
