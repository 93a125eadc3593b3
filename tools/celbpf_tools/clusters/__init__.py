"""States of clusters with requests from a seed, and a gatekeeper's answers to them.

    making       policies, bindings, objects and requests as documents
    words        the few names, labels and resources that states and requests have in common
    selecting    selectors, rules and match resources
    policies     policies and bindings whose parts are mostly right
    states       whole states, and what makes one that is refused
    requests     requests near the borders of what states say
    cases        a state with reviews, what is due, and what a program answers
    counts       what came of many cases
    large        large states, to measure, and hostile ones
"""
