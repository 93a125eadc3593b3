"""What a whole cluster decides of a request, written apart from the crates.

It follows docs/CLUSTER.md and shares no line with the program:

    fields      texts, lists and objects of JSON documents, with null as absent
    quotes      texts as Go writes them
    labels      label selectors
    attributes  the request as matching sees it
    rules       rules, and what may be equivalent
    matching    match resources: namespaces, objects, rules
    lists       the items of lists as `kubectl get -o json` prints them
    bindings    bindings and kinds of params as they are stored
    state       what a cluster holds, with its policies compiled
    starting    what standard error gets before the first review
    events      what a dispatch meets, and the findings of one evaluation
    dispatch    policies, bindings and params in their order
    response    the answer by the events
"""
