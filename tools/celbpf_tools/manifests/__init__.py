"""Objects in manifests, and the admission reviews that an API server would send of them.

    kinds        the resource of a kind: those that are built in, and those of CustomResourceDefinitions
    spelling     what may be meant by a kind that is not known
    reviews      the review of an object
    users        the user of a request, with groups
    sending      what is changed in a request: what is empty is left out, and a Namespace has the label of its name
"""
