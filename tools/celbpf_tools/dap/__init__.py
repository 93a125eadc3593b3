"""An adapter of the Debug Adapter Protocol, which editors speak, on top of `celbpf debug`.

    messages      messages over two streams
    arguments     the arguments of a request
    capabilities  what the adapter can do
    child         the process of `celbpf debug`
    code          an image's code as its listing
    parts         the parts of a policy, and their slots
    conditions    the conditions of breakpoints
    breakpoints   groups of breakpoints, of which the process keeps the union
    motions       moves forward and back
    variables     what a place of the run shows
    evaluating    what is typed at a place
    manifests     the review of a manifest
    launching     files, image and process of a launch
    debuggee      a session with all of these
    setting       the requests that set up a session: launch, breakpoints, end
    showing       the requests that show its place
    moving        the requests that move it
    adapter       reads requests, and answers them in their order
"""
