"""The program `vapctl`: one command with subcommands, which share their inputs, reports and statuses.

    main          the words of the command, and how it ends
    statuses      the statuses, which are the same for all subcommands
    version       the version of the package
    inputs        files, folders and standard input, as objects with their file and line
    no_manifests  files of folders that are no objects of a cluster
    json_texts    documents of JSON, with the line of each
    yaml_texts    documents of YAML, with the line of each
    numbers       numbers as `kubectl` sends them, and those that no review may have
    quantities    quantities that are written as numbers, as an API server stores them
    cluster       the state of a cluster: one that was saved, or one of given policies
    rules         the rules of policies and bindings that an API server does not store (`rule_linting` shows them)
    choosing      the params that bindings can choose
    unlabelled    which policies and bindings select namespaces by labels that are not given
    requests      the review of each object
    gate          the gatekeeper, asked for many reviews at once
    deciding      the outcome of each object, with all findings
    results       what came of each object
    checking      what `check` and `audit` share
    one_decision  what `why` and `debug` share
    linting       the refusals of a policy, with their places (`positions`)
    refusals      what a refusal means, in words
    cluster_why   why a whole cluster decides as it does
    matching      why a request does not match constraints
    probes        what small policies of their own find in a request
    reports       the forms of a report
    commands      a module for each subcommand
"""
