"""Questions to the built programs about a policy: their answers say all, nothing is decided here.

    files          the files that words name, as files that can be opened more than once
    program        runs of celbpf
    gatekeeper     runs of the gatekeeper on one policy
    translating    both: the gatekeeper translates and answers, celbpf runs the translation
    index_tables   the table of indices beside the params, on which some translations run
    policies       the parts of a policy, and small policies of one expression
    splitter       an expression's text in pieces
    wide_splitter  likewise, by the grammar that the gatekeeper reads
    values         the value of an expression
    errors         the first piece of an expression that is the error
    reasons        why an expression is false: the values of its pieces, and what to change
    refused        where a policy is refused, and what its refusal means
    places         the smallest piece of an expression that is refused
    operands       the types of its operands
    hidden         refusals behind one for a table of indices
    wide_places    all pieces that the gatekeeper refuses
    wide_words     what its refusals mean, and what to write instead
    keys           the key of a document that is refused
    texts          how texts are shown
"""
