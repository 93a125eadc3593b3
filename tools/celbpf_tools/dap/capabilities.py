"""What the adapter can do, as `initialize` answers it, and what the faults of the machine mean."""

FAULT_FILTER = "fault"
CAPABILITIES = {
    "supportsConfigurationDoneRequest": True,
    "supportsFunctionBreakpoints": True,
    "supportsInstructionBreakpoints": True,
    "supportsDataBreakpoints": True,
    "supportsConditionalBreakpoints": True,
    "supportsBreakpointLocationsRequest": True,
    "supportsExceptionInfoRequest": True,
    "supportsStepBack": True,
    "supportsSteppingGranularity": True,
    "supportsRestartRequest": True,
    "supportsTerminateRequest": True,
    "supportsDelayedStackTraceLoading": True,
    "supportsLoadedSourcesRequest": True,
    "supportsReadMemoryRequest": True,
    "supportsDisassembleRequest": True,
    "supportsEvaluateForHovers": True,
    "exceptionBreakpointFilters": [
        {"filter": FAULT_FILTER, "label": "Faults", "description": "Stop at a fault of the machine.", "default": True},
    ],
}
FAULTS = {
    "F1": "pc is outside the code",
    "F2": "the slots at pc are no instruction",
    "F3": "an access is outside the regions, or crosses the border of one",
    "F4": "a store into the constants",
    "F5": "no helper has this number",
    "F6": "no value has this reference",
    "F7": "a call that would open a ninth frame",
    "F8": "the charge, or the depth of a value, is above its limit",
    "F9": "an instruction would write r10",
}
