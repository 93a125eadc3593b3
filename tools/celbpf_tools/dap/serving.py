"""Serves an editor by the Debug Adapter Protocol, on standard input and output."""

import argparse
import signal
import sys

from .adapter import standard
from .launching import Given

TERMINATED = 143


def serve(given: argparse.Namespace) -> int:
    """Serves a client until it disconnects; a launch may name other programs and another reading."""
    # an editor may end it by a signal; the process and the files are to end with it
    signal.signal(signal.SIGTERM, lambda *_: sys.exit(TERMINATED))
    standard(Given(given.program, given.gatekeeper, given.profile)).serve()
    return 0
