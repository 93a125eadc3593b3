"""Hosts of a test, and the log of parallel."""

import os
import subprocess
import sys
import tempfile
import unittest
from pathlib import Path

from ..commands.run_spread import jobs_of
from ..spreading.hosts import command_of, descendants, free_port

# as parallel 20221122 wrote it, with shorter commands
LOG = """Seq\tHost\tStarttime\tJobRuntime\tSend\tReceive\tExitval\tSignal\tCommand
1\tone\t1795742567.245\t     4.064\t0\t1124\t0\t0\tcat
2\ttwo\t1795742567.269\t     5.167\t0\t1160\t0\t0\tcat
3\tone\t1795742604.053\t     3.299\t0\t0\t255\t0\tcat
"""


class Spreading(unittest.TestCase):
    def test_the_log_counts_jobs_that_ended_well(self) -> None:
        with tempfile.TemporaryDirectory() as folder:
            log = Path(folder, "log")
            self.assertEqual(jobs_of(log, "one"), 0)
            log.write_text(LOG)
            self.assertEqual([jobs_of(log, name) for name in ("one", "two", "three")], [1, 1, 0])

    def test_processes_of_processes(self) -> None:
        words = ["sh", "-c", f"{sys.executable} -IS -c 'input()'; true"]
        with subprocess.Popen(words, stdin=subprocess.PIPE, stdout=subprocess.PIPE, stderr=subprocess.DEVNULL) as shell:
            # the shell begins the other one at once, but not before it is asked for
            found: list[int] = []
            while not found and shell.poll() is None:
                found = descendants(shell.pid)
            self.assertIn(shell.pid, descendants(os.getpid()))
            self.assertEqual((len(found), command_of(shell.pid)), (1, "sh"))
            shell.communicate(b"\n")
        self.assertEqual(command_of(shell.pid), "")

    def test_ports(self) -> None:
        self.assertGreater(free_port(), 1024)
