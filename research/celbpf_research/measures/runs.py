"""Runs of the built program, and how long they take."""

import json
import os
import subprocess
import sys
import tempfile
import time
from typing import Any


class Runs:
    """The built program, and a folder for the files that it is run on."""

    def __init__(self, program: Any, folder: Any):
        self.program = program
        self.folder = folder

    def run(self, words: Any, lines: Any = '', statuses: Any = (0, 4)) -> Any:
        """The seconds of one run, whose output is dropped and whose status is one of these."""
        began = time.perf_counter()
        ended = subprocess.run([self.program, *words], input=lines.encode(), stdout=subprocess.DEVNULL, stderr=subprocess.PIPE)
        seconds = time.perf_counter() - began
        if ended.returncode not in statuses:
            sys.exit(f"measure: {' '.join(words)} ended with status {ended.returncode}: {ended.stderr.decode()}")
        return seconds

    def processor(self, words: Any, statuses: Any, count: int = 2) -> float:
        """The least processor time of so many runs, in seconds."""
        return min(self.processor_once(words, statuses) for _ in range(count))

    def processor_once(self, words: Any, statuses: Any) -> float:
        running = subprocess.Popen([self.program, *words], stdout=subprocess.DEVNULL, stderr=subprocess.DEVNULL)
        _, status, used = os.wait4(running.pid, 0)
        running.returncode = os.waitstatus_to_exitcode(status)
        if running.returncode not in statuses:
            sys.exit(f"measure: {' '.join(words)} ended with status {running.returncode}")
        return used.ru_utime + used.ru_stime

    def memory(self, words: Any, lines: Any = '') -> Any:
        """The greatest resident memory of one run, in megabytes."""
        with tempfile.NamedTemporaryFile("r") as report:
            watched = ["env", "time", "-q", "-f", "%M", "-o", report.name, self.program, *words]
            subprocess.run(watched, input=lines.encode(), stdout=subprocess.DEVNULL, stderr=subprocess.DEVNULL)
            return int(report.read()) / 1024

    def best(self, words: Any, lines: Any = '', statuses: Any = (0, 4), count: int = 3) -> Any:
        """The least seconds of so many runs, and the memory of one more."""
        seconds = min(self.run(words, lines, statuses) for _ in range(count))
        return seconds, self.memory(words, lines)

    def image(self, name: str, source: Any) -> Any:
        """The image of these lines."""
        text, path = f"{self.folder}/{name}.asm", f"{self.folder}/{name}.img"
        with open(text, "w") as file:
            file.write(source)
        self.run(["asm", text, path])
        return path

    def document(self, name: str, value: Any) -> Any:
        """The file of this document."""
        path = f"{self.folder}/{name}.json"
        with open(path, "w") as file:
            json.dump(value, file, separators=(",", ":"))
        return path

    def review(self, name: str, thing: Any) -> Any:
        """A review of this object."""
        request = {"uid": "u", "object": thing}
        document = {"apiVersion": "admission.k8s.io/v1", "kind": "AdmissionReview", "request": request}
        return self.document(name, document)


def left(seconds: Any, without: Any, form: Any) -> Any:
    """The figure of the seconds of a run that are left without those of another; none where none are left."""
    return form(seconds - without) if seconds > without else "too short to be told"


def row(name: str, figure: Any, memory: Any = None) -> None:
    """Prints a row, with the memory that was taken, if it was measured."""
    print(f"{name:38} {figure:>24}{'' if memory is None else f' {memory:8.1f} MB'}", flush=True)
