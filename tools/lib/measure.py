"""What a command takes.

  measure.py [--copy FROM TO] RUNS WORD..

prints microseconds of processor time, KiB of memory and the status, of the least of so many runs. With --copy each of them begins with
a new copy of the file FROM, as TO. What the command prints is thrown away. It is measured by a small program, measure.c, which gcc compiles.
"""

import functools
import os
import shutil
import subprocess
import sys
import tempfile
import time
from pathlib import Path
from typing import Callable, NamedTuple, Optional


class Taken(NamedTuple):
    """Seconds of processor time, the most memory in KiB, the status (negative: the signal that ended it), seconds that passed."""

    seconds: float
    memory: int
    status: int
    passed: float


@functools.cache
def folder() -> tempfile.TemporaryDirectory:
    """A folder with the program that measures."""
    made = tempfile.TemporaryDirectory()
    subprocess.run(["gcc", "-O1", "-o", f"{made.name}/measure", Path(__file__).with_suffix(".c")], check=True)
    return made


def once(words, **how) -> Taken:
    """What one run takes; `how` is as for `subprocess.run`."""
    result = Path(folder().name) / "result"
    begun = time.monotonic()
    subprocess.run([f"{folder().name}/measure", result, *words], check=True, **{"stdout": subprocess.DEVNULL, "stderr": subprocess.DEVNULL, **how})
    passed = time.monotonic() - begun
    micros, memory, status = map(int, result.read_text().split())
    return Taken(micros / 1e6, memory, os.waitstatus_to_exitcode(status), passed)


def least(words, runs: int = 3, before: Optional[Callable[[], object]] = None, **how) -> Taken:
    """The run that takes the least processor time; `before` is called before each."""
    taken = []
    for _ in range(runs):
        if before:
            before()
        taken.append(once(words, **how))
    return min(taken)


if __name__ == "__main__":
    words = sys.argv[1:]
    source, target = words[1:3] if words[0] == "--copy" else (None, None)
    words = words[3:] if source else words
    took = least(words[1:], int(words[0]), (lambda: shutil.copy(source, target)) if source else None)
    print(round(took.seconds * 1e6), took.memory, took.status)
