"""The CPU time of a program, and tests that it is linear: robust on a loaded machine.

Wall-clock time says little where other programs run. CPU time may still double there, so a bound is far above linear
time and far below quadratic time, and what seems too slow is measured again.
"""

from __future__ import annotations

import os
import resource
import subprocess
import tempfile
from collections.abc import Callable, Sequence
from typing import NamedTuple

from support.program import Result, Word

# A program that takes more CPU seconds than this is ended by a signal.
LIMIT = 60
# How often what seems too slow is measured again.
ROUNDS = 6


class Timed(NamedTuple):
    """How a program ended, and the CPU seconds that it took, of user and system together."""

    result: Result
    seconds: float


def limit_cpu() -> None:
    """Limit the CPU time of this process."""
    resource.setrlimit(resource.RLIMIT_CPU, (LIMIT, LIMIT + 1))


def timed(command: Sequence[Word], *, stdin: bytes = b"") -> Timed:
    """Run a command that reads these bytes from a file as its standard input."""
    with tempfile.TemporaryFile() as given, tempfile.TemporaryFile() as out, tempfile.TemporaryFile() as err:
        given.write(stdin)
        given.seek(0)
        child = subprocess.Popen([os.fsencode(word) for word in command], stdin=given, stdout=out, stderr=err,
                                 preexec_fn=limit_cpu)
        _, status, usage = os.wait4(child.pid, 0)
        child.returncode = os.waitstatus_to_exitcode(status)
        out.seek(0)
        err.seek(0)
        return Timed(Result(child.returncode, out.read(), err.read()), usage.ru_utime + usage.ru_stime)


class Measured(NamedTuple):
    """The CPU seconds of a small and of a large input, the least of several runs."""

    small: float
    large: float


def measure(small: Callable[[], float], large: Callable[[], float], ratio: float, floor: float) -> Measured:
    """Measure both, again and again while the large one seems to take more than `ratio` times as long.

    What takes less than `floor` seconds counts as if it took so long.
    """
    least = Measured(small(), large())
    for _ in range(ROUNDS):
        if least.large <= ratio * max(least.small, floor):
            break
        least = Measured(min(least.small, small()), min(least.large, large()))
    return least


def is_linear(measured: Measured, ratio: float, floor: float) -> bool:
    """Whether the large input took at most `ratio` times as long as the small one."""
    return measured.large <= ratio * max(measured.small, floor)
