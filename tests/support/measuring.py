"""What a program asks the allocator for, as the preloaded library `measure.c` counts it.

These numbers are the same at each run of a program on the same input, so a bound may be close to them.
"""

from __future__ import annotations

import os
import struct
import subprocess
from collections.abc import Sequence
from pathlib import Path
from typing import NamedTuple

from support.program import SECONDS, Result, Word
from support.refusing import preloaded


class Measured(NamedTuple):
    """How a program ended, how many allocations it made, and in bytes the most that it held and the largest one."""

    result: Result
    allocations: int
    most: int
    largest: int


class Meter:
    """Runs programs and measures what they allocate."""

    def __init__(self, folder: Path) -> None:
        """Compile the library in this folder, where its log is kept too."""
        self.library, self.log = preloaded("measure.c", folder), folder / "measure.log"

    def run(self, command: Sequence[Word], *, stdin: bytes = b"", cwd: Path | None = None) -> Measured:
        """Run a command that reads these bytes from a pipe, in a folder."""
        self.log.unlink(missing_ok=True)
        done = subprocess.run(
            [os.fsencode(word) for word in command],
            input=stdin,
            capture_output=True,
            timeout=SECONDS,
            cwd=cwd,
            env={**os.environ, "LD_PRELOAD": os.fspath(self.library), "MEASURE_LOG": os.fspath(self.log)},
        )
        return Measured(Result(done.returncode, done.stdout, done.stderr), *struct.unpack("=3q", self.log.read_bytes()))
