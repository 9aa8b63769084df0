"""The system calls that put a file or a folder in its place, as the preloaded library `calls.c` logs them."""

from __future__ import annotations

import itertools
import os
from collections.abc import Mapping, Sequence
from pathlib import Path
from typing import NamedTuple

from support.program import SECONDS, Result, Word, run
from support.refusing import preloaded


class Calls(NamedTuple):
    """How a program ended, and the calls that it made; writes that follow each other are one."""

    result: Result
    made: list[str]


class Caller:
    """Runs programs, logs the calls that they make, and makes some of them fail."""

    def __init__(self, folder: Path) -> None:
        """Compile the library in this folder, where the log is kept too."""
        self.library, self.log = preloaded("calls.c", folder), folder / "log"

    def run(self, command: Sequence[Word], *, failing: int = 0, killed: int = 0, taken: int = 0, refused: int = 0,
            meanwhile: str | None = None, env: Mapping[str, str] | None = None, cwd: Path | None = None,
            seconds: float = SECONDS) -> Calls:
        """Run a command to its end.

        The call number `failing` fails, or the program is killed before the call number `killed`; `taken` names of new
        files and folders are taken (-1: all), the allocation number `refused` is refused, and the script `meanwhile` is
        run by the shell at the first `fsync`. Numbers count from 1; 0 is none.
        """
        self.log.write_bytes(b"")
        given = {"LD_PRELOAD": os.fspath(self.library), "CALLS_LOG": os.fspath(self.log),
                 "CALLS_FAIL": str(failing or -killed), "CALLS_TAKEN": str(taken), "CALLS_REFUSE": str(refused)}
        if meanwhile is not None:
            given["CALLS_MEANWHILE"] = meanwhile
        result = run(command, env={**given, **(env or {})}, cwd=cwd, seconds=seconds)
        return Calls(result, logged(self.log))


def logged(log: Path) -> list[str]:
    """The calls of a log; writes that follow each other are one."""
    made = itertools.groupby(log.read_text().splitlines())
    return [call for name, some in made for call in (["write"] if name == "write" else some)]
