"""Runs of a program with each of its allocations refused in turn, by the preloaded library `refuse.c`."""

from __future__ import annotations

import os
import struct
import subprocess
from collections.abc import Callable, Iterable, Iterator, Sequence
from pathlib import Path
from typing import NamedTuple

from support.program import Result, Word

SOURCES = Path(__file__).resolve().parent
SECONDS = 300


def preloaded(source: str, folder: Path) -> Path:
    """Compile a C source of this folder as a library to preload, and return its path."""
    library = folder / f"lib{Path(source).stem}.so"
    subprocess.run(["cc", "-shared", "-fPIC", "-O2", "-Wall", "-Wextra", "-Werror", "-o", library, SOURCES / source,
                    "-ldl"], check=True)
    return library


class Refused(NamedTuple):
    """How a program ended after one of its allocations was refused, and what it had printed before that allocation.

    `result` has the whole output; `printed` is how many bytes of standard output were written before the allocation.
    """

    result: Result
    printed: int


class Refusals(NamedTuple):
    """How a program ended with no allocation refused, and with allocation 1, 2, 3, .. refused."""

    ample: Result
    refused: list[Refused]


class Ended(NamedTuple):
    """How a program ended after an allocation was refused: its exit status, and what it wrote before and after that.

    `printed` and `reported` are how many bytes of standard output and error were written before the allocation.
    """

    status: int
    printed: int
    reported: int
    out: bytes
    err: bytes


class Refuser:
    """Runs programs with each of their allocations refused in turn."""

    def __init__(self, folder: Path) -> None:
        """Compile the library in this folder, where the output of the runs is kept too."""
        self.folder = folder
        self.library = preloaded("refuse.c", folder)
        self.runs = 0

    def run(self, command: Sequence[Word], *, stdin: bytes = b"", env: dict[str, str] | None = None,
            cwd: Path | None = None, seconds: float = SECONDS) -> Refusals:
        """Run a command, and a copy of it for each of its allocations."""
        ample, ends = self.run_long(command, stdin=stdin, env=env, cwd=cwd, seconds=seconds)
        return Refusals(ample, list(records(ends, ample)))

    def run_long(self, command: Sequence[Word], *, stdin: bytes = b"", env: dict[str, str] | None = None,
                 cwd: Path | None = None, seconds: float = SECONDS) -> tuple[Result, list[Ended]]:
        """Do the same as `run`, with no copy of what was printed before each allocation: for long outputs."""
        self.runs += 1
        given, log, out, err = (self.folder / f"{self.runs}.{kind}" for kind in ("in", "log", "out", "err"))
        given.write_bytes(stdin)
        log.write_bytes(b"")
        with open(given, "rb") as requests, open(out, "wb") as output, open(err, "wb") as error:
            done = subprocess.run([os.fsencode(word) for word in command], stdin=requests, stdout=output,
                                  stderr=error, cwd=cwd, timeout=seconds,
                                  env={**os.environ, **(env or {}), "LD_PRELOAD": os.fspath(self.library),
                                       "REFUSE_LOG": os.fspath(log)})
        ample = Result(done.returncode, out.read_bytes(), err.read_bytes())
        ends = list(logged(log.read_bytes()))
        for path in (given, log, out, err):
            path.unlink()
        return ample, ends


def line_out_of_memory(result: Result, ample: Result, message: str) -> str:
    """The name of the line that reports that memory ran out; empty if the result is another one.

    The program prints a line for each call, which begins with its name. One line has this message after its name, and
    the others are as in ample memory.
    """
    lines, wanted = result.out.decode().splitlines(), ample.out.decode().splitlines()
    changed = [(was.partition(" ")[0], line) for line, was in zip(lines, wanted) if line != was]
    if (result.status, result.err, len(lines), len(changed)) != (0, b"", len(wanted), 1):
        return ""
    ((name, line),) = changed
    return name if line == f"{name} {message}" else ""


def logged(log: bytes) -> Iterator[Ended]:
    """The records of a log of `refuse.c`, one for each allocation."""
    at, last = 0, Ended(0, 0, 0, b"", b"")
    while at < len(log):
        kind = log[at:at + 1]
        at += 1
        if kind == b"N":
            status, printed, reported, out_after, err_after = struct.unpack_from("=5i", log, at)
            at += 20
            out, at = log[at:at + out_after], at + out_after
            err, at = log[at:at + err_after], at + err_after
            last = Ended(status, printed, reported, out, err)
        yield last


def records(ends: Iterable[Ended], ample: Result) -> Iterator[Refused]:
    """The same with what was printed before the allocations. Equal ones in turn are one object."""
    before, last = None, Refused(ample, 0)
    for it in ends:
        if it is not before:
            out, err = ample.out[:it.printed] + it.out, ample.err[:it.reported] + it.err
            before, last = it, Refused(Result(it.status, out, err), it.printed)
        yield last


_CONTEXTS = 16  # allocations for the line that follows the message of an error


def message(result: Result) -> Result:
    """A result without the indented lines that follow the message of an error, which are printed if there is memory."""
    lines = result.err.splitlines(keepends=True)
    return result._replace(err=b"".join(line for line in lines if not line.startswith(b"  ")))


def wrong(refusals: Refusals, accepts: Callable[[Result], bool], unchanged: int = 0) -> list[tuple[int, Result]]:
    """The allocations, counted from 1, whose refusal gave a result that is not accepted, with that result.

    At most `unchanged` refusals may give the result of ample memory. If that is an error, some may also change nothing
    but the line after its message.
    """
    found = []
    if refusals.ample.status in (1, 3):
        unchanged += _CONTEXTS
    for number, (result, _) in enumerate(refusals.refused, 1):
        if message(result) == message(refusals.ample) and unchanged > 0:
            unchanged -= 1
        elif not accepts(message(result)):
            found.append((number, result))
    return found
