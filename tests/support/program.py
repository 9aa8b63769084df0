"""Running a program: its exit status and what it prints."""

from __future__ import annotations

import hashlib
import os
import re
import subprocess
import threading
from collections.abc import Iterable, Mapping, Sequence
from pathlib import Path
from typing import NamedTuple, Union

from support.built import PROGRAM

SECONDS = 60

Word = Union[str, bytes, Path]


class Result(NamedTuple):
    """How a program ended: its exit status (negative for a signal), standard output and standard error."""

    status: int
    out: bytes
    err: bytes


def done(out: bytes = b"") -> Result:
    """The result of a command that is done and prints this."""
    return Result(0, out, b"")


def failed(status: int, line: str) -> Result:
    """The result of a command that fails: its exit status and the line on standard error, without `hdt: `."""
    return Result(status, b"", b"hdt: " + line.encode() + b"\n")


class InputOutputError(bytes):
    """Standard error of a command whose input or output failed: equal to this line and one with the system's reason."""

    def __eq__(self, other: object) -> bool:
        if not isinstance(other, bytes) or not other.startswith(self):
            return False
        return re.fullmatch(rb"  [^\n]*: [^\n]+\n", other[len(self):]) is not None

    def __ne__(self, other: object) -> bool:
        return not self == other

    __hash__ = bytes.__hash__


def fault(number: int, name: str, offset: int) -> Result:
    """The result of a command whose input has an error: its number, its name and its byte offset."""
    return failed(1, f"fault {number} {name} at {offset}")


NO_TRIPLES = failed(1, "no triples")
NO_SUCH_TERM = failed(1, "no such term")
NO_SUCH_NUMBER = failed(1, "no such number")
BAD_OPTIONS = failed(2, "bad options")
READING_FAILED = Result(3, b"", InputOutputError(b"hdt: reading failed\n"))
WRITING_FAILED = Result(3, b"", InputOutputError(b"hdt: writing failed\n"))
OUT_OF_MEMORY = failed(4, "out of memory")


def run(command: Sequence[Word], *, stdin: bytes = b"", env: Mapping[str, str] | None = None,
        cwd: Path | None = None, seconds: float = SECONDS) -> Result:
    """Run a command to its end and return its result.

    `stdin` is what it reads from a pipe; `env` is added to the environment. Raises subprocess.TimeoutExpired after
    `seconds`.
    """
    done = subprocess.run([os.fsencode(word) for word in command], input=stdin, capture_output=True,
                          env={**os.environ, **(env or {})}, cwd=cwd, timeout=seconds)
    return Result(done.returncode, done.stdout, done.stderr)


def hdt(*words: Word, stdin: bytes = b"", env: Mapping[str, str] | None = None, cwd: Path | None = None,
        seconds: float = SECONDS) -> Result:
    """Run the command `hdt` with these arguments, as `run` does."""
    return run([PROGRAM, *words], stdin=stdin, env=env, cwd=cwd, seconds=seconds)


def fed(pieces: Iterable[bytes], *words: Word, seconds: float = SECONDS) -> Result:
    """Run `hdt` with these arguments; its standard input is a pipe into which these pieces are written."""
    reading, writing = os.pipe()

    def write() -> None:
        try:
            for piece in pieces:
                os.write(writing, piece)
        except BrokenPipeError:
            pass
        finally:
            os.close(writing)

    with subprocess.Popen([os.fsencode(word) for word in (PROGRAM, *words)], stdin=reading, stdout=subprocess.PIPE,
                          stderr=subprocess.PIPE) as program:
        os.close(reading)
        writer = threading.Thread(target=write)
        writer.start()
        try:
            out, err = program.communicate(timeout=seconds)
        finally:
            program.kill()
            writer.join()
    return Result(program.returncode, out, err)


def piped(data: bytes, step: int, *words: Word, seconds: float = SECONDS) -> Result:
    """Run `hdt` as `fed` does; its input is written in pieces of `step` bytes."""
    return fed((data[start:start + step] for start in range(0, len(data), step)), *words, seconds=seconds)


def hdt_from(path: Path, *words: Word, seconds: float = SECONDS) -> Result:
    """Run `hdt` with these arguments; its standard input is this file."""
    with open(path, "rb") as source:
        done = subprocess.run([os.fsencode(word) for word in (PROGRAM, *words)], stdin=source, capture_output=True,
                              timeout=seconds)
    return Result(done.returncode, done.stdout, done.stderr)


def hdt_into(path: Word, *words: Word, stdin: bytes = b"", seconds: float = SECONDS) -> Result:
    """Run `hdt` with these arguments; its standard output is this file, and the result has none."""
    with open(path, "wb") as sink:
        done = subprocess.run([os.fsencode(word) for word in (PROGRAM, *words)], input=stdin, stdout=sink,
                              stderr=subprocess.PIPE, timeout=seconds)
    return Result(done.returncode, b"", done.stderr)


def closed(descriptor: int, *words: Word) -> Result:
    """Run `hdt` with these arguments, with one of its standard descriptors (0, 1 or 2) closed."""
    redirection = f'{descriptor}{"<" if descriptor == 0 else ">"}&-'
    return run(["sh", "-c", f'exec "$@" {redirection}', "sh", PROGRAM, *words])


def shortened(data: bytes) -> bytes:
    """Long bytes as their two ends, their length and a hash between them: equal where the bytes are, and readable."""
    if len(data) <= 2_000:
        return data
    digest = hashlib.sha256(data).hexdigest().encode()
    return b"%s .. %d bytes, sha256 %s .. %s" % (data[:200], len(data), digest, data[-200:])


def brief(result: Result) -> Result:
    """A result with its outputs shortened: what large results are compared by, so that a difference is readable."""
    return Result(result.status, shortened(result.out), shortened(result.err))
