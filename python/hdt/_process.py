"""Programs that read what they are given and write: pipes to and from them, their status and what they say."""

from __future__ import annotations

import os
import re
import selectors
import subprocess
from collections.abc import Generator, Iterator, Mapping, Sequence
from typing import IO, Any, Optional, cast

_PIECE = 64 * 1024  # bytes that are read of a pipe at once
_MOST = 4 * 1024  # bytes that are kept of the beginning and of the end of standard error
_SECONDS = 30.0  # that a program has to end after it has closed its output


class ProgramFailed(Exception):
    """A program that failed: its status, negative for a signal, and the beginning and end of what it said.

    The status is None for a program that did not end, or that did not read all of its input.
    """

    def __init__(self, program: str, status: Optional[int], said: str, why: str) -> None:
        self.program, self.status, self.said = program, status, said
        super().__init__(why)

    def first_line(self) -> str:
        """The first line that it said; empty if it said nothing."""
        return next((line.strip() for line in self.said.splitlines() if line.strip()), "")


def piped(
    words: Sequence[str],
    pieces: Iterator[bytes],
    environment: Optional[Mapping[str, str]] = None,
    message: Optional[re.Pattern[str]] = None,
) -> Generator[bytes, None, None]:
    """Give pieces to the standard input of a program, and yield what it writes, as it comes.

    The generator has to be read to its end, or closed: then the program is killed. Raises ProgramFailed if the program
    ends with a status other than 0 or by a signal, if it says a `message` of an error, if it doesn't end, or if it
    doesn't read all of its input; OSError; and what `pieces` raise. Memory: a piece and some 100 KiB.
    """
    name = os.path.basename(words[0])
    variables = {**os.environ, "LC_ALL": "C", **(environment or {})}
    with subprocess.Popen(
        words, stdin=subprocess.PIPE, stdout=subprocess.PIPE, stderr=subprocess.PIPE, bufsize=0, env=variables
    ) as process:
        try:
            exchange = _Exchange(process, pieces)
            yield from exchange.run()
            _check(process, name, exchange, message)
        finally:
            process.kill()  # (nothing, if it has ended)


class _Exchange:
    """The pipes of a program: this thread alone writes to it and reads from it, whichever is ready."""

    def __init__(self, process: subprocess.Popen[bytes], pieces: Iterator[bytes]) -> None:
        self._process, self._pieces, self._left = process, pieces, memoryview(b"")
        self.has_read_all, self.said = False, b""

    def run(self) -> Iterator[bytes]:
        """Yield the output, up to its end."""
        given = self._of(self._process.stdin)
        os.set_blocking(given, False)
        with selectors.DefaultSelector() as selector:
            selector.register(given, selectors.EVENT_WRITE, self._write)
            selector.register(self._of(self._process.stdout), selectors.EVENT_READ, self._read)
            selector.register(self._of(self._process.stderr), selectors.EVENT_READ, self._hear)
            while selector.get_map():
                for key, _ in selector.select():
                    found = key.data(key.fd)
                    if found is None:
                        selector.unregister(key.fd)
                    elif found:
                        yield found

    @staticmethod
    def _of(file: Optional[IO[bytes]]) -> int:
        return cast(Any, file).fileno()  # type: ignore[no-any-return]

    def _write(self, descriptor: int) -> Optional[bytes]:
        """Write some of a piece. None at the end of the input, or if the program reads no more."""
        self._left = self._left or memoryview(next(self._pieces, b""))
        if self._left:
            try:
                self._left = self._left[os.write(descriptor, self._left) :]
                return b""
            except BrokenPipeError:
                pass
        else:
            self.has_read_all = True
        cast(Any, self._process.stdin).close()
        return None

    def _read(self, descriptor: int) -> Optional[bytes]:
        return os.read(descriptor, _PIECE) or None

    def _hear(self, descriptor: int) -> Optional[bytes]:
        found = os.read(descriptor, _PIECE)
        self.said += found
        if len(self.said) > 2 * _MOST:
            self.said = self.said[:_MOST] + b"\n" + self.said[-_MOST + 1 :]
        return b"" if found else None


def _check(
    process: subprocess.Popen[bytes], name: str, exchange: _Exchange, message: Optional[re.Pattern[str]]
) -> None:
    """Wait for the end of a program. Raises ProgramFailed unless it succeeded and has read all of its input."""
    said = exchange.said.decode("utf-8", "replace")
    try:
        status = process.wait(_SECONDS)
    except subprocess.TimeoutExpired:
        raise ProgramFailed(name, None, said, f"{name} did not end") from None
    if status < 0:
        raise ProgramFailed(name, status, said, f"{name} was ended by signal {-status}")
    if status:
        raise ProgramFailed(name, status, said, f"{name} failed with status {status}")
    if message is not None and message.search(said):
        raise ProgramFailed(name, status, said, f"{name} reported an error")
    if not exchange.has_read_all:
        raise ProgramFailed(name, None, said, f"{name} did not read all of its input")
