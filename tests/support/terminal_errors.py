"""Running the program with a terminal as standard error, and what the terminal shows then."""

from __future__ import annotations

import os
import pty
import re
import select
import subprocess
import time
from collections.abc import Callable, Mapping
from pathlib import Path
from typing import IO, NamedTuple

from support.built import PROGRAM
from support.program import Word

SECONDS = 60


class Shown(NamedTuple):
    """How a program on a terminal ended: its exit status, and the bytes that the terminal received."""

    status: int
    text: bytes


def read_until(leader: int, process: subprocess.Popen[bytes], enough: Callable[[bytes], bool] | None = None) -> bytes:
    """What a terminal receives until the program has ended, or until it is enough."""
    text, end = b"", time.monotonic() + SECONDS
    while time.monotonic() < end and not (enough and enough(text)):
        ended = process.poll() is not None
        if select.select([leader], [], [], 0 if ended else 0.05)[0]:
            try:
                text += os.read(leader, 65_536)
            except OSError:  # (the end of a terminal whose other side is closed)
                break
        elif ended:
            break
    return text


def on_terminal(*words: Word, cwd: Path | None = None, env: Mapping[str, str] | None = None, out_too: bool = False,
                stdin: int | IO[bytes] = subprocess.DEVNULL) -> Shown:
    """Run the program with a terminal as standard error, and as standard output if `out_too`."""
    leader, follower = pty.openpty()
    try:
        with subprocess.Popen([os.fsencode(word) for word in (PROGRAM, *words)], cwd=cwd, stdin=stdin, stderr=follower,
                              env={**os.environ, "TERM": "xterm", "COLUMNS": "80", **(env or {})},
                              stdout=follower if out_too else subprocess.DEVNULL) as process:
            os.close(follower)
            try:
                text = read_until(leader, process)
            finally:
                process.kill()
    finally:
        os.close(leader)
    return Shown(process.returncode, text)


def screen(text: bytes, columns: int = 80) -> list[str]:
    """The lines on a terminal that has received this text: carriage returns, line feeds, erasing, and wrapping."""
    lines, column, wraps = [""], 0, True
    for part in re.findall(r"\x1b\[\?7[lh]|\x1b\[K|[^\x1b]", text.decode()):
        if part.startswith("\x1b[?7"):
            wraps = part.endswith("h")
        elif part == "\x1b[K":
            lines[-1] = lines[-1][:column]
        elif part == "\r":
            column = 0
        elif part == "\n":
            lines.append("")
        else:
            if column == columns and wraps:
                lines.append("")
                column = 0
            column = min(column, columns - 1)
            lines[-1] = lines[-1][:column].ljust(column) + part + lines[-1][column + 1:]
            column += 1
    return [line.rstrip() for line in lines if line.strip()]
